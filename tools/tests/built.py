"""Small programs, built and run in a folder of their own: what the tests share that are given the program's path as their word."""
import importlib.machinery
import importlib.util
import re
import subprocess
import sys
import tempfile
import unittest
from dataclasses import dataclass
from pathlib import Path

TOP = Path(__file__).resolve().parent.parent.parent
TOOLS, LIBRARY = TOP / "tools", TOP / "lib"
sys.path.insert(0, str(TOOLS))
sys.dont_write_bytecode = True

import ports  # noqa: E402  (it stands in the folder above)

# How far a tool has come (tools/manners.py, Progress), as it says where there is no terminal.
PROGRESS = re.compile(r"^gos-\w+: .+, \d+ s\n", re.M)
BUILD = "gosbuild 1\n{}root {}\nnet out.net\nverilog out.v\npulses in.pls\ntrace out.trc\n"


def script(name):
    """A script of the folder tools, as a module."""
    loader = importlib.machinery.SourceFileLoader(name.replace("-", "_"), str(TOOLS / name))
    module = importlib.util.module_from_spec(importlib.util.spec_from_loader(loader.name, loader))
    sys.modules[loader.name] = module
    loader.exec_module(module)
    return module


def signals(dump):
    """A value change dump, read back: the number of cycles, and by its scope and name what each signal is in each of them."""
    scope, name, now, time, found = [], {}, {}, 0, {}
    head, body = dump.split("$enddefinitions $end\n")
    for words in map(str.split, head.split("\n")):
        if words[:1] == ["$scope"]:
            scope.append(words[2])
        elif words[:1] == ["$upscope"]:
            scope.pop()
        elif words[:2] in (["$var", "wire"], ["$var", "reg"]):
            name[words[3]] = f"{scope[-1]}.{words[4]}"
    assert not scope, "a scope is left open"
    for line in body.split("\n"):
        if line.startswith("#"):
            assert int(line[1:]) - time in (0, 1), "a time is left out"
            for code, value in now.items() if int(line[1:]) > time else ():
                found.setdefault(name[code], []).append(value)
            time = int(line[1:])
        elif line.startswith("b"):
            value, code = line[1:].split(" ")
            now[code] = value
        elif line and line[0] in "01" and line[1:] in name:
            now[line[1:]] = line[0]
    return time, found


def main(usage):
    """Runs the tests of the calling script on the program that its first word names."""
    if len(sys.argv) < 2 or sys.argv[1].startswith("-"):
        sys.exit(usage)
    Room.gos = str(Path(sys.argv.pop(1)).resolve())
    unittest.main(module="__main__")


@dataclass
class Run:
    """What a build left: its line's weight, if it has one, the cells of its netlist, and the trace's pulses."""

    weight: int
    unused: int
    cells: int
    pulses: list

    def times(self, event):
        """The cycles in which an event has its pulse."""
        return [cycle for cycle, name, _ in self.pulses if name == event]

    def values(self, event):
        return [value for _, name, value in self.pulses if name == event]

    def names(self):
        """The events, one for each pulse, in order."""
        return [name for _, name, _ in self.pulses]


class Room:
    """A folder of its own, and the program."""

    gos = ""

    def __init__(self, path):
        self.path = Path(path)

    def write(self, **files):
        """Writes files, each by its name, in which `__` stands for the dot."""
        for name, text in files.items():
            (self.path / name.replace("__", ".")).write_text(text)

    def run(self, *words):
        return subprocess.run([str(it) for it in words], cwd=self.path, capture_output=True, text=True, timeout=600)

    def build(self, modules, pulses, binds=(), root="main"):
        """Builds modules, each a text by its name, runs the netlist, and answers what came out."""
        self.write_build(modules, binds, root)
        self.write(in__pls=pulses)
        return self.ran(self.gos, "build", "b.txt")

    def play(self, modules, description, binds=(), root="main"):
        """Builds modules and runs the netlist in the environment of a description (docs/PLAY.md), where it has to come to its end."""
        self.write_build(modules, binds, root)
        self.write(d__play=description)
        return self.ran(TOOLS / "gos-play", "--gos", self.gos, "b.txt", "d.play")

    def write_build(self, modules, binds, root):
        for name, text in modules.items():
            (self.path / f"{name}.gos").write_text(text)
        lines = [f"inst {name} {name}.gos {name}.obj\n" for name in modules] + [f"bind {it}\n" for it in binds]
        self.write(b__txt=BUILD.format("".join(lines), root))

    def ran(self, *words):
        """What came out of a build by these words."""
        ran = self.run(*words)
        told = [line for line in ran.stdout.splitlines() if " beats found it not asking" not in line]
        if ran.returncode or len(told) != 1:
            raise AssertionError(f"{words[0]} {words[1]} ended with {ran.returncode}: {ran.stdout}{ran.stderr}")
        said = dict(zip(*[iter(told[0].split()[1:])] * 2))
        cells = int((self.path / "out.net").read_text().split("\n")[1].removeprefix("cells "))
        found, _ = ports.pulses_of((self.path / "out.trc").read_text())
        return Run(int(said.get("weight", 0)), int(said["unused"]), cells, found)


class Case(unittest.TestCase):
    """A test with a room of its own."""

    def setUp(self):
        room = tempfile.TemporaryDirectory()
        self.addCleanup(room.cleanup)
        self.room = Room(room.name)
