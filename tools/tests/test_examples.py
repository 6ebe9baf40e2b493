#!/usr/bin/env python3
"""Does what the README of each controller in examples says, and compares what is printed with what stands there.

Where verilator is installed, the command of docs/VERILOG.md that reads a module for faults finds none in any example; and where
iverilog is, the page's frame for pins shows what the button is. bench/designs.py replays a design in both, where they are installed.

usage: tools/tests/test_examples.py GOS [WORDS OF unittest]
       tools/tests/test_examples.py GOS --write

A controller is a folder of examples with a description for gos-play. What its README has in blocks ```console is done in a copy of
the folder: a line behind `$ ` is a command, and the lines up to the next one are what it prints. A command whose tool isn't
installed is passed over, and said so. With --write the READMEs get what is printed.
"""
import os
import re
import shutil
import subprocess
import sys
import tempfile
import unittest
from pathlib import Path

import built
import builds  # (built has put the folder above into the path)
import ports

sys.path.append(str(built.TOP / "bench"))

import linking  # noqa: E402  (these stand in the folder of benches)
import replays  # noqa: E402

EXAMPLES, VERILOG = built.TOP / "examples", built.TOP / "docs" / "VERILOG.md"
MOST_LINES = 20
BLOCK = re.compile(r"^```console\n(.*?)^```$", re.M | re.S)
FILE = re.compile(r"^```\w+ (\S+)\n(.*?)^```$", re.M | re.S)
BENCH = """
module bench;
  reg clock = 0, button = 0;
  wire led;
  top frame(clock, button, led);
  always #1 clock = ~clock;
  initial begin
    #100 $display("%b", led); button = 1;
    #100 $display("%b", led); button = 0;
    #100 $display("%b", led); $finish(0);
  end
endmodule
"""
# The tool that a command wants, where it may be missing.
WANTED = {"iverilog": "iverilog", "vvp": "vvp", "gos-bench": "iverilog", "gos-formal": "yosys"}


def controllers():
    return sorted(play.parent for play in EXAMPLES.glob("*/*.play"))


def commands(block):
    """The commands of a console block, each with what it prints."""
    for part in re.split(r"^\$ ", block, flags=re.M)[1:]:
        command, _, printed = part.partition("\n")
        yield command, printed


def printed_by(command, folder):
    """What a command prints in a folder; none where a tool that it wants is not installed."""
    missing = [WANTED[word] for word in command.split() if word in WANTED and not shutil.which(WANTED[word])]
    if missing:
        print(f"examples: {missing[0]} is not installed: `{command}` is passed over")
        return None
    path = f"{folder.parent / 'bin'}:{built.TOOLS}:{os.environ['PATH']}"
    how = {"cwd": folder, "text": True, "timeout": 600, "env": {**os.environ, "PATH": path}}
    said = subprocess.run(["bash", "-c", command], stdout=subprocess.PIPE, stderr=subprocess.STDOUT, **how).stdout
    return built.PROGRESS.sub("", said)


def done(example):
    """The README of an example as it has to be."""
    with tempfile.TemporaryDirectory() as room:
        (Path(room) / "bin").mkdir()
        (Path(room) / "bin" / "gos").symlink_to(built.Room.gos)
        folder = Path(shutil.copytree(example, Path(room) / example.name))

        def block(found):
            said = [(command, printed_by(command, folder), printed) for command, printed in commands(found[1])]
            return "```console\n" + "".join(f"$ {it}\n{old if new is None else new}" for it, new, old in said) + "```"

        return BLOCK.sub(block, (example / "README.md").read_text())


class Controllers(unittest.TestCase):
    def test_how_far_a_tool_has_come_is_no_matter(self):
        with tempfile.TemporaryDirectory() as room:
            said = printed_by("echo 'gos-bench: verilator is at work, 30 s' >&2; echo iverilog: agrees", Path(room))
            self.assertEqual(said, "iverilog: agrees\n")

    def test_each_prints_what_its_readme_says(self):
        for example in controllers():
            with self.subTest(example.name):
                self.assertEqual(done(example), (example / "README.md").read_text())

    def test_each_readme_is_short_and_the_list_has_it(self):
        listed = (EXAMPLES / "README.md").read_text()
        for example in controllers():
            with self.subTest(example.name):
                self.assertIn(f"- `{example.name}`: ", listed)
                self.assertLessEqual(len((example / "README.md").read_text().splitlines()), MOST_LINES)


class Verilog(built.Case):
    """What docs/VERILOG.md shows."""

    def test_the_command_that_reads_for_faults_is_silent(self):
        if not shutil.which("verilator"):
            self.skipTest("verilator is not installed")
        words = re.search(r"^    (verilator --lint-only .*)$", VERILOG.read_text(), re.M)[1].split()
        for build in sorted(EXAMPLES.glob("*/b.txt")):
            with self.subTest(build.parent.name):
                room = built.Room(shutil.copytree(build.parent, self.room.path / build.parent.name))
                room.run(room.gos, "build", "b.txt")
                ran = room.run(*words)
                self.assertEqual((ran.returncode, ran.stdout + ran.stderr), (0, ""))

    def test_the_frame_shows_what_the_button_is(self):
        if not shutil.which("iverilog"):
            self.skipTest("iverilog is not installed")
        files = dict(FILE.findall(VERILOG.read_text()))
        self.room.write(top__v=files["top.v"], bench__v=BENCH)
        self.room.build({"main": files["main.gos"]}, "cycles 1\n")
        ran = self.room.run("iverilog", "-o", "bench", "bench.v", "top.v", "out.v")
        self.assertEqual((ran.returncode, ran.stdout + ran.stderr), (0, ""))
        self.assertEqual(self.room.run("vvp", "-n", "bench").stdout, "0\n1\n0\n")


class Links(unittest.TestCase):
    """bench/linking.py."""

    def test_times_are_of_the_processor(self):
        for status in (0, 2):
            self.assertLess(linking.best(["sh", "-c", f"sleep 0.5; exit {status}"], ".", status), 0.4)


# A program that does what gos does, but for lines of the traces of `sim`.
EDITING = """#!/bin/sh
"$GOS" "$@" || exit
[ "$1" != sim ] || sed -i "$EDIT" "$4"
"""


# Passes on numbers of these widths, each of which has its highest bit.
WIDTHS = (1, 8, 9, 17, 33, 64)
PASSING = "\n".join([*(f"import from_{it} : exp {it}\nimport to_{it} : var {it}" for it in WIDTHS),
                     "export " + " ; ".join(f"to_{it} := from_{it}" for it in WIDTHS) + " : com\n"])
PASSED = "\n".join(["cycles 200", "next 0 main.run",
                    *(f"next 3 from_{it}.ans {(1 << it) - 1 - (1 << it) // 3}\nnext 3 to_{it}.done" for it in WIDTHS), ""])


class Designs(built.Case):
    """bench/designs.py, in a short run of a small design."""

    def measured(self, *programs, edit=""):
        words = [built.TOP / "bench/designs.py", "--cycles", "1000", ",".join(map(str, programs)), "stack"]
        env = {**os.environ, "ROUNDS": "1", "GOS": str(self.room.gos), "EDIT": edit}
        return subprocess.run([sys.executable, *words], capture_output=True, text=True, timeout=600, env=env)

    def editing(self):
        program = self.room.path / "editing"
        program.write_text(EDITING)
        program.chmod(0o755)
        return program

    def test_its_rows(self):
        ran = self.measured(self.room.gos, self.room.gos)
        peers = [name for name, it in replays.SIMULATORS.items() if it.is_there()]
        head, _, row, mean = [line.strip("| ").split(" | ") for line in ran.stdout.splitlines() if line.startswith("|")]
        self.assertEqual(ran.returncode, 0, ran.stderr)
        self.assertEqual(head[:5 + len(peers)], ["design", "cells", "pulses", "program 1", "program 2", *peers])
        self.assertEqual((row[0], len(row), mean[0]), ("stack", len(head), "geometric mean"))
        self.assertTrue(all(re.fullmatch(r"\d+ ns", it) for it in row[3:5 + len(peers)]), row)
        # (of one design the mean is its own)
        self.assertEqual((head[-1], mean[-1]), ("2 to 1", row[-1]))

    def test_a_trace_of_another_program_that_differs(self):
        ran = self.measured(self.room.gos, self.editing(), edit="5d")
        said = f"stack: the trace of {self.editing()} is not that of {self.room.gos}"
        self.assertEqual((ran.returncode, ran.stderr.splitlines()[-1]), (3, said))

    def test_inputs_that_stop(self):
        ran = self.measured(self.editing(), edit="/^[1-9]/d")
        self.assertEqual((ran.returncode, ran.stderr.splitlines()[-1]), (2, "stack: nothing happens behind cycle 0 of 1000"))

    def replay(self, left_out=None):
        """What the build did that was made last in the room, but for a pulse."""
        pins = [pin for port in builds.read_ports(self.room.path / "out.net") for pin in ports.pins_of(port)]
        pulses, cycles = builds.read_trace(self.room.path / "out.trc", [pin.name for pin in pins])
        return replays.Replay(self.room.path, "out.v", pins, [it for it in pulses if it != left_out]), cycles

    def test_each_simulator_takes_numbers_of_all_widths(self):
        ran = self.room.build({"main": PASSING}, PASSED)
        self.assertEqual(ran.values("to_64.write"), [(1 << 64) - 1 - (1 << 64) // 3])
        replay, cycles = self.replay()
        for name, it in replays.SIMULATORS.items():
            with self.subTest(name):
                if not it.is_there():
                    self.skipTest(f"{it.command} is not installed")
                self.assertEqual(self.room.run(*it.made_by(replay)(cycles, each=True)).stdout, "agrees\n")

    def test_the_moves_for_verilator_stand_without_gaps(self):
        self.room.build({"main": PASSING}, PASSED)
        replay, _ = self.replay()
        replays.write_moves(replay, replay.moves())
        # (a cycle has four bytes, and each of the 38 pulses one; each width has three values)
        size = 4 + 38 + 3 * sum(1 << max(0, (width - 1).bit_length() - 3) for width in WIDTHS)
        self.assertEqual((self.room.path / "moves.dat").stat().st_size, size * len(replay.moves()))

    def test_each_simulator_sees_an_output_too_much(self):
        shutil.copytree(EXAMPLES / "stack", self.room.path, dirs_exist_ok=True)
        self.room.run(self.room.gos, "build", "b.txt")
        left_out = next(it for it in self.replay()[0].pulses if it[1] == "wish.ask")
        replay, cycles = self.replay(left_out)
        for name, it in replays.SIMULATORS.items():
            with self.subTest(name):
                if not it.is_there():
                    self.skipTest(f"{it.command} is not installed")
                run = it.made_by(replay)
                self.assertEqual(self.room.run(*run(cycles, each=True)).stdout, f"differs in cycle {left_out[0]}\n")


def write():
    built.Room.gos = str(Path(sys.argv[1]).resolve())
    for example in controllers():
        (example / "README.md").write_text(done(example))


if __name__ == "__main__":
    if sys.argv[2:] == ["--write"]:
        write()
    else:
        built.main(__doc__)
