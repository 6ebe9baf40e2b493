#!/usr/bin/env python3
"""Runs the benches of examples/boards: of what gos-top writes around the circuits, and of the same by hand.

usage: tools/tests/test_boards.py GOS [WORDS OF unittest]
       tools/tests/test_boards.py GOS --write

A bench prints `ok NAME`: of the circuits by Verilator, and by hand by Icarus Verilog, or both by the one that there is. With --write the table of
examples/boards/README.md gets what yosys and nextpnr say of both.
"""
import re
import shutil
import sys
import tempfile
import unittest
from pathlib import Path

import built

BOARDS = built.TOP / "examples/boards"
PAGE = BOARDS / "README.md"
NAMES = sorted(it.parent.name for it in BOARDS.glob("*/top.txt"))
TABLE = re.compile(r"(?m)^\| \| LUTs .*\n(?:\|.*\n)+")
# Verilator's code isn't made fast, since it runs for less time than that would take.
FAST_TO_MAKE = ["-MAKEFLAGS", "OPT_FAST=-O0 OPT_SLOW=-O0 OPT_GLOBAL=-O0"]


def told(room, *words):
    """What a command that has to succeed prints."""
    ran = room.run(*words)
    if ran.returncode:
        raise AssertionError(f"{' '.join(map(str, words))} ended with {ran.returncode}: {ran.stdout}{ran.stderr}")
    return ran.stdout


def made(name, path):
    """A copy of a folder in which all is built, and the files of the whole."""
    room = built.Room(shutil.copytree(BOARDS / name, path))
    told(room, built.TOOLS / "gos-make", f"{name}.make")
    told(room, room.gos, "build", f"{name}.txt")
    told(room, built.TOOLS / "gos-top", "top.txt")
    words = dict(re.findall(r"(?m)^(\w+) = (.*)$", (room.path / "Makefile").read_text()))
    return room, words["SOURCES"].replace("$(RTL)", words["RTL"]).split()


def by_verilator(room, files):
    """What the bench of a folder says of the module top in some files."""
    told(room, "verilator", "--binary", "-Wno-fatal", "--top", "bench", *FAST_TO_MAKE, "-o", "bench", "bench.v", *files)
    return told(room, room.path / "obj_dir/bench").splitlines()


def by_icarus(room, files):
    told(room, "iverilog", "-g2005", "-s", "bench", "-o", "bench.vvp", "bench.v", *files)
    return told(room, "vvp", "-n", "bench.vvp").splitlines()


def costs(room, files):
    """LUTs, flip-flops and MHz of the module top in some files."""
    said = told(room, "yosys", "-p", f"read_verilog {' '.join(files)}; synth_ice40 -top top -json top.json; stat").rpartition("Number of cells")[2]
    found = {kind: int(count) for kind, count in re.findall(r"(SB_\w+)\s+(\d+)", said)}
    ran = room.run("nextpnr-ice40", "--hx8k", "--package", "ct256", "--seed", "1", "--json", "top.json", "--asc", "top.asc")
    frequency = re.findall(r"Max frequency for clock.*?: ([\d.]+) MHz", ran.stderr)[-1]
    return found["SB_LUT4"], sum(it for kind, it in found.items() if kind.startswith("SB_DFF")), frequency.partition(".")[0]


class Boards(built.Case):
    def test_benches(self):
        there = [said_by for program, said_by in (("verilator", by_verilator), ("iverilog", by_icarus)) if shutil.which(program)]
        if not there:
            self.skipTest("neither verilator nor iverilog is installed")
        for name in NAMES:
            with self.subTest(name):
                room, files = made(name, self.room.path / name)
                self.assertIn(f"ok {name}", there[0](room, files))
                self.assertIn(f"ok {name}", there[-1](room, ["by_hand.v"]))

    def test_each_has_a_row(self):
        self.assertEqual(re.findall(r"(?m)^\| `(\w+)` \|", PAGE.read_text()), NAMES)
        self.assertEqual(sorted(re.findall(r"(?m)^- `(\w+)`: ", PAGE.read_text())), NAMES)


def rows():
    yield "| | LUTs | by hand | Flip-flops | by hand | MHz | by hand |"
    yield "|---|---|---|---|---|---|---|"
    for name in NAMES:
        with tempfile.TemporaryDirectory() as path:
            room, files = made(name, Path(path) / name)
            both = zip(costs(room, files), costs(room, ["by_hand.v"]))
        yield f"| `{name}` | {' | '.join(f'{ours} | {by_hand}' for ours, by_hand in both)} |"


def write():
    built.Room.gos = str(Path(sys.argv[1]).resolve())
    table = "\n".join(rows())
    PAGE.write_text(TABLE.sub(lambda _: f"{table}\n", PAGE.read_text()))


if __name__ == "__main__":
    if sys.argv[2:] == ["--write"]:
        write()
    else:
        built.main(__doc__)
