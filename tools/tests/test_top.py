#!/usr/bin/env python3
"""Tests gos-top: what it writes and refuses, and each step of docs/BOARD.md.

usage: tools/tests/test_top.py GOS [WORDS OF unittest]
"""
import os
import re
import shutil
import subprocess
import unittest

import built

PAGE = built.TOP / "docs/BOARD.md"
BLOCK = re.compile(r"^```(\w+)(?: (\S+))?\n(.*?)^```$", re.M | re.S)
# What the steps want beside the program.
WANTED = ["iverilog", "vvp", "yosys", "nextpnr-ice40", "icepack", "make"]
MODULE = """import tick : com
import half : com
import button : exp 2
import byte : exp 8
import missed : exp 4
import place : var 4
import word : var 8
import out : var 8
export
  new n : 8 in
    (tick ; half ; n := byte ; place := 3:4 ; word := !n + !word ; out := !n ; (if button = 2:2 then out := 0:8 else skip) ;
     if missed = 0:4 then skip else skip)
  : com
"""
GOOD = """board icestick
circuit out.net out.v
main runs for ever
tick beats every 104 cycles from half.done
half takes 52 cycles
button is pins 1 2
byte receives 115200 baud at pin 9
missed tells tick
word is ram at place
out sends 115200 baud at pin 8
"""
# A line of the description, another one in its place, and what is said of it.
REFUSED = [
    ("board icestick", "board icestack", r"1:7: `icestack` can't stand here; is `icestick` meant\?"),
    ("board icestick", "", r"2:\d+: .*lines `board BOARD`|3:1: lines `board BOARD`.*"),
    ("board icestick", "board icestick\nclock 48 MHz", r"2:13: the line ends here; what can: `at`"),
    ("board icestick", "board icestick\nclock 12 MHz", r""),
    ("circuit out.net out.v", 'circuit out.net "a b.v"', r"2:17: a file's name has letters, digits and `_.-/`, since a Makefile has it"),
    ("word is ram at place", 'word is ram "words hex" at place', r"9:13: a file's name has letters, digits and `_.-/`, since a Makefile has it"),
    ("main runs for ever", "main runs twice", r"3:11: `twice` can't stand here.*"),
    ("main runs for ever", "", r" nothing is said of the port `main`, the root, of `com`.*"),
    ("half takes 52 cycles", "half takes 1 us", r""),
    ("half takes 52 cycles", "half takes 0 cycles", r"5:12: a time is 1 to .*"),
    ("half takes 52 cycles", "half is pin 7", r"5:6: `is` can't stand here.*"),
    ("button is pins 1 2", "button is pins 1 2 3", r"6:1: `button` is of `exp 2`, so it has 2 pins, and here are 3"),
    ("button is pins 1 2", "button is pins 1 9", r"7:1: pin 9 is taken by line 6"),
    ("button is pins 1 2", "button is pins 1 21", r"6:1: pin 21 is taken by the clock"),
    ("button is pins 1 2", "button is 4", r"6:11: a value of 2 bits is 0 to 3, and not 4"),
    ("button is pins 1 2", "button receives 115200 baud at pin 3", r"6:1: `button` is of `exp 2`, and 8 bits are wanted"),
    ("button is pins 1 2", "button is stream", r"6:17: a stream has no pins: it wants `board none`"),
    ("byte receives 115200 baud at pin 9", "byte receives 5000000 baud at pin 9", r"7:15: a bit is 2.4 cycles at 5000000 baud.*"),
    ("out sends 115200 baud at pin 8", "out is register 2 of wishbone", r"10:30: a bus has no pins: it wants `board none`"),
    ("out sends 115200 baud at pin 8", "out is register 2 of i2c", r"10:22: `i2c` can't stand here; what can: `wishbone`, `axi`"),
    ("missed tells tick", "missed tells half", r"8:18: `half` has nothing to tell.*"),
    ("word is ram at place", "word is ram at out", r"9:16: something is said of `out` already"),
    ("word is ram at place", "word is ram at byte", r"9:16: `byte` is of `exp 8`, and the place in a memory is a variable"),
    ("word is ram at place", "word is register", r" nothing is said of the port `place`, of `var 4`.*"),
    ("word is ram at place", "word is ram at place\nplace is register", r"(9|10):\d+: something is said of `place` already"),
    ("missed tells tick", "lost tells tick", r"8:1: `lost` can't stand here.*"),
    ("missed tells tick", "missed is 0\nmissed is 1", r"9:1: something is said of `missed` already"),
]


# A circuit with a port of each sort, and one that another one feeds; W is how many bits a number has.
EACH = """import c : com
import d : com
import e : exp {W}
import v : var {W}
import x : var 4
export c ; d ; x := 3:4 ; v := e + !v : com
"""
FED = """import f : exp 8
export new n : 8 in while 1:1 do n := f : com
"""
# Two circuits, and what stands between: numbers of a stream, a RAM, a number of a ROM, and a FIFO to the one that gives them on.
TAKES = """import e : exp 8
import x : var 2
import w : var 8
import y : var 2
import r : exp 8
import v : var 8
export
  new n : 8 in
    while 1:1 do (n := e ; x := 2:2 ; w := !n ; x := 1:2 ; w := 0:8 ; x := 2:2 ; y := 3:2 ; v := !w + r)
  : com
"""
GIVES = """import f : exp 8
import late : com
import o : var 8
export while 1:1 do (late ; o := f) : com
"""
BETWEEN = """board none
clock 1 MHz
circuit out.net out.v
circuit "fed/out.net" "fed/out.v"
main runs once
fed runs once
e is stream
w is ram at x
r is rom "words.hex" at y
v feeds f of 4
late takes 200 us
o is stream
"""
STREAMS = """module bench;
  reg clock = 0;
  reg [7:0] given = 0, taken = 0;
  wire valid = given != 200;
  wire e_ready, o_valid;
  wire [7:0] o_data;
  reg [1:0] age = 0;
  top whole(.clock(clock), .e_valid(valid), .e_ready(e_ready), .e_data(given), .o_valid(o_valid), .o_ready(age == 3), .o_data(o_data));
  always #5 clock = !clock;
  always @(posedge clock) begin
    age <= age + 1;
    if (valid & e_ready) given <= given + 40;
    if (o_valid & age == 3) begin
      $display("%0d", o_data);
      taken <= taken + 1;
      if (taken == 4) $finish(0);
    end
  end
  initial #100000 $finish(0);
endmodule
"""
# What the lines of the page's table are tried with: the bits of e and of v, the board, and other lines beside them.
TRIED = {
    "board icestick": (1, "icestick", ""),
    "board hx8k": (1, "hx8k", ""),
    "board ulx3s": (1, "ulx3s", ""),
    "board none": (1, "none", "clock 10 MHz"),
    "clock 48 MHz": (1, "none", ""),
    "clock 48 MHz at pin 15": (1, "icestick", ""),
    "reset at pin 3": (1, "icestick", ""),
    "reset at pin 3 low": (1, "icestick", ""),
    "circuit out.net out.v": (1, "icestick", ""),
    "main runs once": (1, "icestick", ""),
    "main runs for ever": (1, "icestick", ""),
    "c answers": (1, "icestick", ""),
    "c takes 5 ms": (1, "icestick", ""),
    "c beats every 1 ms": (1, "icestick", ""),
    "c beats every 1 ms unkept": (1, "icestick", ""),
    "c beats every 104 cycles from d.done": (1, "icestick", ""),
    "e is pins 1 2 3": (3, "icestick", ""),
    "e is 5": (8, "icestick", ""),
    "e receives 115200 baud at pin 9": (8, "icestick", ""),
    "e tells c": (8, "icestick", "c beats every 1 ms"),
    'e is rom "words.hex" at x': (8, "icestick", "x"),
    "e is stream": (8, "none", "clock 10 MHz"),
    "v is pins 1 2 3": (3, "icestick", ""),
    "v is pin 3 from 1": (1, "icestick", ""),
    "v is register": (1, "icestick", ""),
    "v is register from 7": (8, "icestick", ""),
    "v is register 2 of wishbone": (8, "none", "clock 10 MHz\nx is register 0 of wishbone"),
    "v is register 2 of axi": (8, "none", "clock 10 MHz"),
    "v sends 115200 baud at pin 8": (8, "icestick", ""),
    "v is ram at x": (8, "icestick", "x"),
    'v is ram "words.hex" at x': (8, "icestick", "x"),
    "v feeds f of 16": (8, "icestick", 'circuit "fed/out.net" "fed/out.v"\nfed runs once\nf'),
    "v is stream": (8, "none", "clock 10 MHz"),
}
FIRST = ["board icestick", "circuit out.net out.v", "main runs once", "c answers", "d answers", "e is 1", "v is register", "x is register"]


def description(line):
    """A whole description with a line of the table; others of the same port, and of ports that have no line, give way to it."""
    _, board, beside = TRIED[line]
    said = {it.split()[0]: it for it in FIRST}
    for it in (f"board {board}", line, *filter(None, beside.split("\n"))):
        word = "circuit of fed" if it.startswith('circuit "fed') else it.split()[0]
        said[word] = it
    order = ["board", "clock", "reset", "circuit", "circuit of fed"]
    lines = sorted(said.values(), key=lambda it: order.index(it.split()[0]) if it.split()[0] in order else len(order))
    return "".join(f"{it}\n" for it in lines if " " in it)


class Described(built.Case):
    def setUp(self):
        super().setUp()
        self.link(self.room, "main", MODULE)

    def link(self, room, root, text):
        room.write_build({root: text}, (), root)
        for words in (("compile", f"{root}.gos", f"{root}.obj"), ("link", "b.txt")):
            self.assertEqual(room.run(room.gos, *words).returncode, 0)

    def top(self, text):
        self.room.write(top__txt=text)
        return self.room.run(built.TOOLS / "gos-top", "top.txt")

    def sources(self):
        """The files that the Makefile has as sources, of which one is a bench."""
        told = dict(re.findall(r"(?m)^(\w+) = (.*)$", (self.room.path / "Makefile").read_text()))
        return told["SOURCES"].replace("$(RTL)", told["RTL"]).split()

    def test_each_line_of_the_table(self):
        rows = re.findall(r"(?m)^\|[^|]*\| (`.*?) \|", PAGE.read_text())
        self.assertEqual(re.findall(r"`(.*?)`", " ".join(rows)), list(TRIED))
        shutil.copy(built.LIBRARY / "rtl/words.hex", self.room.path)
        (self.room.path / "fed").mkdir()
        self.link(built.Room(self.room.path / "fed"), "fed", FED)
        for bits in sorted({it[0] for it in TRIED.values()}):
            self.link(self.room, "main", EACH.format(W=bits))
            for line in (it for it in TRIED if TRIED[it][0] == bits):
                with self.subTest(line):
                    self.whole(description(line))

    @unittest.skipIf(not shutil.which("iverilog"), "iverilog isn't installed")
    def test_what_the_whole_does(self):
        """Each number of a stream comes out of the other one, with 9 of the ROM more, in order."""
        shutil.copy(built.LIBRARY / "rtl/words.hex", self.room.path)
        (self.room.path / "fed").mkdir()
        self.link(built.Room(self.room.path / "fed"), "fed", GIVES)
        self.link(self.room, "main", TAKES)
        self.assertEqual(self.top(BETWEEN).stdout, "ok parts 6 pins 0\n")
        self.room.write(bench__v=STREAMS)
        self.assertEqual(self.room.run("make", "-s", "bench.vvp").stderr, "")
        self.assertEqual(self.room.run("vvp", "-n", "bench.vvp").stdout.split(), ["9", "49", "89", "129", "169"])

    def whole(self, text):
        """What is written of a description is taken by Icarus Verilog and by Verilator, as far as they are installed."""
        ran = self.top(text)
        self.assertEqual((ran.returncode, ran.stderr), (0, ""), text)
        if shutil.which("iverilog"):
            ran = self.room.run("iverilog", "-g2005", "-Wall", "-Wno-timescale", "-s", "top", "-o", "top.vvp", *self.sources())
            self.assertEqual((ran.returncode, ran.stdout + ran.stderr), (0, ""), text)
        if shutil.which("verilator"):
            ran = self.room.run("verilator", "--lint-only", "--top-module", "top", *self.sources())
            self.assertEqual((ran.returncode, ran.stdout + ran.stderr), (0, ""), text)

    def test_what_is_written(self):
        ran = self.top(GOOD)
        self.assertEqual((ran.returncode, ran.stdout, ran.stderr), (0, "ok parts 6 pins 4\n", ""))
        self.assertEqual((self.room.path / "top.pcf").read_text().splitlines()[1:], [
            "set_io clock 21", "set_io button_pin[0] 1", "set_io button_pin[1] 2", "set_io byte_pin 9", "set_io out_pin 8"])
        text = (self.room.path / "top.v").read_text()
        self.assertTrue(text.startswith("// By gos-top from top.txt.\n`default_nettype none\nmodule top(\n"))
        self.assertTrue(text.endswith("endmodule\n`default_nettype wire\n"))
        for wanted in ("rtl_reset #(.CYCLES(120)) from_power_on", "rtl_timer #(.CYCLES(104), .KEEP(1), .MISSED(4)) at_main_tick", ".restart(main__half__done)",
                       "rtl_ram #(.ADDRESS(4), .WIDTH(8), .FILE(\"\")) at_main_word", "assign main__main__run = start | main__main__done;"):
            self.assertIn(wanted, text)

    def test_a_register_of_a_bus_is_taken_once(self):
        self.link(self.room, "main", EACH.format(W=8))
        text = description("v is register 2 of wishbone").replace("x is register 0", "x is register 2")
        ran = self.top(text)
        self.assertEqual((ran.returncode, ran.stderr), (2, "top.txt:9:1: register 2 of wishbone is taken by line 8\n"), text)

    @unittest.skipIf(not shutil.which("iverilog"), "iverilog isn't installed")
    def test_the_whole_compiles(self):
        self.assertEqual(self.top(GOOD).returncode, 0)
        self.room.write(bench__v="module bench; endmodule\n")
        ran = self.room.run("make", "-s", "bench.vvp")
        self.assertEqual((ran.returncode, ran.stderr), (0, ""))

    def test_what_is_refused(self):
        for line, other, said in REFUSED:
            with self.subTest(other):
                self.assertEqual(GOOD.count(f"{line}\n"), 1)
                ran = self.top(GOOD.replace(f"{line}\n", f"{other}\n"))
                if said:
                    self.assertEqual((ran.returncode, ran.stdout), (2, ""))
                    self.assertRegex(ran.stderr, rf"(?s)\Atop\.txt:(?:{said})\n\Z")
                else:
                    self.assertEqual((ran.returncode, ran.stderr), (0, ""))

    def test_a_file_of_others_stays(self):
        self.room.write(Makefile="all:\n")
        ran = self.top(GOOD)
        self.assertEqual((ran.returncode, ran.stderr), (2, "Makefile is there, and gos-top didn't write it; nothing is written\n"))
        self.assertFalse((self.room.path / "top.v").exists())


class Steps(built.Case):
    """The page, from its first block to its last one."""

    def follow(self, text):
        binaries = self.room.path / "bin"
        binaries.mkdir()
        gos = binaries / "gos"
        gos.write_text(f'#!/bin/bash\nulimit -S -s "$(ulimit -H -s)"\nexec {self.room.gos} "$@"\n')
        gos.chmod(0o755)
        around = {**os.environ, "PATH": f"{binaries}:{built.TOOLS}:{os.environ['PATH']}"}
        for language, name, body in BLOCK.findall(text):
            if name:
                (self.room.path / name).write_text(body)
            for part in re.split(r"^\$ ", body, flags=re.M)[1:] if language == "console" else []:
                command, _, wanted = part.partition("\n")
                ran = subprocess.run(["bash", "-c", command], cwd=self.room.path, env=around, stdout=subprocess.PIPE,
                                     stderr=subprocess.STDOUT, text=True, timeout=900)
                yield command, ran.stdout, wanted

    def test_each_step(self):
        missing = [it for it in WANTED if not shutil.which(it)]
        if missing:
            self.skipTest(f"{', '.join(missing)} isn't installed")
        steps = list(self.follow(PAGE.read_text()))
        self.assertEqual(len(re.findall(r"(?m)^\*\*\d+\.\*\*", PAGE.read_text())), 10)
        for command, said, wanted in steps:
            with self.subTest(command):
                self.assertEqual(said, wanted)
        self.assertGreater((self.room.path / "toggle/top.bin").stat().st_size, 10_000)


if __name__ == "__main__":
    built.main(__doc__)
