#!/usr/bin/env python3
"""What the scripts beside the program print, at worked examples.

usage: tools/tests/test_tools.py
"""
import contextlib
import io
import json
import os
import re
import shutil
import subprocess
import tempfile
import time
import unittest
from pathlib import Path
from unittest import mock

import built
import standin

import builds  # (built has put the folder above into the path)

TOP = Path(__file__).resolve().parent.parent.parent
TOOLS, LATCH = TOP / "tools", TOP / "examples" / "latch"
# What `gos` may do under Vim's :make, and what is listed then, of which nothing stands for a success.
MADE = {
    "echo 'm.gos: C1 d at 7..8'; exit 2": "m.gos:1:8:C1: nothing binds `d` here\n", "echo ok weight 5": "",
    "echo 'm.gos: S1 at 99'; exit 2": "m.gos:2:1:S1: a module doesn't go on like this\n",
    "echo gos: the disk is full >&2; exit 70":
        ":0:0:gos: the disk is full\n:0:0:tools/gos-where: gos printed nothing: a file could not be read or written, or memory ran out\n",
}
WORDS = re.search(r"The words are `([^`]+)`", (TOP / "docs" / "LANGUAGE.md").read_text().replace("\n  ", " "))[1].split()


def run(*words, cwd=None, **environment):
    how = {"cwd": cwd, "capture_output": True, "text": True, "env": {**os.environ, **environment}}
    return subprocess.run([str(it) for it in words], **how)


class Gates(unittest.TestCase):
    def binary(self, text):
        with tempfile.TemporaryDirectory() as room:
            (Path(room) / "a.aag").write_text(text)
            ran = run(TOOLS / "aag-to-aig", "a.aag", "a.aig", cwd=room)
            made = Path(room) / "a.aig"
            return ran.returncode, ran.stderr, made.read_bytes() if made.exists() else None

    def test_a_latch(self):
        self.assertEqual(self.binary("aag 4 1 2 1 1\n2\n4 9\n6 9\n6\n8 5 3\n"), (0, "", b"aig 4 1 2 1 1\n9\n9\n6\n\x03\x02"))

    def test_a_difference_of_more_than_seven_bits(self):
        inputs = "".join(f"{2 * v}\n" for v in range(1, 200))
        self.assertEqual(self.binary(f"aag 200 199 0 0 1\n{inputs}400 3 0\n"), (0, "", b"aig 200 199 0 0 1\n\x8d\x03\x03"))

    def test_other_texts(self):
        for text in ("", "aag 2 1 1 1 1\n2\n", "aig 0 0 0 0 0\n", "aag 1 1 0 0 0\n4\n"):
            self.assertEqual(self.binary(text), (1, "a.aag: not a text of gates\n", None))


class House(unittest.TestCase):
    """Which lemmas nothing names."""
    house = built.script("house")
    TEXT = "use Rattle.gos_a.proofs.Other.{far}\n\npub first : A\nfirst = second far\n  where\n    second : B\n\nsecond : B\nsecond x = second x\n"

    def lemmas(self):
        return {name: self.TEXT[start:end] for name, start, end in self.house.lemmas_of(self.TEXT)}

    def test_a_lemma_has_its_lines(self):
        self.assertEqual(list(self.lemmas()), ["first", "second"])
        self.assertEqual(self.lemmas()["second"], "second : B\nsecond x = second x\n")

    def test_what_imports_and_tactics_name(self):
        texts = {("gos_a", "proofs", "Main"): self.TEXT + "use Rattle.gos_b.specs.laws.Law as law\nx = law.near\n",
                 ("gos_a", "src", "lib"): "#[tactic(auto, using(crate::proofs::Main::first))]"}
        self.assertEqual(self.house.named_elsewhere(texts), {
            ("gos_a", "proofs", "Other", "far"), ("gos_b", "specs", "laws.Law", "near"), ("gos_a", "proofs", "Main", "first")})


class Strays(standin.Case):
    """What house says of the top of the repository."""

    def strays(self, *added):
        """What tools/house says of the top, where git has these files besides."""
        for name in added:
            (self.top / name).parent.mkdir(exist_ok=True)
            (self.top / name).write_text("text\n")
        said = self.do("git -C ../top init -q; git -C ../top add -A; house").stdout.splitlines()
        return [line for line in said if "at the top" in line]

    def test_what_stands_there_belongs_there(self):
        self.assertEqual(self.strays("CHANGELOG.md", "bench/a.py", "peers/check"), [])

    def test_a_stray_file(self):
        self.assertEqual(self.strays("notes.txt", "left/one.patch", "left/two.patch", ".left"), [
            ".left: doesn't belong at the top", "left/: doesn't belong at the top", "notes.txt: doesn't belong at the top"])

    def test_what_git_does_not_have_is_no_matter(self):
        self.assertEqual(self.strays(), [])
        (self.top / "notes.txt").write_text("text\n")
        self.assertNotIn("notes.txt", self.do("house").stdout)

    def test_the_list_is_of_what_is_there(self):
        self.assertEqual([name for name in House.house.AT_TOP if not (TOP / name).exists()], [])


class Where(unittest.TestCase):
    def where(self, text, line):
        with tempfile.TemporaryDirectory() as room:
            (Path(room) / "m.gos").write_text(text)
            return run(TOOLS / "gos-where", "m.gos", line, cwd=room)

    def test_span(self):
        said = self.where("# x\n\texport d : com\n", "m.gos: C1 d at 12..13").stdout
        self.assertEqual(said, "m.gos:2:9: C1: nothing binds `d` here\n\texport d : com\n\t       ^\n")

    def test_two_spans(self):
        said = self.where("import c : com\nexport c || c : com\n", "C5 c at 22..23 and 27..28").stdout.split("\n")
        self.assertEqual(said[0], "m.gos:2:8: C5: `c` stands on both sides, and these may share nothing")
        self.assertEqual(said[3:6], ["m.gos:2:13: and here", "export c || c : com", "            ^"])

    def test_end_of_file(self):
        self.assertEqual(self.where("export", "S1 at 6").stdout.split("\n")[0], "m.gos:1:7: S1: a module doesn't go on like this")

    def test_line(self):
        self.assertTrue(self.where("a\nb c\n", "P1 line 2").stdout.startswith("m.gos:2:1: P1: "))

    def test_cell_of_a_netlist(self):
        said = run(TOOLS / "gos-where", LATCH / "a.net", "K2 cell 1").stdout
        self.assertIn("a.net:4:1: K2: the widths of this cell don't fit\nor 1 0 2\n", said)

    def test_cell_of_a_verilog_text(self):
        with tempfile.TemporaryDirectory() as room:
            text = "module gos_main(clk, rst);\n  wire [0:0] n1;\n  reg [0:0] n11;\n" \
                "  always @(posedge clk) if (rst) n11 <= 1'd0; else n11 <= n1;\n  assign n1 = ~n1;\nendmodule\n"
            (Path(room) / "a.v").write_text(text)
            for fault, place in (("K1 cycle 1", "a.v:5:1: K1"), ("K2 cell 11", "a.v:4:1: K2"), ("K4 port 0", "a.v:1:1: K4"), ("V1 at 3", "a.v:1:4: V1")):
                self.assertTrue(run(TOOLS / "gos-where", "a.v", fault, cwd=room).stdout.startswith(place), fault)

    def test_no_fault(self):
        self.assertEqual(self.where("", "ok weight 5").returncode, 1)

    def test_line_of_standard_input(self):
        for line, status, said in (("export d : com", 2, "m.gos:1:8: C1: nothing binds `d` here"), ("", 1, "")):
            with tempfile.TemporaryDirectory() as room:
                (Path(room) / "m.gos").write_text(line)
                ran = run("bash", "-c", f"echo 'm.gos: C1 d at 7..8' | head -{status - 1} | {TOOLS}/gos-where -", cwd=room)
            self.assertEqual((ran.returncode, ran.stdout.split("\n")[0], "printed nothing" in ran.stderr), (status, said, status == 1))
        self.assertEqual(run("bash", "-c", f"echo ok weight 5 | {TOOLS}/gos-where -").stdout, "ok weight 5\n")

    def test_each_example_has_a_sentence(self):
        examples = re.findall(r"^\| `[^`]+` \| `\w+::\w+` \| (.+) \|$", (TOP / "docs" / "FORMATS.md").read_text(), re.M)
        self.assertGreater(len(examples), 40)
        where = built.script("gos-where")
        for example in examples:
            line = re.findall(r"`([^`]+)`", example)[-1]
            with contextlib.redirect_stdout(io.StringIO()) as out:
                self.assertEqual(where.main(["/dev/null", line]), 0, line)
            said = out.getvalue().removeprefix("/dev/null: ")
            self.assertNotRegex(said, r"\b(NAME|TYPE|WANT|SPAN|[NWK]|LEN)\b", line)


# Asks e, writes what comes to x, reads x, and is done; and a trace of it that breaks off.
COPY = """gosnet 1
cells 11
input 1
reg 1 6
reg 1 0
input 1
input 4
reg 1 10
input 1
input 4
reg 1 3
reg 4 4
input 1
ports 3
give main com 0 1
take e exp 4 2 3 4
take x var 4 5 6 7 8 9 10
end
"""
COPIED = "0 main.run\n1 e.ask\n3 e.ans 5\n4 x.write 5\n4 x.done\n5 x.read\ncycles 8\n"


class Waves(unittest.TestCase):
    def setUp(self):
        room = tempfile.TemporaryDirectory()
        self.addCleanup(room.cleanup)
        self.room = Path(room.name)

    def tool(self, name, *words, **files):
        """Runs a tool in a folder with these files."""
        for file, text in files.items():
            (self.room / file).write_text(text)
        return run(TOOLS / name, *words, cwd=self.room)

    def test_text(self):
        said = run(TOOLS / "gos-wave", LATCH / "a.net", LATCH / "trace.txt").stdout
        self.assertEqual(said, "            0 1 2\n> main.run  | . .\n< main.done . | |\n")

    def test_values(self):
        files = {"n": "gosnet 1\ncells 0\nports 1\ngive main exp 8 0 1 2\nend\n", "t": "0 main.ask\n3 main.ans 200\ncycles 5\n"}
        self.assertEqual(self.tool("gos-wave", "n", "t", **files).stdout, "           0   3\n> main.ask |   .\n< main.ans . 200\n")
        self.assertEqual(self.pulses(self.tool("gos-vcd", "n", "t").stdout), ({(0, "main.ask", None), (3, "main.ans", 200)}, 5))

    def test_some_cycles_and_ports(self):
        said = self.tool("gos-wave", "--from", "3", "--to", "4", "n", "t", n=COPY, t=COPIED).stdout.split("\n")
        self.assertEqual((said[0].split(), said[2], said[4]), (["3", "4"], "< main.done . .", "> e.ans     5 ."))
        said = self.tool("gos-wave", "--ports", "x,main", "--to", "4", "n", "t").stdout
        rows = ["            0 4", "> main.run  | .", "< main.done . .", "< x.read    . .", "> x.ans     . .", "< x.write   . 5", "> x.done    . |"]
        self.assertEqual(said, "\n".join([*rows, ""]))
        ran = self.tool("gos-wave", "--from", "6", "n", "t")
        self.assertEqual((ran.stdout.split("\n")[1], ran.stderr), ("> main.run", "gos-wave: nothing happens at these ports from cycle 6 to 7\n"))
        for words in (("--from", "8"), ("--from", "3", "--to", "2"), ("--to", "-1")):
            ran = self.tool("gos-wave", *words, "n", "t")
            self.assertEqual((ran.returncode, ran.stdout, "cycles are 0 to 7" in ran.stderr), (1, "", True), words)
        ran = self.tool("gos-wave", "--ports", "x,y", "n", "t")
        self.assertEqual((ran.returncode, ran.stderr), (1, "gos-wave: n has no port y, but main, e, x; gos-wave --help says more\n"))

    def test_open_handshakes(self):
        _, signals = built.signals(self.tool("gos-vcd", "n", "t", n=COPY, t=COPIED).stdout)
        is_open = {name: "".join(values) for name, values in signals.items() if name.endswith("open")}
        self.assertEqual(is_open, {"main.open": "11111111", "e.open": "01110000", "x.read_open": "00000111", "x.write_open": "00001000"})
        trace = "0 main.run\n2 main.done\n2 main.run\n5 main.done\ncycles 7\n"
        self.assertEqual("".join(built.signals(self.tool("gos-vcd", "n", "t", t=trace).stdout)[1]["main.open"]), "1111110")

    def test_what_is_wrong(self):
        self.wrong("gos-wave", "none t", 2, n=COPY, t=COPIED, o=Pictures.PLAN)
        for words in ("none t", "n none", ". t", "n .", "t t", "n n", "n o", "/dev/null t", "n /dev/null"):
            self.wrong("gos-wave", words, 2)
            self.wrong("gos-vcd", words, 2)
        for word in ("none", ".", "t", "/dev/null"):
            self.wrong("gos-picture", word, 2)
        for tool, words in (("gos-wave", "n"), ("gos-wave", "--from x n t"), ("gos-vcd", "n t t"), ("gos-picture", ""), ("gos-picture", "n n")):
            self.wrong(tool, words, 1)
        traces = ("", "x\ncycles 3\n", "0 e\ncycles 3\n", "0 main.run 1\ncycles 3\n", "1 e.ans\ncycles 3\n", "1 e.ans 16\ncycles 3\n",
                  "1 e.ans -1\ncycles 3\n", "3 e.ask\ncycles 3\n", "2 e.ask\n1 e.ans 1\ncycles 3\n", "cycles 1000001\n")
        for trace in traces:
            self.wrong("gos-wave", "n t", 2, t=trace)
            self.wrong("gos-vcd", "n t", 2, t=trace)
        for text in (COPY[:40], COPY.replace("e exp 4 2 3 4", "e exp 4 2 3"), COPY.replace("10\nend", "11\nend"), Pictures.PLAN[:90],
                     Pictures.PLAN.replace("p2.0", "p3.0"), Pictures.PLAN.replace("p2.0", "p0.9"), Pictures.PLAN.replace("skip", "sleep")):
            self.wrong("gos-picture", "n", 2, n=text)

    def wrong(self, tool, words, status, **files):
        """Has a tool end with this status and a line of standard error, on words that are files in a folder with these files."""
        for file, text in files.items():
            (self.room / file).write_text(text)
        places = [it if it[0] in "-x" else str(self.room / it) for it in words.split()]
        with contextlib.redirect_stdout(io.StringIO()) as out, contextlib.redirect_stderr(io.StringIO()) as errors:
            try:
                ended = builds.ended(built.script(tool).main, places)
            except SystemExit as end:
                ended = end.code
        self.assertEqual((ended, out.getvalue(), errors.getvalue().count("\n")), (status, "", 1), (tool, words, files, errors.getvalue()))

    def test_a_reader_that_goes_away(self):
        for tool in ("gos-wave n t", "gos-vcd n t", "gos-picture n"):
            self.tool("gos-wave", n=COPY, t=COPIED)
            ran = run("bash", "-c", f"trap '' PIPE; {TOOLS}/{tool} | exec 0<&-; echo ${{PIPESTATUS[0]}}", cwd=self.room)
            self.assertEqual((ran.stdout, ran.stderr), ("141\n", ""))

    def test_dump(self):
        said = run(TOOLS / "gos-vcd", LATCH / "a.net", LATCH / "trace.txt").stdout
        self.assertEqual(self.pulses(said), ({(0, "main.run", None), (1, "main.done", None), (2, "main.done", None)}, 3))

    def test_other_trace(self):
        self.assertIn("has no event c.run", self.tool("gos-vcd", LATCH / "a.net", "t", t="0 c.run\ncycles 1\n").stderr)

    def pulses(self, dump):
        """A value change dump, read back: the pulses in each cycle with their values, and the number of cycles."""
        cycles, signals = built.signals(dump)
        found = set()
        for name, values in signals.items():
            if not name.endswith(("value", "open")):
                of_value = signals.get(name + "value")
                found |= {(at, name, int(of_value[at], 2) if of_value else None) for at, value in enumerate(values) if value == "1"}
        return found, cycles


class Pictures(unittest.TestCase):
    PLAN = "gosobj 2\nweight 15\nimports 0\nresult com\nparts 3\nseq\nskip\nskip\njoints 3\nr.0 p0.2\np0.0 p1.0\np0.1 p2.0\nend\n"

    def test_plan(self):
        with tempfile.TemporaryDirectory() as room:
            (Path(room) / "o").write_text(self.PLAN)
            said = run(TOOLS / "gos-picture", Path(room) / "o").stdout
        self.assertIn('p0 -> p1 [label="com", taillabel="0", headlabel="0"];', said)
        self.assertIn('r -> p0 [label="com", taillabel="0", headlabel="2"];', said)
        self.assertIn('p1 [label="1: skip", shape=box];', said)

    def test_netlist(self):
        said = run(TOOLS / "gos-picture", LATCH / "a.net").stdout
        self.assertIn("n2 -> n1;", said)
        self.assertIn('"main.run" -> n0;', said)

    @unittest.skipUnless(shutil.which("dot"), "Graphviz is not installed")
    def test_drawn(self):
        with tempfile.TemporaryDirectory() as room:
            ran = run(TOOLS / "gos-picture", LATCH / "a.net", Path(room) / "o.svg")
            self.assertEqual((ran.returncode, ran.stderr), (0, ""))
            self.assertIn("main.done", (Path(room) / "o.svg").read_text())

    def test_too_large_to_be_drawn(self):
        with tempfile.TemporaryDirectory() as room:
            cells = [*(["input 1"] * 2), *(f"not 1 {at}" for at in range(593))]
            (Path(room) / "n").write_text("\n".join(["gosnet 1", "cells 595", *cells, "ports 1", "give main com 0 594", "end", ""]))
            began = time.monotonic()
            ran = run(TOOLS / "gos-picture", "n", "o.svg", cwd=room)
            self.assertLess(time.monotonic() - began, 10)
            self.assertEqual((ran.returncode, ran.stdout), (2, ""))
            self.assertRegex(ran.stderr, r"^n: it has 595 cells, and more than 400 aren't drawn, .*; gos-picture n \| sfdp -Tsvg > o.svg draws .*\n$")
            self.assertFalse((Path(room) / "o.svg").exists())
            self.assertIn("n592 -> n594", run(TOOLS / "gos-picture", "n", cwd=room).stdout)


class PartsOfABuild(unittest.TestCase):
    """Pictures of a build and of its parts: a main that runs a procedure twice."""

    FILES = {
        "b.txt": "gosbuild 1\ninst main main.gos main.obj\ninst p p.gos p.obj\nbind main p p\nroot main\nnet out.net\nverilog out.v\n"
                 "pulses in.pls\ntrace out.trc\n",
        "main.obj": "gosobj 2\nweight 16\nimports 1\nimport p com\nresult com\nparts 2\nshare com\nseq\njoints 4\np0.0 i0.0\nr.0 p1.2\n"
                    "p1.0 p0.1\np1.1 p0.2\nend\n",
        "p.obj": "gosobj 2\nweight 5\nimports 0\nresult com\nparts 1\nskip\njoints 1\nr.0 p0.0\nend\n",
        "out.net": "gosnet 1\ncells 16\ninput 1\nreg 1 14\nreg 1 11\nnot 1 2\nconst 1 0\nmux 1 12 4 2\nor 1 4 13\nor 1 12 13\nreg 1 7\n"
                   "and 1 15 3\nand 1 15 2\nor 1 5 6\nor 1 0 0\nor 1 9 9\nor 1 10 10\nor 1 8 8\nports 1\ngive main com 0 1\nend\n",
    }

    def setUp(self):
        room = tempfile.TemporaryDirectory()
        self.addCleanup(room.cleanup)
        self.room = Path(room.name)
        for name, text in self.FILES.items():
            (self.room / name).write_text(text)

    def picture(self, *words, status=0):
        ran = run(TOOLS / "gos-picture", *words, cwd=self.room)
        self.assertEqual((ran.returncode, ran.stderr == ""), (status, status == 0), ran.stderr)
        return ran.stdout + ran.stderr

    def test_a_build(self):
        lines = ['  "main" [label="main\\nmain.gos\\n2 parts", shape=box];', '  "p" [label="p\\np.gos\\n1 parts", shape=box];',
                 '  "port main" [label="main", shape=oval, style=bold];', '  "port main" -> "main" [label="com"];',
                 '  "main" -> "p" [label="p: com"];', "}", ""]
        self.assertEqual(self.picture("b.txt").split("\n")[4:], lines)
        (self.room / "b.txt").write_text(self.FILES["b.txt"].replace("bind main p p\n", ""))
        self.assertIn('"main" -> "port p" [label="com"];', self.picture("b.txt"))

    def test_a_part(self):
        said = self.picture("--part", "p", "b.txt").split("\n")
        self.assertEqual(said[4].strip()[:45], 'subgraph "cluster p.0" { label="p.0: skip"; f')
        self.assertEqual(said[5:], ['    n15 [label="or", shape=ellipse];', "  }", '  "main.0" [label="main.0\\nshare com", shape=folder, style=dashed];',
                                    '  "n15" -> "main.0";', '  "main.0" -> "n15";', "}", ""])
        said = self.picture("--part", "main.1", "b.txt")
        for line in ('"main.done" [shape=oval, style=bold];', '"main.run" -> "n12";', '"n14" -> "main.done";', '"n13" -> "main.0";'):
            self.assertIn(f"  {line}\n", said)
        self.assertNotIn("p.0", said)
        whole = self.picture("--part", "main", "b.txt")
        self.assertEqual((whole.count("subgraph"), len(re.findall(r"^    n\d+ ", whole, re.M))), (2, 13))

    def test_a_register_of_a_joint_belongs_to_no_part(self):
        # (the same netlist, where the request of the result has a register, as for a ring)
        cells = "input 1, reg 1 15, reg 1 0, reg 1 12, not 1 3, const 1 0, mux 1 13 5 3, or 1 5 14, or 1 13 14, reg 1 8, and 1 16 4, and 1 16 3, " \
                "or 1 6 7, or 1 2 2, or 1 10 10, or 1 11 11, or 1 9 9".split(", ")
        (self.room / "out.net").write_text("\n".join(["gosnet 1", "cells 17", *cells, "ports 1", "give main com 0 1", "end", ""]))
        said = self.picture("--part", "main.1", "b.txt")
        for line in ('"n2" [label="reg", shape=box];', '"main.run" -> "n2";', '"n2" -> "n13";'):
            self.assertIn(f"  {line}\n", said)

    def test_what_is_wrong(self):
        for words, said in ((("--part", "q", "b.txt"), "b.txt: there is no instance q; there are main, p\n"),
                            (("--part", "mein", "b.txt"), "b.txt: there is no instance mein; is main meant?\n"),
                            (("--part", "main.2", "b.txt"), "b.txt: main has no part main.2; its parts are main.0 to main.1\n"),
                            (("--part", "p", "out.net"), "out.net: this is no build file\n"),
                            (("p.gos",), "p.gos: No such file or directory\n")):
            self.assertEqual(self.picture(*words, status=2), said)
        (self.room / "p.obj").write_text(self.FILES["p.obj"].replace("skip", "seq"))
        said = "out.net: this is no netlist of the objects that the build file names; gos link writes it\n"
        self.assertEqual(self.picture("--part", "p", "b.txt", status=2), said)
        (self.room / "p.obj").write_text(self.FILES["p.obj"][:40])
        self.assertIn("p.obj: this is no object that is right", self.picture("b.txt", status=2))
        (self.room / "p.obj").unlink()
        self.assertEqual(self.picture("b.txt", status=2), "p.obj isn't there yet: gos build b.txt writes it\n")
        (self.room / "out.net").unlink()
        self.assertEqual(self.picture("--part", "p", "b.txt", status=2), "out.net isn't there yet: gos link b.txt writes it\n")

    def test_too_large_a_part(self):
        count = 140
        parts = "lit 1 0\n" * count
        (self.room / "p.obj").write_text(f"gosobj 2\nweight 5\nimports 0\nresult com\nparts {count}\n{parts}joints 0\nend\n")
        gates = [line for at in range(count) for line in ("or 1 0 0", "const 1 0", f"gate 1 {15 + 3 * at} {16 + 3 * at}")]
        lines = self.FILES["out.net"].split("\n")
        (self.room / "out.net").write_text("\n".join(["gosnet 1", f"cells {15 + 3 * count}", *lines[2:17], *gates, *lines[18:]]))
        said = self.picture("--part", "p", "b.txt", "o.svg", status=2)
        self.assertEqual(said, "b.txt: it has 422 cells and neighbours in p, and more than 400 aren't drawn, for dot takes minutes then; "
                               "p.0 to p.139 are its parts, each of which is drawn by its name; and gos-picture p.obj o.svg draws them all as boxes\n")

    @unittest.skipUnless(shutil.which("dot"), "Graphviz is not installed")
    def test_drawn(self):
        for words in (("b.txt",), ("--part", "main", "b.txt"), ("--part", "p.0", "b.txt")):
            self.assertEqual(self.picture(*words, "o.svg"), "")
            self.assertIn("</svg>", (self.room / "o.svg").read_text())
        self.assertEqual(self.picture("b.txt", "o.png") + self.picture("b.txt", "o.PDF"), "")
        self.assertEqual([(self.room / it).read_bytes()[:4] for it in ("o.png", "o.PDF")], [b"\x89PNG", b"%PDF"])

    @unittest.skipUnless(shutil.which("dot"), "Graphviz is not installed")
    def test_four_hundred_cells(self):
        cells = ["input 1", "reg 1 399", *(f"xor 1 {at % 7} {at - 1}" for at in range(2, 400))]
        (self.room / "n").write_text("\n".join(["gosnet 1", "cells 400", *cells, "ports 1", "give main com 0 1", "end", ""]))
        self.assertEqual(self.picture("n", "o.svg"), "")

    def test_dot_works_for_so_long(self):
        """Seconds in which it waits don't count."""
        picture, dot = built.script("gos-picture"), self.room / "dot"
        picture.MOST_SECONDS = 1
        for line, wanted in (("sleep 2", 0), ("while :; do :; done", 3)):
            dot.write_text(f"#!/bin/sh\n{line}\n")
            dot.chmod(0o755)
            with mock.patch.dict(os.environ, {"PATH": f"{self.room}:{os.environ['PATH']}"}), contextlib.redirect_stderr(io.StringIO()) as said:
                status = builds.ended(picture.main, [str(self.room / "p.obj"), str(self.room / "o.svg")])
            self.assertEqual((status, "1 seconds of a processor" in said.getvalue()), (wanted, wanted == 3), said.getvalue())

    def test_other_forms_are_refused(self):
        for name in ("o.gif", "o", "o.svg.txt", "out.net"):
            self.assertEqual(self.picture("b.txt", name, status=1).count("\n"), 1)
        self.assertFalse((self.room / "o.gif").exists())


class Editors(unittest.TestCase):
    def test_vim_has_all_words(self):
        text = (TOP / "editors/vim/syntax/gos.vim").read_text()
        self.assertEqual(sorted(" ".join(re.findall(r"syntax keyword \w+ (.*)", text)).split()), sorted(WORDS))

    def test_grammar_has_all_words(self):
        rules = json.loads((TOP / "editors/vscode/syntaxes/gos.tmLanguage.json").read_text())["patterns"]
        found = [word for rule in rules for word in re.findall(r"[a-z]+", rule["match"].replace("\\b", " ")) if rule["match"].startswith("\\b")]
        self.assertEqual(sorted(found), sorted(WORDS))

    def test_files_of_the_extension(self):
        folder = TOP / "editors/vscode"
        has = json.loads((folder / "package.json").read_text())["contributes"]
        for grammar in has["grammars"]:
            self.assertEqual(json.loads((folder / grammar["path"]).read_text())["scopeName"], grammar["scopeName"])
            for rule in json.loads((folder / grammar["path"]).read_text())["patterns"]:
                re.compile(rule["match"])


    def test_problems_and_tasks(self):
        folder = TOP / "editors/vscode"
        matcher, = json.loads((folder / "package.json").read_text())["contributes"]["problemMatchers"]
        pattern = matcher["pattern"]
        found = re.fullmatch(pattern["regexp"], "a/m.gos:2:8: C1: nothing binds `d` here")
        self.assertEqual([found[pattern[it]] for it in ("file", "line", "column", "message")], ["a/m.gos", "2", "8", "C1: nothing binds `d` here"])
        for line in ("export d : com", "       ^", "ok weight 5", "gos: m.gos is not there"):
            self.assertIsNone(re.fullmatch(pattern["regexp"], line))
        tasks = json.loads((folder / "tasks.json").read_text())["tasks"]
        self.assertEqual([it["label"] for it in tasks], ["gos check", "gos build"])
        for task in tasks:
            self.assertEqual((task["command"], task["problemMatcher"]), (f"{task['label']} ${{fileBasename}} | gos-where -", f"${matcher['name']}"))

    @unittest.skipUnless(shutil.which("vim"), "Vim is not installed")
    def test_vim(self):
        if "+eval" not in run("vim", "--version").stdout:
            self.skipTest("this Vim is a small one")
        said = ("filetype:&ft", "syntax:&syntax", "comment:&commentstring", "make:&makeprg")
        echo = "call writefile([" + ", ".join(f"'{name}=' . {value}" for name, value in (it.split(":") for it in said)) + "], 'said', 'a')"
        with tempfile.TemporaryDirectory() as room:
            files = {"m.gos": "export d : com\n", "in.pls": "cycles 3\n", "b.txt": "# It\ngosbuild 1\n", "c.txt": "so\n", "gos": "", "gos-where": ""}
            for name, text in files.items():
                (Path(room) / name).write_text(text)
            note = "echo gos: not proved on this machine yet: a preview >&2"
            (Path(room) / "gos").write_text(f"#!/bin/sh\n{note}\n. ./does\n")
            (Path(room) / "gos-where").write_text(f'#!/bin/sh\nexec {TOOLS}/gos-where "$@"\n')
            for name in ("gos", "gos-where"):
                (Path(room) / name).chmod(0o755)
            listed = "map(getqflist(), {_, it -> (it.bufnr ? bufname(it.bufnr) : '') . ':' . it.lnum . ':' . it.col . ':' . it.text})"
            made = [f"call writefile([\"{does}\"], 'does') | silent make! | call writefile({listed}, 'made', 'a')" for does in MADE]
            commands = ["filetype plugin on | syntax on", *(f"edit {name} | {echo}" for name in files if "." in name),
                        " | ".join(["edit m.gos", *made, "qa!"])]
            words = ["vim", "-Nu", "NONE", "-i", "NONE", "-n", "-es", "--cmd", f"set rtp^={TOP}/editors/vim"]
            ran = run(*words, *(it for command in commands for it in ("-c", command)), cwd=room, PATH=f"{room}:{os.environ['PATH']}")
            self.assertEqual(ran.returncode, 0, ran.stderr)
            said = (Path(room) / "said").read_text().split("\n")
            self.assertEqual((Path(room) / "made").read_text(), "".join(MADE.values()))
        sorts = {said[at].split("=")[1]: said[at + 1:at + 4] for at in range(0, len(said) - 1, 4)}
        make = "make=({} %:S \\| gos-where -)"
        for sort, command in (("gos", make.format("gos check")), ("gospulses", "make=make"), ("gosbuild", make.format("gos build"))):
            self.assertEqual(sorts[sort], [f"syntax={sort}", "comment=# %s", command])
        self.assertIn("text", sorts)


class Prove(standin.Case):
    """tools/prove."""

    def test_what_the_program_needs_is_proved_once(self):
        self.assertEqual(self.do("prove").returncode, 0)
        self.assertEqual(sorted(self.repository.runs("lib")), ["gos_left", "gos_low", "gos_right", "gos_top"])
        self.assertEqual(self.repository.runs("run"), ["gos", "gos_flow_main"])
        self.assertEqual((self.top / "crates/gos_left/out/rlib/stamp").read_text(), "// gos_left\n")
        self.assertEqual(list(self.out.glob("gos-prove*")), [])

    def at_once(self, **environment):
        """The most runs of rt at one time."""
        self.assertEqual(self.do("prove", **environment).returncode, 0)
        most = now = 0
        for line in self.repository.journal.read_text().splitlines():
            if " lib " in line:
                now += 1 if line.startswith("begin") else -1
                most = max(most, now)
        return most

    def test_crates_are_proved_side_by_side(self):
        self.assertEqual(self.at_once(RT_JOBS="2", MEET="yes"), 2)

    def test_or_in_turn(self):
        self.assertEqual(self.at_once(RT_JOBS="1"), 1)

    def test_idle_processors_are_given_away(self):
        self.do("prove", RT_JOBS="4")
        log = (self.out / "prove.log").read_text()
        self.assertEqual(re.findall(r"/(gos_low|gos_left|gos_top): lib --jobs (\d)", log), [("gos_low", "4"), ("gos_left", "2"), ("gos_top", "4")])

    def test_a_line_for_each_crate(self):
        said = self.do("prove", RT_JOBS="2").stderr.split("\n")
        self.assertEqual(said[0], "gos: 6 crates are proved, up to 2 at a time; 0 minutes gone, about 2 left")
        self.assertEqual(said[1], "gos: crate 1 of 6 is proved, gos_low: The crate gos_low; 0 minutes gone, about 2 left")
        self.assertRegex("\n".join(said), r"\ngos: crate [23] of 6 is proved, gos_right; 0 minutes gone, about \d left\n")
        self.assertEqual(said[-2], "gos: proved and built, in 1 minute")
        self.assertEqual(self.do("prove").stderr, "gos: it is proved\n")

    def test_what_fails_is_named(self):
        for name in ("gos_left", "gos", "gos_flow_main"):
            ran = self.do("prove", FAILS=name)
            self.assertEqual(ran.returncode, 70)
            self.assertIn(f"gos: crate {name} could not be proved and built; what the prover said is in", ran.stderr)
            self.assertRegex((self.out / "prove.log").read_text(), rf"(?m)^== {name}\nsaid of .*/{name}: ")
            self.assertFalse((self.out / "gos.sources").exists())

    def test_what_an_ended_run_left_is_used(self):
        self.do("prove")
        left = self.out / "gos-prove/gos_low/crates/gos_low"
        left.mkdir(parents=True)
        shutil.move(self.top / "crates/gos_low/out", left / "out")
        (left / "out/incremental/kept").write_text("")
        (self.out / "gos").unlink()
        self.assertEqual(self.do("prove").returncode, 0)
        self.assertTrue((self.top / "crates/gos_low/out/incremental/kept").exists())
        self.assertFalse((self.out / "gos-prove").exists())

    def test_a_second_run_waits(self):
        self.repository.hold.write_text("")
        how = {"cwd": self.room, "env": self.repository.environment(), "stderr": subprocess.PIPE, "text": True}
        with subprocess.Popen(["prove"], **how) as first:
            while not self.repository.runs("lib"):
                time.sleep(0.02)
            with subprocess.Popen(["prove"], **how) as second:
                self.assertEqual(second.stderr.readline(), "gos: waiting for another run of tools/prove to end\n")
                self.repository.hold.unlink()
                self.assertIn("gos: proved and built", first.communicate()[1])
                self.assertEqual(second.communicate()[1], "gos: it is proved\n")
        self.assertEqual(len(self.repository.runs("lib")), 4)

    def test_another_kit(self):
        kit, logic = re.search(r"(rattle-kit-\S+) logic (\w+)", (TOP / "README.md").read_text()).groups()
        self.assertNotIn("rattle-kit", self.do("prove", KIT=f"{kit} logic {logic}").stderr)
        (self.out / "gos").unlink()
        self.assertIn(f"gos: rattle-kit-0 has the logic {logic}, as {kit}, ", self.do("prove", KIT=f"rattle-kit-0 logic {logic}").stderr)
        (self.out / "gos").unlink()
        ran = self.do("prove", KIT=f"{kit} logic 0")
        self.assertIn(": the proof decides\n", ran.stderr)
        self.assertEqual(ran.returncode, 0)


class Edits(standin.Case):
    """tools/edits."""

    def setUp(self):
        super().setUp()
        for name in ("gos_low/must-fail/one", "gos_low/edits/two", "gos_left/edits/three", "gos_right/edits/none"):
            path = self.top / "crates" / f"{name}.edit"
            path.parent.mkdir()
            path.write_text("file: src/lib.rt\n")
        self.do("prove")

    def test_each_is_tried_over_what_is_proved(self):
        over, over_all = "crates/gos_low/out/rlib/stamp", "crates/gos_left/out/rlib/stamp crates/gos_low/out/rlib/stamp"
        ran = self.do("edits gos_low")
        lines = [f"gos_low/{name}.edit: refused, over {over}" for name in ("one", "two")]
        self.assertEqual(ran.stdout.split("\n")[1:], [*lines, "edits: 2 tried, each is refused", ""])
        ran = self.do("edits gos_left")
        self.assertIn(f"\ngos_left/three.edit: refused, over {over_all}\n", ran.stdout)
        self.assertEqual((ran.stderr, ran.returncode), ("gos: 1 edits of 1 crates are tried\n", 0))
        self.assertEqual((self.repository.runs("lib").count("gos_low"), list(self.out.glob("gos-edits*"))), (1, []))

    def test_one_that_passes(self):
        ran = self.do("edits", FAILS="yes")
        self.assertEqual((ran.stdout.split("\n")[-2], ran.returncode), ("edits: 4 tried, NOT all are refused", 1))

    def test_what_cannot_be_tried(self):
        for name, why in (("gos_top", "these crates have no edits"), ("gos_none", "gos_none: no crate of crates.txt")):
            ran = self.do(f"edits {name}")
            self.assertEqual((ran.stderr, ran.returncode), (f"gos: {why}\n", 70))
        (self.top / "crates/gos_low/out/rlib/stamp").unlink()
        self.assertIn("gos: gos_low: not proved here yet, or by `rt ci`", self.do("edits gos_left").stderr)
        shutil.rmtree(self.top / "crates/gos_low/out")
        self.assertIn("gos: gos_low: not proved here yet", self.do("edits gos_left").stderr)


if __name__ == "__main__":
    unittest.main()
