#!/usr/bin/env python3
"""What the second program makes of the examples: from a netlist to its Verilog text and back.

usage: tools/tests/test_flow.py GOS FLOW [WORDS OF unittest]

GOS is the program (crates/gos/out/gos), and FLOW the second one (crates/gos_flow_main/out/gos_flow_main). Where yosys and abc are
installed they prove that the text of a tidied netlist does what that of the build does; a circuit that abc doesn't decide within a
minute is passed over.
"""
import shutil
import subprocess
import sys
import tempfile
import unittest
from pathlib import Path

import built

EXAMPLES = sorted(it.parent for it in (built.TOP / "examples").glob("*/b.txt"))
LATCH = "gosnet 1\ncells 4\ninput 1\nor 1 0 2\nreg 1 1\nreg 1 1\nports 1\ngive main com 0 3\nend\n"
USAGE = "usage: gos_flow verilog NET OUT | netlist VER OUT\n"
MOST_SECONDS = 60
# The lines of a build file that name the netlist and the Verilog text.
SINGLE = ("net", "verilog", "root")


class Flow(unittest.TestCase):
    """A test with a folder of its own, and both programs."""

    flow = ""

    def setUp(self):
        room = tempfile.TemporaryDirectory()
        self.addCleanup(room.cleanup)
        self.path = Path(room.name)

    def run_in(self, folder, *words):
        return subprocess.run([str(it) for it in words], cwd=folder, capture_output=True, text=True, timeout=600)

    def ends(self, status, said, *words):
        """Has the second program end so, and print this."""
        ran = self.run_in(self.path, self.flow, *words)
        self.assertEqual((ran.returncode, ran.stdout, ran.stderr), (status, said, ""), words)


class Texts(Flow):
    def built(self, example):
        """A copy of an example's folder, built and made tidy, and what its build file names."""
        folder = Path(shutil.copytree(example, self.path / example.name))
        lines = [line.split() for line in (folder / "b.txt").read_text().splitlines()]
        name = {words[0]: words[1] for words in lines if len(words) == 2 and words[0] in SINGLE}
        for words in (["build", "b.txt"], ["tidy", name["net"], "small.net"]):
            self.assertEqual(self.run_in(folder, built.Room.gos, *words).returncode, 0, words)
        return folder, name

    def goes(self, folder, verb, read, out):
        """Has the second program write a file of another one; what it tells is right."""
        ran = self.run_in(folder, self.flow, verb, read, out)
        cells = (folder / (read if verb == "verilog" else out)).read_text().split("\n")[1].removeprefix("cells ")
        self.assertEqual((ran.returncode, ran.stdout, ran.stderr), (0, f"ok cells {cells}\n", ""))

    def are_one(self, folder, one, other):
        self.assertEqual((folder / one).read_bytes(), (folder / other).read_bytes())

    def test_a_build_has_this_text_and_both_ways_lead_back(self):
        for example in EXAMPLES:
            with self.subTest(example.name):
                folder, name = self.built(example)
                self.goes(folder, "verilog", name["net"], "again.v")
                self.are_one(folder, "again.v", name["verilog"])
                self.goes(folder, "netlist", name["verilog"], "again.net")
                self.are_one(folder, "again.net", name["net"])
                self.goes(folder, "verilog", "small.net", "small.v")
                self.goes(folder, "netlist", "small.v", "back.net")
                self.are_one(folder, "back.net", "small.net")

    @unittest.skipUnless(shutil.which("yosys") and shutil.which("berkeley-abc"), "yosys or abc is not installed")
    def test_a_tidied_netlist_does_the_same_as_verilog(self):
        for example in EXAMPLES:
            with self.subTest(example.name):
                folder, name = self.built(example)
                self.goes(folder, "verilog", "small.net", "small.v")
                for text, gates in ((name["verilog"], "all.aig"), ("small.v", "small.aig")):
                    self.gates_of(folder, f"gos_{name['root']}", text, gates)
                try:
                    ran = subprocess.run(["berkeley-abc", "-c", "dsec all.aig small.aig"], cwd=folder, capture_output=True, text=True,
                                         timeout=MOST_SECONDS)
                except subprocess.TimeoutExpired:
                    print(f"{example.name}: abc had no time: it is passed over")
                    continue
                self.assertIn("are equivalent", ran.stdout)

    def gates_of(self, folder, module, text, gates):
        """Has yosys write a Verilog text as gates. The reset is never given, and registers begin with 0."""
        script = (f"read_verilog {text}; hierarchy -check -top {module}; proc; flatten; delete -input {module}/clk {module}/rst;"
                  f" connect -nounset -set rst 1'0; techmap; simplemap; dffunmap; zinit -all; opt -nodffe -nosdff; aigmap;"
                  f" write_aiger -zinit {gates}")
        ran = self.run_in(folder, "yosys", "-q", "-p", script)
        self.assertEqual((ran.returncode, ran.stderr), (0, ""))


class Statuses(Flow):
    def test_words_that_are_no_command(self):
        for words in ([], ["verilog"], ["verilog", "a.net"], ["netlist", "a.v", "a.net", "b"], ["tidy", "a.net", "b.net"], ["verilog", "a b", "c"],
                      ["verilog", "a.net", "a.net"]):
            self.ends(1, USAGE, *words)
        self.assertEqual(list(self.path.iterdir()), [])

    def test_files_that_are_rejected(self):
        (self.path / "a.net").write_text(LATCH)
        self.ends(0, "ok cells 4\n", "verilog", "a.net", "a.v")
        self.ends(2, "a.v: N1 at 0\n", "verilog", "a.v", "b.v")
        self.ends(2, "a.net: V1 at 0\n", "netlist", "a.net", "b.net")
        (self.path / "a.net").write_text(LATCH.replace("or 1 0 2", "or 1 0 1"))
        self.ends(2, "a.net: K1 cycle 1\n", "verilog", "a.net", "b.v")
        text = (self.path / "a.v").read_text()
        (self.path / "a.v").write_text(text.replace("n0 | n2", "n0 | n1"))
        self.ends(2, "a.v: K1 cycle 1\n", "netlist", "a.v", "b.net")
        (self.path / "a.v").write_text(text + "\n")
        self.ends(2, f"a.v: V1 at {len(text)}\n", "netlist", "a.v", "b.net")
        (self.path / "a.v").write_text("")
        self.ends(2, "a.v: V1 at 0\n", "netlist", "a.v", "b.net")
        self.assertEqual(sorted(it.name for it in self.path.iterdir()), ["a.net", "a.v"])

    def test_files_that_cannot_be_read_or_written(self):
        (self.path / "a.net").write_text(LATCH)
        for words in (["verilog", "none.net", "a.v"], ["netlist", ".", "b.net"], ["verilog", "a.net", "none/a.v"]):
            self.ends(3, "", *words)
        with open("/dev/full", "w") as full:
            ran = subprocess.run([self.flow, "verilog", "a.net", "a.v"], cwd=self.path, stdout=full)
        self.assertEqual((ran.returncode, (self.path / "a.v").exists()), (4, True))


if __name__ == "__main__":
    if len(sys.argv) < 3 or sys.argv[2].startswith("-"):
        sys.exit(__doc__)
    Flow.flow = str(Path(sys.argv.pop(2)).resolve())
    built.main(__doc__)
