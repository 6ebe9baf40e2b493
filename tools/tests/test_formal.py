#!/usr/bin/env python3
"""What gos-formal says of claims: that it calls proved what holds, and refuses what only seems to be a claim.

usage: tools/tests/test_formal.py PROGRAM

PROGRAM is the program (crates/gos/out/gos). Without yosys or abc nothing is tested, and a line says so.
"""
import os
import pty
import re
import shutil
import subprocess
import sys
import tempfile
import time
import unittest
from pathlib import Path

import built

import builds  # (built has put the folder above into the path)
import circuits
import elaboration
import gates
import harness
import properties
import provers
import verilog_text

FORMAL, EXAMPLES = built.TOOLS / "gos-formal", built.TOP / "examples"
PORTS = "6 of the ports"
SEEN = "reg seen = 0;\nalways @(posedge clk) if (a_uses__run) seen <= 1;\n"


class Mutex(unittest.TestCase):
    """The example mutex, built once, and properties of it."""

    @classmethod
    def setUpClass(cls):
        cls.room = tempfile.TemporaryDirectory()
        cls.addClassCleanup(cls.room.cleanup)
        cls.path = Path(cls.room.name)
        for file in (EXAMPLES / "mutex").iterdir():
            shutil.copy(file, cls.path)
        subprocess.run([built.Room.gos, "build", "b.txt"], cwd=cls.path, check=True, capture_output=True)
        cls.ports = builds.read_ports(cls.path / "out.net")

    def formal(self, properties, *options, files=("b.txt",), **environment):
        """What it prints of some properties, and its status."""
        (self.path / "p.props").write_text(properties)
        words = [sys.executable, FORMAL, *options, *files, "p.props"]
        ran = subprocess.run([str(it) for it in words], cwd=self.path, capture_output=True, text=True, timeout=600,
                             env={**os.environ, **environment})
        return ran.stdout + ran.stderr, ran.returncode

    def is_proved(self, properties, *options):
        said, status = self.formal(properties, *options)
        self.assertEqual(status, 0, said)
        return said

    def fails(self, properties, line, *options):
        said, status = self.formal(properties, *options)
        self.assertEqual((line in said.splitlines(), status), (True, 3), said)
        return said

    def says(self, text, wanted):
        """What the script says of properties that it refuses."""
        with self.subTest(text):
            self.assertEqual(self.formal(text), (f"p.props:{wanted}\n", 2))

    def refused(self, number, reason, text):
        """The same, without the circuit and in this process, which takes less time."""
        file = self.path / "p.props"
        file.write_text(text)
        with self.subTest(text):
            with self.assertRaises(builds.Wrong) as caught:
                own = properties.read(str(file), harness.names_taken(self.ports))
                elaboration.elaborate(harness.Harness(self.ports, own, 20, has_circuit=False), None, self.path, provers.Clock(60))
            self.assertEqual(str(caught.exception), f"{file}:{number}: {reason}")


class Verdicts(Mutex):
    def test_what_holds(self):
        said = self.is_proved((EXAMPLES / "mutex" / "mutex.props").read_text())
        self.assertEqual(said, f"proved of all numbers of cycles: {PORTS}, exclusion\n")

    def test_a_verdict_for_each_claim(self):
        said = self.fails("assert exclusion: !(a_uses__run__open && b_uses__run__open)\nassert never: !a_uses__run__open\n"
                          "assert not_b: !b_uses__run\n", "fails: never in cycle 3")
        verdicts = [line for line in said.splitlines() if ":" in line]
        self.assertEqual(verdicts, [f"proved of all numbers of cycles: {PORTS}, exclusion",
                                    "fails: never in cycle 3", "fails: not_b in cycle 4"])
        trace = "0 main.run\n1 go_on.ask\n1 go_on.ans 1\n2 a_wants.ask\n2 a_wants.ans 1\n3 a_uses.run\n"
        self.assertIn(f"fails: never in cycle 3\n{trace}", said)

    def test_a_counterexample_behind_the_steps(self):
        count = "reg [3:0] n = 0;\nalways @(posedge clk) if (started) n <= n + 1;\n"
        self.fails(f"{count}assert small: n != 9\n", "fails: small in cycle 9", "--steps", "3")

    def test_an_expression_has_its_own_width(self):
        self.fails("assert x: ~a_uses__run\n", "fails: x in cycle 3")
        self.fails("assert x: a_uses__run + 1'b1\n", "fails: x in cycle 3")
        self.assertIn(f"{PORTS}, two\n", self.is_proved("assert two: 2 + 0 * a_uses__run\nassume also: 4\n"))

    def test_an_unknown_value_is_any(self):
        self.fails("assert x: a_uses__run ? 1'bx : 1'b1\n", "fails: x in cycle 3")
        self.fails("wire [3:0] v = 15;\nwire [2:0] at = {2'b11, a_uses__run};\nassert x: v[at]\n", "fails: x in cycle 0")
        self.fails("wire any = $anyseq;\nassert x: any\n", "fails: x in cycle 0")
        self.fails("function f; input a; if (a) f = 1; endfunction\nassert x: f(a_uses__run)\n", "fails: x in cycle 0")

    def test_a_claim_has_a_space_of_names(self):
        self.fails("reg x = 1;\nalways @(posedge clk) if (a_uses__run) x <= 0;\nassert x: x\n", "fails: x in cycle 4")

    def test_comments(self):
        self.fails("/* assert a: 0\nassert b: 0 */ assert c: !a_uses__run // || 1\n# assert d: 0 /*\n", "fails: c in cycle 3")
        self.assertIn(f"{PORTS}, e\n", self.is_proved('assert e: !(a_uses__run && b_uses__run); // assert f: 0;\n'))

    def test_lemmas(self):
        said = self.is_proved("assert exclusion: !(a_uses__run__open && b_uses__run__open)\n", "--lemmas")
        self.assertEqual(said, f"taken as lemmas, by the proof of gos: {PORTS}\nproved of all numbers of cycles: exclusion\n")
        self.fails("assert never: !a_uses__run\n", "fails: never in cycle 3", "--lemmas")
        self.assertEqual(self.formal("assume also: 1\n", "--lemmas")[1], 1)

    def test_ordinary_verilog(self):
        said = self.is_proved("reg [1:0] q = 0;\nalways @(posedge clk)\n if (a_uses__run) begin q <= q == 1 ? 0 : 1; end else q <= 0;\n"
                              "reg up = 0; always @(posedge clk) case (up) 0: up <= 1; default: up <= 0; endcase\nwire w = up;\n"
                              "integer i;\nreg [3:0] s;\nalways @* begin s = 0; for (i = 0; i < 4; i = i + 1) s[i] = a_uses__run; end\n"
                              "genvar g;\nwire [3:0] t; generate for (g = 0; g < 4; g = g + 1) begin : some assign t[g] = s[g]; end endgenerate\n"
                              "function both; input x, y; both = x & y; endfunction\nlocalparam NONE = 0;\n"
                              "assert alike: t == {4{a_uses__run}} && both(a_uses__run, b_uses__run) == NONE && q < 2 && w == up\n")
        self.assertIn(f"{PORTS}, alike\n", said)


class Names(Mutex):
    def test_no_net(self):
        self.says("assert never: !a_uses__run__opn\n", "1: nothing is called `a_uses__run__opn`")
        self.says("# x\nassert exclusion: !(a_uses__run__opne && b_uses__run__open)\n", "2: nothing is called `a_uses__run__opne`")
        self.says(f"\n{SEEN.replace('seen <=', 'sene <=')}assert x: !(seen && b_uses__run)\n", "3: nothing is called `sene`")
        self.says("assume no: !a_uses__ruh\nassert x: !b_uses__run\n", "1: nothing is called `a_uses__ruh`")
        self.refused(1, "nothing is called `A_uses__run`", "assert x: !A_uses__run\n")

    def test_what_is_not_shown(self):
        for net in ("a_uses__run__was_open", "rst", "kept", "broken", "circuit.n5", "own.seen", "a_wants__ans__given", "exclusion"):
            self.refused(2, f"nothing is called `{net}`", f"assert exclusion: 1\nassert x: !{net}\n")

    def test_names_of_claims(self):
        self.says("assert one: 1\n\nassert one: !a_uses__run\n", "3: `one` is the name of the claim in line 1")
        self.says("assert started: 0\n", "1: `started` is a name of gos-formal's own: a claim has another one")
        self.refused(2, "`one` is the name of the claim in line 1", "assume one: 1\nassert one: !a_uses__run\n")
        for name in ("clk", "circuit", "a_uses__run", "a_uses__run__open", "main__done__in_turn", "main__run__was_open"):
            self.refused(1, f"`{name}` is a name of gos-formal's own: a claim has another one", f"assert {name}: 0\n")

    def test_nets_that_are_given(self):
        self.says("assign started = 0;\nassert x: !a_uses__run\n", "1: `started` is driven twice")
        self.refused(2, "`a_uses__run` is driven twice", "assert x: !a_uses__run\nassign a_uses__run = 0;\n")
        self.refused(2, "`a_uses__run` is declared twice", "assert x: !a_uses__run\nwire a_uses__run = 0;\n")
        other = "`a_uses__run` is another thing here than the net of this name"
        self.refused(2, other, "assert x: !a_uses__run\nlocalparam a_uses__run = 0;\n")
        self.refused(1, "`clk` is the clock, and has no value in a cycle", "assert x: !clk\n")


class Lines(Mutex):
    FORM = "the form of this line is `assert NAME: EXPRESSION` or `assume NAME: EXPRESSION`"

    def test_claims_stand_in_one_line(self):
        for text in ("assert x: 1); assume (0", "assert x: 1; assign started = 0", "assert x: (a_uses__run", "assert x:", "assert (0);",
                     "assert x 1", "assume x: 1] + [0"):
            self.refused(1, self.FORM, f"{text}\n || 1)\n")
        self.refused(2, "yosys: syntax error, unexpected OP_LOR", "assert x: a_uses__run\n || 1;\n")

    def test_what_claims_otherwise(self):
        for word in ("assert", "assume", "cover", "restrict"):
            self.refused(2, f"`{word}`: a claim is a line `assert NAME: EXPRESSION`", f"\nalways @* {word} (0);\nassert x: !a_uses__run\n")
        self.refused(1, "`endmodule`: all lines stand in one module", "endmodule module other;\nassert x: !a_uses__run\n")
        self.refused(1, "directives are not taken here", "`define assert assume\nassert x: 0\n")
        self.refused(1, "escaped names are not taken here", "assign \\assert:x = 1;\nassert x: 0\n")
        self.refused(1, "attributes are not taken here", "(* init = 1 *) reg x;\nassert x: 0\n")
        self.refused(2, "`unique` is not taken here", "reg r = 0;\nalways @* unique case (started) 0: r = 1; endcase\nassert x: r\n")
        self.refused(2, "the comment that begins here has no end", "assert x: 0\n/* assert y: 0\n")

    def test_undriven_nets(self):
        self.refused(1, "nothing drives `w`", "wire w;\nassert x: !w\n")
        self.refused(2, "nothing drives `w`", "\nwire [1:0] w; assign w[0] = 1;\nassert x: w == 1\n")
        self.refused(1, "`w` is driven twice", "wire w; assign w = 0; assign w = 1;\nassert x: w\n")
        self.refused(1, "`w` is driven twice", "wire w; assign w = a_uses__run; assign w = 1;\nassert x: w\n")
        self.refused(1, "`w` stands on itself, with no register between", "wire w = ~w;\nassert x: w\n")
        self.refused(1, "yosys: Range select out of bounds on signal `a_wants__ansvalue': Setting result bit to undef.",
                     "assert x: a_wants__ansvalue[3] == 0\n")

    def test_registers(self):
        edges = "an `always` is `always @(posedge clk)`, or `always @*`"
        for edge in ("@(negedge clk)", "@(posedge a_uses__run)", "@(a_uses__run)", "@(posedge clk or posedge started)", "#5"):
            self.refused(2, "delays and parameters of parts are not taken here" if edge == "#5" else edges,
                         f"reg seen = 0;\nalways {edge} seen <= 1;\nassert x: !seen\n")
        for line in ("s = 1;", "begin s <= 0; if (started) s = 1; end", "if (s == 1) s <= 0; else s = 1;", "case (s) 0: s = 1; endcase"):
            self.refused(2, "in `always @(posedge clk)` a register takes its value by `<=`",
                         f"reg s = 0;\nalways @(posedge clk) {line}\nassert x: s\n")
        self.refused(1, "`r` has no first value, as in `reg r = 0;`", "reg r;\nreg s = 0;\nalways @(posedge clk) begin r <= 1; s <= r; end\n"
                     "assert x: s\n")
        self.refused(2, "what is said here for some cases alone would be a latch", "reg r;\nalways @* if (a_uses__run) r = 1;\nassert x: r\n")
        self.refused(1, "what is divided by has to be a number other than 0", "assert x: 5 / go_on__ansvalue == 5\n")
        self.refused(2, "memories are not taken here, but a register for each element is",
                     "reg [7:0] m [0:3];\nalways @(posedge clk) m[0] <= 1;\nassert x: m[0] < 2\n")
        self.refused(1, "there is no module `foo`", "foo bar(a_uses__run);\nassert x: 1\n")
        self.says("gos_main other(.clk(clk), .rst(started));\nassert x: 1\n", "1: `gos_main` is not taken")

    # What a simulator and yosys read otherwise: the first takes a value from before, the second the one that comes.
    def test_reads_before_a_value(self):
        early = "`b` is read before it has its value"
        for line in ("c = b;", "if (a_uses__run) c = !(1 & b);", "case (b) 1: c = 1; endcase", "case (1) b, !b: c = 1; endcase"):
            self.refused(3, early, f"reg b, c;\nalways @* begin c = 0;\n {line} b = a_uses__run; end\nassert x: c == b\n")
        self.refused(2, early, "reg [1:0] b;\nalways @* begin b[1] = b[0]; b[0] = a_uses__run; end\nassert x: b != 2\n")
        nothing = "an `always @*` that reads nothing is never run by a simulator"
        self.refused(1, nothing, "reg b; always @* b = 1;\nassert x: b || !a_uses__run\n")
        self.is_proved("reg b, c; wire d = b;\nreg [1:0] e;\nalways @* begin b = a_uses__run; c = b; c = c ^ d; e[0] = b; e[1] = e[0]; end\n"
                       "assert x: !c && e[0] == e[1]\n")

    def test_functions_read_their_arguments(self):
        other = "`{}` isn't given to the function: it reads its arguments alone"
        self.refused(2, other.format("a_uses__run"), "function f; input q;\n f = q & a_uses__run; endfunction\nassert x: !f(b_uses__run)\n")
        self.refused(2, other.format("i"), "integer i;\nfunction f(input q); for (i = 0; i < 2; i = i + 1) f = q; endfunction\nassert x: f(1)\n")
        self.is_proved("localparam N = 2, M = 1;\nfunction g(input q); g = q; endfunction\n"
                       "function automatic [1:0] f(input [N-1:0] q, input p); integer i; reg r;\n"
                       "begin r = 'b0; for (i = 0; i < N; i = i + M) f[i] = g(q[i]) & p | r; end endfunction\nassert x: f(3, a_uses__run) != 1\n")


class Emptiness(Mutex):
    def test_assumptions_that_no_run_keeps(self):
        never = "open: no run keeps the assumptions for 20 cycles, so nothing is called proved\n"
        self.assertEqual(self.formal("assume no: 0\nassert x: !a_uses__run\n"), (never, 4))
        count = "reg [3:0] n = 0;\nalways @(posedge clk) if (started && n != 15) n <= n + 1;\n"
        self.assertEqual(self.formal(f"{count}assume short: n != 12\nassert x: !a_uses__run\n"), (never, 4))
        self.assertEqual(self.formal("assume no: main__run\nassume not: !main__run\nassert x: 0\n"), (never, 4))

    def test_assumptions_that_some_run_keeps(self):
        said = self.is_proved(f"{SEEN}assume soon: main__run__open || !started\nassume wants: !a_wants__ansvalue\nassert x: !seen\n")
        self.assertEqual(said, f"some run keeps the assumptions for 20 cycles\nproved of all numbers of cycles: {PORTS}, x\n"
                               "1 in no cycle of any run: a_uses__run\n")

    def test_claims_that_say_nothing(self):
        said = self.is_proved("assert x: a_uses__run || !a_uses__run\nassert y: !(a_uses__run && b_uses__run)\n")
        self.assertEqual(said, f"proved of all numbers of cycles: {PORTS}, x, y\n"
                               "says nothing of the circuit, since it holds whatever the nets are: x\n")


class Circuits(Mutex):
    """Circuits that are not what gos writes."""

    CLAIM = "assert exclusion: !(a_uses__run__open && b_uses__run__open)\n"

    def change(self, *changes):
        """Writes another Verilog text."""
        text = (self.path / "out.v").read_text()
        for old, new in changes:
            self.assertIn(old, text)
            text = text.replace(old, new, 1)
        (self.path / "other.v").write_text(text)

    def is_refused(self, wanted):
        """Whether the text is refused for itself, whatever the netlist is."""
        circuit = elaboration.Circuit(self.path / "other.v", "out.net")
        with self.assertRaisesRegex(builds.Wrong, f"/other.v: {re.escape(wanted)}$"):
            elaboration.elaborate(harness.Harness(self.ports, properties.Properties(lines=[]), 20), circuit, self.path, provers.Clock(60))

    def test_a_register_without_reset(self):
        self.change(("if (rst) n8 <= 1'd0; else n8 <= n24", "n8 <= n24 | n16"))
        self.is_refused("a reset does not set n8 to 0")

    def test_other_ports(self):
        self.change((", b_uses__done)", ", b_uses__done, more)"), ("  input clk;", "  input clk;\n  input more;"))
        self.is_refused("its ports are not those of out.net")

    def test_another_clock(self):
        self.change(("always @(posedge clk) if (rst) n8", "always @(negedge clk) if (rst) n8"))
        self.is_refused("this is no Verilog text that gos writes: a register takes its value at `posedge clk` alone")

    def test_another_text(self):
        """Texts with the ports of the netlist: of other circuits, and of the same one."""
        old = "  assign n30 = n11 & n12;"
        line = (self.path / "out.v").read_text().split("\n").index(old) + 1
        for new in ("  assign n30 = n11 & n11;", "  assign n30 = n12 & n11;", f"{old}\n{old}", ""):
            self.change((old, new))
            for options in ([], ["--lemmas"]):
                said = self.formal(self.CLAIM, *options, files=("out.net", "other.v"))
                self.assertEqual(said, (f"other.v:{line + new.count(chr(10))}: this is not the Verilog text of out.net\n", 2))

    def test_texts_of_netlists(self):
        """The text of a netlist is the one that gos writes."""
        room = built.Room(self.path)
        main = ("import v : var 4\nimport e : exp 4\nexport new x : 4 in new y[2] : 4 in (y 1:1 := e + 1:4 - !v & 7:4 | 1:4 ^ 2:4 ;"
                " while !x < 3:4 do (x := not !x || v := !(y 0:1)) ; x := (if !x = 2:4 then e else 1:4)) : com\n")
        room.write_build({"main": main}, (), "main")
        (self.path / "all.txt").write_text((self.path / "b.txt").read_text().replace("out.", "all."))
        room.run(room.gos, "compile", "main.gos", "main.obj")
        self.assertEqual(room.run(room.gos, "link", "all.txt").returncode, 0)
        text = (self.path / "all.net").read_text()
        self.assertEqual({word for word, _, _ in circuits.cells_of("all.net", text)}, {*circuits.PINS, "input", "const"})
        verilog_text.refuse_other(self.path / "all.net", self.path / "all.v")

    def test_a_circuit_that_breaks_its_claims(self):
        """Here the netlist is another one: cell 8 keeps its 1, by a new cell behind all others."""
        text = (self.path / "out.net").read_text()
        self.assertEqual(text.split("\n")[10], "reg 1 24")
        count = int(re.search(r"^cells (\d+)$", text, re.M)[1])
        changes = ("reg 1 24", f"reg 1 {count}"), (f"cells {count}", f"cells {count + 1}"), ("\nports ", "\nor 1 24 8\nports ")
        for old, new in changes:
            text = text.replace(old, new, 1)
        (self.path / "other.net").write_text(text)
        lines = verilog_text.lines_of(circuits.cells_of("other.net", text), builds.read_ports("other.net", text))
        (self.path / "other.v").write_text("".join(f"{line}\n" for line in lines))
        said, status = self.formal(self.CLAIM, files=("other.net", "other.v"))
        self.assertEqual((re.findall("^fails: (.*) in", said, re.M), status), (["a_uses__run__in_turn", "exclusion"], 3), said)


class Provers(Mutex):
    """What abc says is taken for no more than it is."""

    CLAIM = "assert never: !a_uses__run\n"

    def by(self, lines, *options, claim=CLAIM):
        """What is said where this is abc."""
        there = self.path / "there"
        there.mkdir(exist_ok=True)
        (there / "berkeley-abc").write_text(f"#!/bin/bash\n{lines}\n")
        (there / "berkeley-abc").chmod(0o755)
        return self.formal(claim, *options, PATH=f"{there}:{os.environ['PATH']}")

    def test_no_words_are_a_proof(self):
        right, checked = "f : i/o =   10/    1  lat =   19  and =     63", "Verification of invariant with 5 clauses was successful."
        for lines in ("echo 'Property proved.'", f"echo '{right}'; echo 'Property proved.'", f"echo '{checked}'; echo 'Property proved.'",
                      f"echo '{right}'; echo '{checked}'; echo 'Property proved.'; exit 1", "echo 'Cannot open input file'", "kill -9 $$",
                      f"sleep 60; echo '{checked}'; echo 'Property proved.'"):
            with self.subTest(lines):
                said, status = self.by(lines, "--seconds", "6")
                self.assertEqual((status, "proved of" in said, "fails" in said), (4, False, False), said)

    def test_each_claim_by_itself(self):
        """Where abc has no proof of all together, each claim has its own."""
        once = f'case "$*" in *pdr*) [ -e asked ] || {{ touch asked; exit 1; }} ;; esac\nexec {provers.abc()} "$@"'
        said, status = self.by(once, claim="assert exclusion: !(a_uses__run__open && b_uses__run__open)\n")
        self.assertEqual((said, status), (f"proved of all numbers of cycles: {PORTS}, exclusion\n", 0))

    def test_a_run_is_tried(self):
        said, status = self.by("echo 'Output 0 of miter \"cone\" was asserted in frame 3.'; echo 0000 >cex.txt", "--seconds", "6")
        self.assertEqual((status, "fails" in said), (4, False), said)

    def test_the_time_is_by_the_clock(self):
        begun = time.monotonic()
        said, status = self.by("sleep 60", "--seconds", "6")
        self.assertEqual((status, time.monotonic() - begun < 50), (4, True), said)
        # (on a machine with much else to do yosys alone may take so long)
        self.assertRegex(said, r"open: (never: no proof in the time, and no search came to its end|yosys did not end in 6 seconds)\n")

    def read(self, terminal):
        """What was written to a terminal, which may be nothing: there a read ends with an error."""
        try:
            return os.read(terminal, 1 << 16).decode()
        except OSError:
            return ""

    def test_a_line_of_progress(self):
        self.by("sleep 60", "--seconds", "1")
        (self.path / "p.props").write_text(self.CLAIM)
        reads, writes = pty.openpty()
        path = f"{self.path / 'there'}:{os.environ['PATH']}"
        ran = subprocess.run([sys.executable, FORMAL, "--seconds", "20", "b.txt", "p.props"], cwd=self.path, stdout=subprocess.DEVNULL,
                             stderr=writes, env={**os.environ, "PATH": path})
        os.close(writes)
        said = self.read(reads)
        self.assertRegex(said, r"a (counterexample|proof) of 6 of the ports, never: \d+ of 20 s")
        self.assertTrue(said.endswith("\r\x1b[K"), said)
        self.assertEqual(ran.returncode, 4)


class Gates(unittest.TestCase):
    TEXT = "aag 5 1 2 1 2\n2\n4 10\n6 4\n8\n8 7 4\n10 2 5\ni0 in\nl0 first\nl1 then\no0 out\nc\n"

    def test_a_run(self):
        made = gates.read(self.TEXT)
        runs = list(gates.run(made, [[1], [0], [0]]))
        self.assertEqual([gates.value(values, made.outputs["out"]) for values in runs], [0, 1, 0])

    def test_rings_and_other_texts(self):
        for text in ("", "aag 2 1 0 1 1\n2\n4\n4 4 2\n", "aag 1 0 1 0 0\n2 2 1\n", "aag 1 1 0 0 0 1\n2\n2\n"):
            with self.assertRaises((ValueError, StopIteration, IndexError)):
                gates.read(text)

    def test_a_cone_in_binary(self):
        made = gates.read(self.TEXT)
        made.both(10, 3)
        self.assertEqual(gates.binary(gates.cone(made, 9)), b"aig 5 1 2 1 2\n8\n4\n11\n\x03\x03\x03\x03")


if __name__ == "__main__":
    if not shutil.which("yosys") or not provers.abc():
        print("test_formal: yosys or abc is not installed, so nothing is tested")
        sys.exit(0)
    built.main(__doc__)
