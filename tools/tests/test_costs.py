#!/usr/bin/env python3
"""Measures what forms of the language cost, and compares the tables of docs/COSTS.md with it; and tests tools/gos-cost,
and what tools/gos-vcd shows of locals and parts.

usage: tools/tests/test_costs.py GOS [WORDS OF unittest]
       tools/tests/test_costs.py GOS --write

With --write the tables get what was measured.

A form stands between two commands of the environment that are done at once, as in `a ; FORM ; b`. It takes the cycles from
`a.done` to `b.run` that are more than without it, and has the cells that the netlist has more.
"""
import contextlib
import io
import re
import shutil
import sys
import tempfile
from pathlib import Path

import built

import plans  # (built has put the folder above into the path)

COST, PAGE = built.script("gos-cost"), built.TOP / "docs" / "COSTS.md"
PULSES = "cycles 300\nnext 0 main.run\nnext 0 a.done\nnext 0 b.done\n"
LOCALS = "new x : 8 in new y : 8 in"
FORMS = [
    "skip", "skip ; skip", "skip || skip", "x := 1:8", "x := not 1:8", "x := 1:8 + 2:8", "y := !x", "y := !x + 1:8",
    "x := 1:8 ; y := 2:8", "x := 1:8 || y := 2:8", "x := 1:8 ; x := 2:8", "x := !x + 1:8",
    "if 1:1 then skip else skip", "if !x = 0:8 then y := 1:8 else skip", "x := (if 1:1 then 1:8 else 2:8)", "while 0:1 do skip",
    "new z : 8 in skip", "new z[2] : 8 in skip", "new z[16] : 8 in skip", "new z[4] : 8 in z 1:2 := 1:8", "new z[4] : 8 in y := !(z 1:2)",
    "(fun c : com . c) (x := 1:8)", "(fun c : com . c ; c) (x := 1:8)", "fst (x := 1:8, y := 1:8)",
]
UP, DOWN = "new i : 8 in while !i < {0}:8 do {1}", "new i : 8 in (i := {0}:8 ; while not (!i = 0:8) do {1})"
LOOPS = {
    UP: ["i := !i + 1:8", "(x := 1:8 ; i := !i + 1:8)"], DOWN: ["i := !i - 1:8", "(x := 1:8 ; i := !i - 1:8)"],
}
ROUNDS = [
    "if !a < !b then b := !b - !a else a := !a - !b",
    "new s : 8 in new t : 8 in (s := !a ; t := !b ; if !s < !t then b := !t - !s else a := !s - !t)",
]
TABLE = re.compile(r"(?:^\|.*\n)+", re.M)
USES = [1, 2, 4, 8, 16, 32]


def tree(uses):
    """Uses one after the other, with brackets as a tree that is as flat as can be."""
    if len(uses) == 1:
        return uses[0]
    half = len(uses) // 2
    return f"({tree(uses[:half])} ; {tree(uses[half:])})"


class Measure:
    """Measurements of forms by builds in a room."""

    def __init__(self, room):
        self.room = room
        self.seen = {}

    def of(self, form, binders=LOCALS):
        """The cycles and cells that a form costs."""
        cycles, cells = self.between(f"{form} ; ", binders)
        bare_cycles, bare_cells = self.between("", binders)
        return cycles - bare_cycles, cells - bare_cells

    def between(self, form, binders):
        key = form, binders
        if key not in self.seen:
            run = self.room.build({"main": f"import a : com\nimport b : com\nexport {binders} (a ; {form}b) : com\n"}, PULSES)
            self.seen[key] = run.times("b.run")[0] - run.times("a.done")[0], run.cells
        return self.seen[key]

    def forms(self):
        yield "| Form | Cycles | Cells |"
        for form in FORMS:
            cycles, cells = self.of(form)
            yield f"| `{form.replace('||', chr(92) + '|' + chr(92) + '|')}` | {cycles} | {cells} |"

    def loops(self):
        yield "| Loop of N rounds | Cycles of a round | Cells |"
        for loop, bodies in LOOPS.items():
            for body in bodies:
                (few, _), (many, cells) = (self.of(loop.format(rounds, body)) for rounds in (10, 20))
                yield f"| `{loop.format('N', body)}` | {(many - few) // 10} | {cells} |"

    def calls(self):
        """What a procedure costs that stands in several places: p is a module of its own, which does nothing."""
        yield "| Calls of one procedure | Cycles | Cells |"
        for term in ("p", "p ; p", "p ; p ; p", "(p ; p) ; (p ; p)"):
            main = f"import a : com\nimport b : com\nimport p : com\nexport a ; {term} ; b : com\n"
            run = self.room.build({"main": main, "p": "export skip : com\n"}, PULSES, ["main p p"])
            bare_cycles, bare_cells = self.between("", "")
            yield f"| `{term}` | {run.times('b.run')[0] - run.times('a.done')[0] - bare_cycles} | {run.cells - bare_cells} |"

    def whole(self, module, uses):
        """The cycles of a run of a module, in which so many commands of the environment are done at once, and its cells."""
        run = self.room.build({"main": module}, f"cycles {uses * (uses + 5) + 9}\nnext 0 main.run\n" + "next 0 c.done\n" * (uses if " c " in module else 0))
        return run.times("main.done")[0], run.cells

    def uses(self):
        yield "| Uses | `c`, in a line | `c`, as a tree | Cells | `x := !x + 1:8`, in a line | as a tree | Cells |"
        for uses in USES:
            row = [uses]
            for step, head in (("c", "import c : com\nexport"), ("x := !x + 1:8", "export new x : 8 in")):
                terms = " ; ".join([step] * uses), tree([step] * uses)
                (line, cells), (flat, same) = (self.whole(f"{head} ({term}) : com\n", uses) for term in terms)
                assert cells == same, f"{uses} times {step}: {cells} cells in a line, and {same} as a tree"
                row += [line, flat, cells]
            yield f"| {' | '.join(map(str, row))} |"

    def copies(self):
        """Two ways to the greatest common divisor of 255 and 3."""
        yield "| A round of the loop | Cycles of the run | Cells |"
        for round in ROUNDS:
            module = f"export new a : 8 in new b : 8 in (a := 255:8 ; b := 3:8 ; while not (!a = !b) do ({round})) : com\n"
            run = self.room.build({"main": module}, "cycles 9000\nnext 0 main.run\n")
            yield f"| `{round}` | {run.times('main.done')[0]} | {run.cells} |"

    def page(self, text):
        """The page with its tables as they are measured, each behind its heading."""
        for heading, rows in (("## Forms", self.forms()), ("## Loops", self.loops()), ("## Calls", self.calls()),
                              ("## One name in many places", self.uses()), ("## Copies", self.copies())):
            first, *others = rows
            table = "\n".join([first, "|" + "---|" * (first.count(" |")), *others])
            before, after = text.split(f"\n{heading}\n")
            after = TABLE.sub(lambda _, table=table: f"{table}\n", after, count=1)
            text = f"{before}\n{heading}\n{after}"
        return text


def with_shown(room, text):
    """The page with what gos-cost prints of the examples that it shows."""
    for example, words in (("sequence", ["b.txt"]), ("shared_procedure", ["--parts", "b.txt"]),
                           *(("uart", [view, "b.txt"]) for view in ("--names", "--lines", "--ports"))):
        shutil.copytree(built.TOP / "examples" / example, room.path, dirs_exist_ok=True)
        room.run(room.gos, "build", "b.txt")
        with contextlib.chdir(room.path), contextlib.redirect_stdout(io.StringIO()) as said:
            COST.main(words)
        command = f"    $ gos-cost {' '.join(words)}\n"
        block = "".join(f"    {line}".rstrip() + "\n" for line in said.getvalue().rstrip().split("\n"))
        text = re.sub(re.escape(command) + r"(?:    .*\n|\n(?=    ))*", lambda _, it=command + block: it, text)
    return text


class Page(built.Case):
    def test_tables_are_what_is_measured(self):
        text = PAGE.read_text()
        self.assertEqual(Measure(self.room).page(text), text)

    def test_the_builds_that_it_shows(self):
        self.assertEqual(with_shown(self.room, PAGE.read_text()), PAGE.read_text())

    def test_the_square(self):
        """What the page says of n uses in a line, n of the table."""
        rows = [[int(it) for it in row.strip("| ").split(" | ")] for row in re.findall(r"(?m)^[|] \d+ [|] \d.*$", PAGE.read_text())]
        self.assertEqual([row[0] for row in rows], USES)
        for uses, line, _, _, local, _, _ in rows:
            self.assertEqual((line, local), (uses * (uses + 3) // 2, uses * (uses + 4)))


class Cost(built.Case):
    """tools/gos-cost."""

    SEQUENCE = {"main": "import c : com\nimport d : com\nexport c ; d : com\n"}

    def cost(self, *words):
        said, wrong = io.StringIO(), io.StringIO()
        with contextlib.chdir(self.room.path), contextlib.redirect_stdout(said), contextlib.redirect_stderr(wrong):
            status = COST.main(words)
        return said.getvalue(), wrong.getvalue(), status

    def test_sequence(self):
        self.room.build(self.SEQUENCE, "cycles 90\nnext 0 main.run\nnext 3 c.done\nnext 0 d.done\nnext 9 main.run\nnext 5 c.done\nnext 0 d.done\n")
        self.assertEqual(self.cost("b.txt"), ("""\
kind   cells  bits  of each width
input      3     3  3 of 1
reg        3     3  3 of 1
wire       3     3  3 of 1
all        9     9
longest path: 0 cells: input 1 (d.done) > reg 1 (main.done)

from       to         times  fewest  most  all
main.run   main.done      2       5     7   12
main.run   c.run          2       1     1    2
c.run      c.done         2       2     4    6
c.done     d.run          2       1     1    2
d.run      d.done         2       0     0    0
d.done     main.done      2       1     1    2
main.done  main.run       1       8     8    8
""", "", 0))
        self.assertEqual(self.cost("b.txt", "c.run", "d.done")[0], """\
from   to      times  fewest  most  all
c.run  d.done      2       3     5    8
""")

    def test_parts(self):
        main = "import p : com\nimport q : com\nexport p ; q ; p : com\n"
        self.room.build({"main": main, "p": "export skip : com\n"}, "cycles 9\nnext 0 main.run\nnext 0 q.done\n", ["main p p"])
        self.assertEqual(self.cost("--parts", "b.txt"), ("""\
instance  parts  cells  bits  registers
main          3     16    16          2
p             1      1     1          0
of none       0      4     4          2

kind   parts  cells  bits  registers
share      1     10    10          2
seq        2      6     6          0
skip       1      1     1          0
""", "", 0))
        self.room.write(p__obj="gosobj 2\n")
        self.assertEqual(self.cost("--parts", "b.txt")[1:], ("tools/gos-cost: p.obj: this is no object that is right; gos link says where it stops "
                                                            "being one\n", 1))
        with self.assertRaisesRegex(SystemExit, "1"):
            self.cost("--parts")

    # A write, a command of the environment, and a read and a write of the same variable.
    READS = """import c : com
export
  new x : 8 in
    (x := 5:8 ;
     c ;
     x := !x + 1:8)
  : com
"""

    def test_names_lines_and_ports(self):
        self.room.build({"main": self.READS}, "cycles 60\nnext 0 main.run\nnext 7 c.done\nnext 4 main.run\nnext 2 c.done\n")
        # (the first write is behind one Share, what reads and what writes then is behind two; a write takes a cycle more)
        # (c is done 3 cycles after its first request, and in the cycle of its second one)
        self.assertEqual(self.cost("--names", "b.txt"), ("""\
name    cells  shares  reads  fewest  most  all  writes  fewest  most  all  waits  fewest  most  all
main.x     62       2      2       2     2    4       4       2     3   10      0       0     0    0
main.c      0       0      0       0     0    0       0       0     0    0      2       0     3    3
""", "", 0))
        # (in each of two runs the block takes a cycle, each write one, and the Shares five; the ports take two)
        self.assertEqual(self.cost("--lines", "b.txt"), ("""\
line        parts  cells  registers  cycles
main.gos:3      1      9          3       6
main.gos:4      3     10          0       0
main.gos:5      1      3          0       0
main.gos:6      6     64         10      10
""", "", 0))
        self.assertEqual(self.cost("--ports", "b.txt")[0].splitlines()[1:], [
            "main.run      2                     13           0                             0          13",
            "c.run         2                      3           4                            10           7"])
        self.room.write(main__gos=self.READS.replace("x := 5:8 ;", ""))
        self.assertEqual(self.cost("--lines", "b.txt")[1:], (
            "tools/gos-cost: main.gos: this is not the source of its object any more; gos build makes a new one\n", 1))

    def test_waits_of_what_a_module_serves(self):
        """A command and an expression that modules serve, and a command that a module only passes on."""
        modules = {"main": "import p : com\nimport q : com\nimport e : exp 4\nexport new x : 4 in (p ; q ; x := e ; p) : com\n",
                   "p": "import c : com\nexport c ; c : com\n", "q": "import d : com\nexport d : com\n", "e": "export 1:4 + 2:4 : exp 4\n"}
        pulses = "cycles 60\nnext 0 main.run\nnext 4 c.done\nnext 4 c.done\nnext 9 d.done\nnext 5 c.done\nnext 5 c.done\n"
        self.room.build(modules, pulses, ["main p p", "main q q", "main e e"])
        waits = {row[0]: [int(it) for it in row[-4:]] for row in map(str.split, self.cost("--names", "b.txt")[0].splitlines()[1:])}
        # (no part of q answers main: q passes on what its port answers)
        self.assertEqual(waits, {"main.x": [0] * 4, "main.p": [2, 6, 8, 14], "main.e": [1, 0, 0, 0], "p.c": [4, 0, 3, 6], "q.d": [1, 8, 8, 8]})

    def test_all_kinds_of_parts_are_known(self):
        """One program with each kind, and with Shares of types of each form."""
        self.room.build({"main": """import e : exp 3
import v : var 2
export
  new x : 4 in
    (x := 3:4 + 1:4 - 2:4 & 7:4 | 1:4 ^ 2:4 ;
     (skip || skip) ;
     (if !x = 1:4 then x := not !x else skip) ;
     while !x < 0:4 do skip ;
     x := (if !x = 2:4 then 1:4 else (skip ; 2:4)) ;
     x := (new z : 2 in 1:4) ;
     (fun g : exp 4 -> com . g 1:4 ; g 2:4) (fun a : exp 4 . new w : 4 in w := a) ;
     (fun h : var 4 -> exp 2 . new w : 4 in new u : 2 in (u := h w ; u := h w)) (fun a : var 4 . (a := 1:4 ; 2:2)) ;
     (fun p : com * (com -> exp 2) . new u : 2 in (fst p ; u := snd p skip ; fst p)) (skip, fun c : com . c ; 1:2) ;
     new u : 3 in (u := e ; u := e) ; v := !v)
  : com
"""}, "cycles 900\nnext 0 main.run\nnext 0 e.ans 1\nnext 0 e.ans 1\nnext 0 v.ans 1\nnext 0 v.done\n")
        said, wrong, status = self.cost("--parts", "b.txt")
        self.assertEqual((wrong, status), ("", 0))
        self.assertEqual(self.cost("--lines", "b.txt")[1:], ("", 0))
        kinds = [line.split()[0] for line in said.split("\n\n")[1].splitlines()[1:]]
        self.assertEqual(sorted(kinds), sorted([*plans.GATES, *plans.OPERATORS, "local", "share"]))
        # In the dump each part rests where the program does, and some part of each kind has run.
        dump = built.signals(self.room.run(built.TOOLS / "gos-vcd", "--parts", "b.txt").stdout)[1]
        runs, over = {name: "".join(it) for name, it in dump.items() if name.startswith("parts.")}, dump["main.done"].index("1")
        self.assertEqual((len(runs), [name for name, it in runs.items() if "1" in it[over:]]), (sum(map(int, re.findall(r"(?m)^main +(\d+)", said))), []))
        self.assertEqual({name.split("_")[1] for name, it in runs.items() if "1" in it}, {it.removesuffix("exp") for it in kinds})

    def test_longest_path(self):
        self.room.build({"main": "import e : exp 8\nexport new x : 8 in x := e + not e : com\n"}, "cycles 90\nnext 0 main.run\n")
        said = self.cost("b.txt")[0]
        self.assertIn(" 8 cells: reg 1 > not 1 > and 1 > gate 8 > mux 8 > add 8 > gate 8 > gate 8 > mux 8 > reg 8\n", said)

    def test_a_ring(self):
        self.room.build(self.SEQUENCE, "cycles 9\nnext 0 main.run\n")
        self.room.write(out__net="gosnet 1\ncells 3\nor 1 1 2\nnot 1 0\ninput 1\nports 1\ngive m com 2 0\nend\n", out__trc="cycles 1\n")
        self.assertEqual(self.cost("b.txt"), ("", "tools/gos-cost: the netlist has a ring of cells without a register\n", 1))

    def test_wrong_files(self):
        self.room.build(self.SEQUENCE, "cycles 9\nnext 0 main.run\n")
        self.assertEqual(self.cost("c.txt")[1], "tools/gos-cost: c.txt can't be read: No such file or directory\n")
        self.assertEqual(self.cost("main.gos")[1], "tools/gos-cost: main.gos is no build file\n")
        self.assertEqual(self.cost("b.txt", "c.run", "z.run")[1], "tools/gos-cost: the netlist has no event z.run\n")
        for name, text, why in (
            ("out.trc", "x y\n", "out.trc is no trace"), ("out.trc", "3 z.run\ncycles 9\n", "the netlist has no event z.run"),
            ("out.net", "gosnet 1\n", "out.net is no netlist"), ("out.net", "gosnet 1\ncells 1\nreg 1 7\nports 0\nend\n", "out.net is no netlist"),
        ):
            self.room.build(self.SEQUENCE, "cycles 9\nnext 0 main.run\n")
            (self.room.path / name).write_text(text)
            self.assertEqual(self.cost("b.txt"), ("", f"tools/gos-cost: {why}\n", 1))
        with self.assertRaisesRegex(SystemExit, "1"):
            self.cost()


class Dump(built.Case):
    """What tools/gos-vcd shows of the inside."""

    MODULE = """import c : com
export
  new x : 8 in new a[2] : 1 in
    (x := 5:8 ;
     c ;
     a 1:1 := 1:1 ;
     new x : 4 in x := 3:4)
  : com
"""

    def setUp(self):
        super().setUp()
        self.room.build({"main": self.MODULE}, "cycles 12\nnext 0 main.run\nnext 6 c.done\n")

    def dump(self, *words):
        """What the dump shows but the signals of the ports, and its text."""
        ran = self.room.run(built.TOOLS / "gos-vcd", *words, "b.txt")
        self.assertEqual((ran.returncode, ran.stderr), (0, ""))
        ports = built.signals(self.room.run(built.TOOLS / "gos-vcd", "out.net", "out.trc").stdout)[1]
        return {name: it for name, it in built.signals(ran.stdout)[1].items() if name not in ports}, ran.stdout

    def test_locals(self):
        """A number is seen from the cycle after its writing on, and two blocks of one name are told apart by their places."""
        found, text = self.dump("--locals")
        self.assertEqual({name: [int(it, 2) for it in values] for name, values in found.items()}, {
            "main.x_3_3": [0] * 3 + [5] * 9, "main.a[0]": [0] * 12, "main.a[1]": [0] * 8 + [1] * 4, "main.x_7_6": [0] * 10 + [3] * 2})
        self.assertEqual(re.findall(r"\$var reg (\d+) \S+ (\w.*) \$end", text), [
            ("8", "x_3_3 [7:0]"), ("1", "a[0] [0:0]"), ("1", "a[1] [0:0]"), ("4", "x_7_6 [3:0]")])
        self.assertEqual(self.dump(), ({}, self.room.run(built.TOOLS / "gos-vcd", "out.net", "out.trc").stdout))

    def test_parts(self):
        """From the request to the answer: c is open from cycle 4 to 6, and all is over in cycle 10."""
        found = {name.removeprefix("parts."): "".join(it) for name, it in self.dump("--parts")[0].items()}
        self.assertEqual(found, {
            "p0_local_x_3_3": "111111111110", "p1_array_a_3_16": "011111111110", "p2_seq_4_6": "001111111110", "p3_assign_x_4_6": "001100000000",
            "p4_lit_4_11": "001000000000", "p5_seq_5_6": "000111111110", "p6_seq_6_6": "000000111110", "p7_assign_a_6_6": "000000111000",
            "p8_lit_6_8": "000000010000", "p9_lit_6_15": "000000100000", "p10_local_x_7_6": "000000001110", "p11_assign_x_7_19": "000000000110",
            "p12_lit_7_24": "000000000100"})
        self.assertEqual(self.dump("--parts", "--locals")[0].keys(), self.dump("--parts")[0].keys() | self.dump("--locals")[0].keys())

    def test_files_of_another_build(self):
        for words in (("--locals", "out.net", "out.trc"), ("--parts", "out.net", "out.trc")):
            self.assertIn("want BUILD", self.room.run(built.TOOLS / "gos-vcd", *words).stderr)
        net, trace = ((self.room.path / it).read_text() for it in ("out.net", "out.trc"))
        for name, text, why in (
            ("out.trc", trace.replace("4 c.run", "3 c.run"), "out.trc: this is no trace of this netlist, which has other outputs in cycle 3"),
            ("main.gos", "export skip : com\n", "main.gos: this is not the source of its object any more"),
            ("out.net", net.replace("not 1 ", "reg 1 ", 1), "out.net: this is no netlist of the objects that the build file names"),
        ):
            self.room.build({"main": self.MODULE}, "cycles 12\nnext 0 main.run\nnext 6 c.done\n")
            (self.room.path / name).write_text(text)
            ran = self.room.run(built.TOOLS / "gos-vcd", "--parts", "b.txt")
            self.assertEqual((ran.returncode, ran.stdout, ran.stderr.count("\n")), (2, "", 1), ran.stderr)
            self.assertTrue(ran.stderr.startswith(why), ran.stderr)


def write(gos):
    """Gives the page what is measured."""
    built.Room.gos = str(Path(gos).resolve())
    with tempfile.TemporaryDirectory() as room:
        PAGE.write_text(with_shown(built.Room(room), PAGE.read_text()))
    with tempfile.TemporaryDirectory() as room:
        PAGE.write_text(Measure(built.Room(room)).page(PAGE.read_text()))


if __name__ == "__main__":
    if sys.argv[2:] == ["--write"]:
        write(sys.argv[1])
    else:
        built.main(__doc__)
