#!/usr/bin/env python3
"""What gos-make writes: the page docs/MAKE.md, the modules of lib, and what it says of faults.

usage: tools/tests/test_make.py GOS [WORDS OF unittest]
       tools/tests/test_make.py GOS --write

With --write the page gets what is printed, and the modules of lib what their templates give.
"""
import sys
from pathlib import Path

import built
import test_cookbook

import builds  # (built has put the folder above into the path)
import templates

PAGE = built.TOP / "docs" / "MAKE.md"
MAKE = built.TOOLS / "gos-make"
TEMPLATES = sorted(built.LIBRARY.glob("*.gos.in"))
FILES = {
    "main.gos": "import p : com\nimport q : exp 4 -> com\nimport d : com\nexport p ; q 3:4 ; d : com\n",
    "p.gos": "# {no template}\nexport skip : com\n",
    "q.gos.in": "{W = 8: bits}\n{E: what it ends with}\nimport {E} : com\nexport fun x : exp {W} . {E} : exp {W} -> com\n",
    "bad.gos.in": "{W = 8, 1 to 64: bits}\nexport {V}:{W} : exp {W}\n",
    "broken.gos.in": "{W = 8: bits}\nexport {2*(W}:{W} : exp {W}\n",
    "twice.gos.in": "{W: bits}\n{W: bits}\nexport skip : com\n",
    "a.gos": "import b : com\nexport b : com\n",
    "b.gos": "import a : com\nexport a : com\n",
    "pairs.gos": "import f : com * com\nexport fst f : com\n",
    "two.gos": "import f : com -> com\nimport d : com\nexport f d : com\n",
    "other.gos": "import d : com\nexport fun c : com . d ; c : com -> com\n",
    "no.gos": "export",
}
# A list, and what is said of it.
FAULTS = {
    "": "l: no line says which the root is, as `root main` does",
    "roots main": "l:1: `roots` begins no line; what does: root, serve, build, net, verilog, pulses, trace; is `root` meant?",
    "root main\nroot main": "l:2: there is a root already",
    "root": "l:1: the form of this line is `root NAME [from MODULE] [NAME=VALUE ..]`",
    "root while": "l:1: the form of this line is `root NAME [from MODULE] [NAME=VALUE ..]`",
    "serve p by": "l:1: the form of this line is `serve IMPORT .. by MODULE [NAME=VALUE ..]`",
    "serve by p": "l:1: the form of this line is `serve IMPORT .. by MODULE [NAME=VALUE ..]`",
    "serve p by p\nserve d p by p": "l:2: another line serves `p`",
    "serve p W=4 by p": "l:1: values stand at the end: the form of this line is `serve IMPORT .. by MODULE [NAME=VALUE ..]`",
    "serve p by p W=1+1": "l:1: `W=1+1` gives no value: a number or a name is one, as in `W=8`",
    "net a b": "l:1: the form of this line is `net FILE`, and a file's name has letters, digits, _ . - and / alone",
    "root main\nbuild l": "l: the build file would be written over this list; a line `build FILE` gives it another name",
    "root mine": "l:1: there is no mine.gos.in and no mine.gos and no lib/mine.gos.in and no lib/mine.gos",
    "root repeet": "l:1: there is no repeet.gos.in and no repeet.gos and no lib/repeet.gos.in and no lib/repeet.gos; is `repeat` meant?",
    "root main from x/main.gos": "l:1: there is no x/main.gos",
    "root main\nserve p by p W=4": "l:2: p.gos is a source, and takes no values; a template, p.gos.in, does",
    "root main\nserve d by p\nserve q by q E=c V=1": "l:3: q.gos.in has no name `V`; it has W, E",
    "root main\nserve q by q": "l:2: q.gos.in wants a value of E, as `E=8`: what it ends with",
    "root main\nserve q by q W=c E=d": "l:2: q.gos.in: W is a number, and not `c`: bits",
    "root main\nserve q by q W=5 E=c": "l:2: `q` of main is of type exp 4 -> com, and q.gos.in with W = 5, E = c gives exp 5 -> com",
    "root main\nserve p by no\nserve q by q E=c": "l:2: `p` of main is of type com, and no.gos gives no type: gos check says what is wrong with it",
    "root main\nserve r by p": "l:2: no instance has an import `r`",
    "root main\nserve main.pp by p": "l:2: no instance has an import `main.pp`; is `main.p` meant?",
    "root main\nserve q by q E=d": "l: main and q would both have a port `d`, and a circuit has one of a name; "
                                  "serve one of them, as by `serve q.d by MODULE`",
    "root main\nserve q by q E=main": "l: the root and q would both have a port `main`, and a circuit has one of a name; "
                                     "serve one of them, as by `serve q.main by MODULE`",
    "root main": "l: nothing serves `q` of main, and no port can be of type exp 4 -> com; `serve q by MODULE` says what does",
    "root pairs": "l: nothing serves `f` of pairs, and no port can be of type com * com; `serve f by MODULE` says what does",
    "root a\nserve b by b\nserve a by a": "l:2: `b` of b_a has no end: a serves itself, by way of b",
    "root bad": "l:1: bad.gos.in:2:9: nothing declares `V`; a line such as `{V = 8: what it is}` does",
    "root broken": "l:1: broken.gos.in:2:9: `{2*(W}`, with W = 8: a bracket isn't closed",
    "root twice": "l:1: twice.gos.in:2:1: `W` can't be declared twice",
    "root two\nserve f by other": "l: two and f would both have a port `d`, and a circuit has one of a name; "
                                 "serve one of them, as by `serve f.d by MODULE`",
}


class Making(built.Case):
    def setUp(self):
        super().setUp()
        for name, text in FILES.items():
            (self.room.path / name).write_text(text)

    def make(self, text, status=0):
        """Makes what a list says. What is printed."""
        (self.room.path / "l").write_text(text + "\n")
        ran = self.room.run(MAKE, "l")
        self.assertEqual(ran.returncode, status, ran.stdout + ran.stderr)
        return ran.stdout + ran.stderr

    def text(self, name):
        return (self.room.path / name).read_text()

    def test_faults(self):
        before = sorted(it.name for it in self.room.path.iterdir())
        for text, said in FAULTS.items():
            with self.subTest(text):
                self.assertEqual(self.make(text, 2), said + "\n")
        self.assertEqual(sorted(it.name for it in self.room.path.iterdir()), sorted([*before, "l"]))

    def test_words(self):
        for words in ((), ("l", "m"), ("l", "--module", "p"), ("--modul",)):
            self.assertEqual(self.room.run(MAKE, *words).returncode, 1, words)
        for words, said in ((("none",), "none: No such file or directory"), (("--module", "repeat", "W"), "`W` gives no value: a number or a name is "
                            "one, as in `W=8`"), (("--module", "p.gos"), "p.gos is a source, and no template"),
                            (("--module", "p"), "there is no p.gos.in and no lib/p.gos.in and no lib/p.gos")):
            ran = self.room.run(MAKE, *words)
            self.assertEqual((ran.returncode, ran.stderr), (2, said + "\n"))
        (self.room.path / "a list").write_text("root p\n")
        said = "a list: the build file would be called a list.txt, which gos can't read; a line `build FILE` gives it another name\n"
        self.assertEqual(self.room.run(MAKE, "a list").stderr, said)

    def test_a_module_that_is_printed_to_its_own_name(self):
        ran = self.room.run("bash", "-c", f"{MAKE} --module repeat W=4 > repeat.gos; {MAKE} --module repeat W=4 | cmp - repeat.gos")
        self.assertEqual((ran.returncode, ran.stdout + ran.stderr), (0, ""))

    def test_a_build(self):
        """Names, the import's width, a name as a value, an import that one line serves before another one, and other files."""
        said = self.make("serve p d by p # both\nserve q by q E=c\nroot main\nnet n.net\nbuild x.txt\nserve q.c by p")
        self.assertEqual(said, "ok instances 5 written q.gos x.txt\n")
        lines = self.text("x.txt").split("\n")
        self.assertEqual(lines[1:], ["gosbuild 1", "inst main main.gos main.obj", "inst p p.gos p.obj", "inst q q.gos q.obj", "inst d p.gos d.obj",
                                     "inst c p.gos c.obj", "bind main p p", "bind main q q", "bind main d d", "bind q c c", "root main",
                                     "net n.net", "verilog out.v", "pulses in.pls", "trace out.trc", ""])
        self.assertEqual(self.text("q.gos").split("\n")[1:], ["import c : com", "export fun x : exp 4 . c : exp 4 -> com", ""])
        ran = self.room.run(self.room.gos, "compile", "q.gos", "q.obj")
        self.assertEqual(ran.returncode, 0, ran.stdout)
        (self.room.path / "in.pls").write_text("cycles 20\nnext 0 main.run\n")
        self.assertRegex(self.room.run(self.room.gos, "build", "x.txt").stdout, r"ok weight \d+ cycles 20 pulses 2 unused 0\n")

    def test_no_pulses(self):
        """A build whose pulse file has none, which gos-make writes; one of that name that is there stays."""
        (self.room.path / "one.gos").write_text("import c : com\nexport c : com\n")
        self.assertEqual(self.make("root one\npulses none"), "ok instances 1 written l.txt none.pls\n")
        self.assertIn("\npulses none.pls\n", self.text("l.txt"))
        self.assertEqual(self.text("none.pls").split("\n")[1:], ["cycles 1", ""])
        self.assertRegex(self.room.run(self.room.gos, "build", "l.txt").stdout, r"ok weight \d+ cycles 1 pulses 0 unused 0\n")
        (self.room.path / "none.pls").write_text("cycles 9\n")
        self.assertIn("none.pls is there", self.make("root one\npulses none", 2))
        self.assertEqual(self.make("root one\npulses none.pls"), "ok instances 1 written l.txt\n")

    def test_a_name_as_a_value(self):
        (self.room.path / "slow.gos.in").write_text("{BEAT = tick: the beat}\nimport {BEAT} : com\nexport {BEAT} ; {BEAT} : com\n")
        (self.room.path / "two.gos").write_text("import a : com\nimport b : com\nexport a || b : com\n")
        said = self.make("root two\nserve a by slow\nserve b by slow BEAT=tock")
        self.assertEqual(said, "ok instances 3 written slow_BEATtick.gos slow_BEATtock.gos l.txt\n")
        (self.room.path / "in.pls").write_text("cycles 90\nnext 0 two.run\n" + 2 * "next 0 tick.done\nnext 0 tock.done\n")
        self.assertRegex(self.room.run(self.room.gos, "build", "l.txt").stdout, r"cycles 90 pulses 10 unused 0\n")
        self.assertEqual(self.make("root two\nserve a by slow BEAT=5", 2), "l:2: slow.gos.in: BEAT is a name, and not `5`: the beat\n")
        self.assertIn("both have a port `tick`", self.make("root two\nserve a b by slow", 2))

    def test_two_places_are_two_instances(self):
        (self.room.path / "w.gos").write_text("import repeat : exp 3 -> com -> com\nexport fun c : com . repeat 5:3 c : com -> com\n")
        (self.room.path / "v.gos").write_text("import repeat : exp 8 -> com -> com\nimport w : com -> com\nimport c : com\nexport repeat 2:8 (w c) : com\n")
        self.assertEqual(self.make("root v\nserve w by w\nserve repeat by repeat"), "ok instances 4 written repeat_W8.gos repeat_W3.gos l.txt\n")
        self.assertIn("\ninst w_repeat repeat_W3.gos w_repeat.obj\n", self.text("l.txt"))
        (self.room.path / "in.pls").write_text("cycles 400\nnext 0 v.run\n" + 10 * "next 0 c.done\n")
        self.assertRegex(self.room.run(self.room.gos, "build", "l.txt").stdout, r"cycles 400 pulses 22 unused 0\n")
        (self.room.path / "w.gos").write_text("import repeat : exp 8 -> com -> com\nexport fun c : com . repeat 5:8 c : com -> com\n")
        self.assertEqual(self.make("root v\nserve w by w\nserve repeat by repeat"), "ok instances 4 written repeat.gos l.txt\n")

    def test_what_is_there_is_kept(self):
        (self.room.path / "q.gos").write_text("export skip : com\n")
        words = "root main\nserve q by q E=c"
        self.assertEqual(self.make(words, 2), "q.gos is there, and gos-make didn't write it; nothing is written\n")
        self.assertFalse((self.room.path / "l.txt").exists())
        (self.room.path / "q.gos").unlink()
        self.make(words)
        self.make(words.replace("E=c", "E=e"))
        self.assertIn("import e : com\n", self.text("q.gos"))
        (self.room.path / "q.gos").write_text(self.text("q.gos") + "# mine\n")
        self.assertEqual(self.make(words, 2), "q.gos has been changed since gos-make wrote it; remove it, or its first line; nothing is written\n")
        (self.room.path / "q.gos.in").unlink()
        self.assertIn("and no lib/q.gos; q.gos came of a template, which isn't here\n", self.make(words, 2))


class Values(built.Case):
    def value(self, text, **values):
        def wrong(why):
            return builds.Wrong(why)
        return templates.Expression(text, values, wrong).value()

    def test_expressions(self):
        for text, value in {"W": 8, "2 ^ (W-1)": 128, "W+2*3": 14, "(W+2)*3": 30, "2^3^2": 512, "7/2": 3, "7%4-1": 2, "bits(W)": 4, "bits(W-1)": 3,
                            "bits(0)": 1, "bits(bits(255))": 4, "E": "e", "1-2+1": 0}.items():
            self.assertEqual(self.value(text, W=8, E="e"), value, text)

    def test_faults(self):
        for text, said in {"1-2": "this is -1, and numbers are 0 to 18446744073709551615",
                           "2^64": "this is 18446744073709551616, and numbers are 0 to 18446744073709551615",
                           "2^99": "this power is too great", "1/0": "0 stands behind `/`", "(W": "a bracket isn't closed", "": "the expression ends too early",
                           "W W": "`W` can't stand here", "W?": "`?` can't stand here", "E+1": "`E` is the name e, and a number is wanted",
                           "1+": "the expression ends too early", "bits": "`bits` can't stand here"}.items():
            with self.assertRaises(builds.Wrong) as wrong:
                self.value(text, W=8, E="e")
            self.assertEqual(str(wrong.exception), said, text)


class Library(built.Case):
    def test_each_module_is_its_template(self):
        self.assertGreater(len(TEMPLATES), 10)
        for template in TEMPLATES:
            name = template.name.removesuffix(".gos.in")
            self.assertEqual(made(name), (built.LIBRARY / f"{name}.gos").read_text())

    def test_each_is_a_module_at_other_values(self):
        for template in TEMPLATES:
            declared = templates.read(template).declared
            for value in (1, 7, 64):
                name = template.name.removesuffix(".gos.in")
                (self.room.path / "m.gos").write_text(made(name, *(f"{it}={value}" for it in declared)))
                ran = self.room.run(self.room.gos, "check", "m.gos")
                self.assertEqual((ran.returncode, ran.stdout[:3]), (0, "ok "), (name, value, ran.stdout))

    def numbers(self, name, value, arguments, wanted):
        """Whether a module at this value gives these numbers for these arguments."""
        text = made(name, f"W={value}")
        imports = "".join(f"import {it} : exp {bits}\n" for it, bits in arguments[0])
        type = text.rsplit(" : ", 1)[1].strip()
        rest = " (rest)" if name == "divide" else ""
        main = f"import {name} : {type}\n{imports}" + (f"import rest : var {value}\n" if rest else "")
        main += f"export {name} {' '.join(it for it, _ in arguments[0])}{rest} : {type.rsplit('-> ', 1)[1]}\n"
        answers = [[f"{it}.ans {number}" for (it, _), number in zip(arguments[0], numbers)] + ["rest.done"] * bool(rest) for numbers in arguments[1]]
        pulses = "".join(f"next 0 main.ask\n{''.join(f'next 0 {it}{chr(10)}' for it in some)}" for some in answers)
        found = self.room.build({"main": main, name: text}, f"cycles {6000 * len(answers)}\n{pulses}", [f"main {name} {name}"])
        self.assertEqual((found.values("main.ans"), found.unused), (wanted, 0), (name, value))

    def test_numbers_of_other_widths(self):
        for width in (5, 64):
            most = 2**width - 1
            pairs = [(x & most, y & most) for x, y in ((0, 1), (most, most), (most, 3), (0xABCDEF01, 0x1234567))]
            both = [("x", width), ("y", width)]
            self.numbers("mul", width, (both, pairs), [x * y & most for x, y in pairs])
            self.numbers("divide", width, (both, pairs), [x // y if y else most for x, y in pairs])
            places = [(x, k) for x, _ in pairs for k in (0, width // 2, width - 1)]
            self.numbers("bit", width, ([("x", width), ("k", max(1, (width - 1).bit_length()))], places), [x >> k & 1 for x, k in places])
            shifts = [(x, n) for x, _ in pairs for n in (0, 1, width)]
            self.numbers("shift_right", width, ([("x", width), ("n", width.bit_length())], shifts), [x >> n for x, n in shifts])


class Page(built.Case):
    def test_it_is_as_it_says(self):
        self.maxDiff = None
        self.assertEqual(test_cookbook.done(PAGE.read_text()), PAGE.read_text())


def made(name, *values):
    """What gos-make prints of a module of lib."""
    return built.script("gos-make").told([str(built.LIBRARY / f"{name}.gos.in"), *values])


def write(gos):
    """Gives the page what is printed, and the modules of lib what their templates give."""
    built.Room.gos = str(Path(gos).resolve())
    PAGE.write_text(test_cookbook.done(PAGE.read_text()))
    for template in TEMPLATES:
        name = template.name.removesuffix(".gos.in")
        (built.LIBRARY / f"{name}.gos").write_text(made(name))


if __name__ == "__main__":
    if sys.argv[2:] == ["--write"]:
        write(sys.argv[1])
    else:
        built.main(__doc__)
