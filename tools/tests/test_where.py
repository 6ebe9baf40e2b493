#!/usr/bin/env python3
"""What tools/gos-where says of the commonest mistakes, at faults that gos printed.

usage: tools/tests/test_where.py GOS [WORDS OF unittest]
"""
import contextlib
import io
import re

import built
import grammar

WHERE = built.script("gos-where")
HEAD = """import c : com
import d : com
import e : exp 8
import v : var 8
import b : exp 1
import f : com -> exp 1
import g : exp 8 -> com -> com
"""
# What stands between `export` and the type of a command, and what is said of it.
TERMS = {
    "v := e + 1": "a number in a term has its width behind it: `1:8` is 1 in 8 bits",
    "v := e + 1 ; c": "a number in a term has its width behind it: `1:8` is 1 in 8 bits",
    "v := 0x10:8": "numbers are decimal: `16:8` is 16 in 8 bits",
    "c; c;": "`;` stands between two commands, and none behind the last one",
    "(c ; d;)": "`;` stands between two commands, and none behind the last one",
    "if b then c": "each `if` has its `else`: `else skip` where a command is over then",
    "if b then c ; d else d": "between `then` and `else` stands one command, so `;` wants brackets: `if b then (c ; d) else skip`",
    "v := if b then e else e": "`if` wants brackets here: `(if ..)`",
    "v := new x : 8 in !x": "`new` wants brackets here: `(new ..)`",
    "c || new x : 8 in d": "`new` wants brackets here: `(new ..)`",
    "if e <= 3:8 then c else d": "there is no `<=`: `a <= b` is `not (b < a)`",
    "v := e << 1:8": "there is no `<<`: `x + x` is `x` one bit further to the left",
    "if e == 3:8 then c else d": "one `=` compares, and `:=` writes",
    "if e != 3:8 then c else d": "there is no `!=`: `a != b` is `not (a = b)`",
    "if b && b then c else d": "one `&` does it: it takes each bit of two numbers of one width",
    "// all\nc": "a comment begins with `#`",
    "v := e / 2:8": "there is no division",
    "v := e * 2:8": "there is no multiplication: lib/mul.gos is a module that does it",
    "v := - e": "no number has a sign: `0:8 - x` is what `x` lacks to 256",
    "v := e >> 1:8": "there is no `>>`: docs/COOKBOOK.md has shifts to the right",
    "if e >= 1:8 then c else d": "there is no `>=`: `a >= b` is `not (a < b)`",
    "if e > 1:8 then c else d": "there is no `>`: `a > b` is `b < a`",
    "while b { c }": "brackets are `(` and `)`",
    "c\u00a0; d": "outside comments all is ASCII, and this is U+00A0",
    "if e < 3:8 & e < 4:8 then c else d":
        "one comparison stands without brackets, and `&`, `|`, `^` bind tighter than it: `(a < b) & (c = d)`",
    "if e = 3:8 & b then c else d": "`&`, `|` and `^` bind tighter than `=` and `<`: brackets round each comparison",
    "if b & e = 3:8 then c else d": "`&`, `|` and `^` bind tighter than `=` and `<`: brackets round each comparison",
    "if not f c then c else d": "`not` takes the next word alone, and not the call: `not (f ..)`",
    "v := v": "`!` reads a variable: `!v`",
    "v := !v + v": "`!` reads a variable: `!v`",
    "v = 1:8": "`!` reads a variable: `!v`\nand `:=`, not `=`, writes one",
    "!v := 1:8": "on the left of `:=` the variable stands without `!`",
    "e := 1:8": "only a variable can be written: a local, or what is of type `var W`",
    "v := !e": "`!` reads a variable, and this is no such: leave it out",
    "v ; c": "a variable is read by `!` and written by `:=`",
    "v := f": "it is a function, and lacks an argument",
    "if e then c else d": "a condition has 1 bit: `not (e = 0:8)` is whether `e` isn't 0",
    "v := b": "`if b then 1:8 else 0:8` makes 1 bit wide",
    "v := 3:4": "no width changes by itself; docs/COOKBOOK.md has how a number is widened",
    "e ; c": "an expression is run for its effect by `new t : 8 in t := ..` (docs/COOKBOOK.md)",
    "c d": "a command takes no argument: is a `;` missing behind it?",
    "e d": "it takes no argument: is an operator missing behind it?",
    "if true then c else d": "a truth is a number of 1 bit: `1:1`",
    "new count : 8 in cuont := 1:8": "is `count` meant?",
    "v := 300:8": "300 needs 9 bits",
    "v := 1:70": "hold more bits in two numbers",
    "g e (v := e)": "put it into a local before, for one of them: `new t : 8 in (t := e ; ..)`, and `!t` in its place",
    "g (!v) (v := e)": "put it into a local before, for one of them: `new t : 8 in (t := !v ; ..)`, and `!t` in its place",
    "new x in c": "a local has its bits: `new x : 8 in ..`",
    "new x : 8 := 1:8 in c": "a local begins with 0, and is written as others are: `new x : 8 in (x := 1:8 ; ..)`",
    "(fun x . x) c": "a parameter has its type: `fun x : com . ..`",
    "(fun (x : com) . x) c": "a parameter stands without brackets: `fun x : com . ..`",
    "c ; d)": "no bracket is open here",
    "(c ; (d)": "the bracket at 8:8 is still open",
    "c, d": "a pair stands in brackets: `(a, b)`",
}
# What the hints propose, and gos takes.
PROPOSED = [
    "v := e + 1:8", "c ; d", "if b then c else skip", "if b then (c ; d) else skip", "v := (if b then e else e)", "c || (new x : 8 in d)",
    "if not (3:8 < e) then c else d", "v := !v + !v", "if not (e = 3:8) then c else d", "v := 0:8 - e", "if (e < 3:8) & (e = 4:8) then c else d",
    "if not (f c) then c else d", "v := !v", "if not (e = 0:8) then c else d", "v := (if b then 1:8 else 0:8)", "(new t : 8 in t := e) ; c",
    "new t : 8 in (t := e ; g e (v := !t))", "new t : 8 in (t := !v ; g (!t) (v := e))", "new x : 8 in (x := 1:8 ; c)",
    "(fun x : com . x) c", "if 1:1 then c else d",
]
SOURCES = {
    "import c : com;\nexport c : com\n": "no sign ends an import: leave the `;` out",
    "import e : exp 1;\nimport c : com\nexport c : com\n": "no sign ends an import: leave the `;` out",
    "import a, c : com\nexport c : com\n": "each import has its own `import` and type: `import a : com`, `import b : com`",
    "import in : com\nexport in : com\n": "`in` is a word of the language, and no name",
    "import e : exp\nexport e : exp 8\n": "`exp` has its bits behind it: `exp 8`",
    "\ufeffexport skip : com\n": "the file begins with a byte order mark: have your editor save it as UTF-8 without one",
    "export skip\n": "the module's type is missing: `: com`",
    "export skip : com\nexport skip : com\n": "behind its type a module is at its end: one file holds one",
    "skip\n": "a module is its imports, each `import NAME : TYPE`, and then `export TERM : TYPE`",
}
# What may stand, behind these tokens.
MAY = {
    "export c : com ;": "`*` or `->` or the end", "import ;": "a name", "export ;": "a term", "export new x ;": "`:` or `[`", "export x := ;": "an operand",
    "export c d then": "an argument, an operator, `:`, `:=`, `;` or `||`", "import e : exp ;": "a number",
}
BUILD = "gosbuild 1\ninst main main.gos main.obj\ninst lib lib.gos lib.obj\nbind main f lib\nroot main\nnet n\nverilog v\npulses p\ntrace t\n"
# A line of the build file, what stands in its place, and what is said of that.
BUILDS = [
    ("gosbuild 1", "gosbuild 2", "the form of the file is 1: `gosbuild 1`"),
    ("gosbuild 1\n", "", "here may stand `gosbuild`: the order is gosbuild, inst, bind, root, net, verilog, pulses, trace"),
    ("inst lib lib.gos", "inst fun lib.gos", "`fun` is a word of the language, and no name of an instance"),
    ("inst lib lib.gos", "inst l-b lib.gos",
     "`l-b` is no name of an instance: it has ASCII letters, digits and `_`, no digit first, and 255 bytes at most"),
    ("bind main f lib", "bind main new lib", "`new` is a word of the language, and no name of an import"),
    ("lib.gos lib.obj", "lib.gos l:b.obj",
     "`l:b.obj` is no file name here: it has ASCII letters, digits, `_`, `.`, `-` and `/`, and 255 bytes at most"),
    ("root main", "root main # the first", "a `#` begins a comment only as the first word of a line"),
    ("inst lib lib.gos", "inst main lib.gos", "`main` is named as an instance by line 2 already"),
    ("lib.gos lib.obj", "lib.gos main.obj", "`main.obj` is named as a file by line 2 already"),
    ("lib.gos lib.obj", "lib.gos lib.gos", "`lib.gos` is a source, by this line, and would be written over"),
    ("net n", "net lib.gos", "`lib.gos` is a source, by line 3, and would be written over"),
    ("net n", "net b.txt", "`b.txt` is the build file itself"),
    ("inst lib lib.gos", "inst lib main.obj", "`main.obj` is a file of another kind, by line 2"),
    ("root main\nnet n", "net n\nroot main", "here may stand `bind` or `root`: the order is gosbuild, inst, bind, root, net, verilog, pulses, trace"),
    ("bind main f lib", "bind main lib", "the line has 2 words behind `bind`, and not 3: `bind USER IMPORT GIVER`"),
    ("trace t\n", "", "behind the last line `trace` is missing"),
    ("trace t\n", "trace t\nmore\n", "here may stand nothing more: the order is gosbuild, inst, bind, root, net, verilog, pulses, trace"),
]


class Where(built.Case):
    """A test that calls gos-where within this process."""

    def where(self, *words):
        """What gos-where prints in the room, what it prints to standard error, and its status."""
        said, wrong = io.StringIO(), io.StringIO()
        with contextlib.chdir(self.room.path), contextlib.redirect_stdout(said), contextlib.redirect_stderr(wrong):
            status = WHERE.main(words)
        return said.getvalue(), wrong.getvalue(), int(status)

    def said(self, *words):
        """What is said of the fault that gos prints by these words."""
        line = self.room.run(self.room.gos, *words).stdout
        said, wrong, status = self.where(line)
        self.assertEqual((wrong, status), ("", 0), line)
        return said


class Sources(Where):
    def test_terms(self):
        for term, hint in TERMS.items():
            with self.subTest(term):
                self.room.write(m__gos=f"{HEAD}export {term} : com\n")
                said = self.said("check", "m.gos")
                self.assertTrue(said.endswith(f"\n{hint}\n"), said)

    def test_modules(self):
        for source, hint in SOURCES.items():
            with self.subTest(source):
                self.room.write(m__gos=source)
                said = self.said("check", "m.gos")
                self.assertTrue(said.endswith(f"\n{hint}\n"), said)

    def test_what_is_proposed_is_right(self):
        for term in PROPOSED:
            self.room.write(m__gos=f"{HEAD}export {term} : com\n")
            self.assertRegex(self.room.run(self.room.gos, "check", "m.gos").stdout, r"^ok weight \d+$", term)

    def test_what_may_stand(self):
        for source, may in MAY.items():
            with self.subTest(source):
                self.room.write(m__gos=source)
                self.assertIn(f"\nhere may stand {may}\n", self.said("check", "m.gos"))

    def test_the_whole(self):
        self.room.write(m__gos="import c : com\nexport if 1:1 then c : com\n")
        wanted = (
            "m.gos:2:22: S1: a module doesn't go on like this\nexport if 1:1 then c : com\n                     ^\n"
            "here may stand an argument, an operator, `:=` or `else`\n"
            "each `if` has its `else`: `else skip` where a command is over then\n")
        self.assertEqual(self.said("check", "m.gos"), wanted)
        self.assertEqual(self.where("m.gos", "S1 at 36"), (wanted, "", 0))
        self.assertEqual(self.where("m.gos", "m.gos: S1 at 36"), (wanted, "", 0))

    def test_the_script(self):
        self.room.write(m__gos="export d : com\n")
        ran = self.room.run(built.TOOLS / "gos-where", "m.gos: C1 d at 7..8")
        self.assertEqual((ran.stdout, ran.returncode), ("m.gos:1:8: C1: nothing binds `d` here\nexport d : com\n       ^\n", 0))

    def test_what_may_stand_is_what_gos_takes(self):
        """Behind the beginning of a module, gos rejects a further token in its place just where it may not stand."""
        kinds = [*grammar.WORDS, *"( ) [ ] , . : ; := || | & ^ + - = < ! * ->".split(), "name", "numeral"]
        texts = {"name": "q", "numeral": "7"}
        for before in ("import x : exp 1 -> com", "export ( if c then y = 1 : 2", "export ( fst y := c"):
            found, _ = grammar.tokens_of(before.encode())
            may = grammar.following(grammar.stack_behind(found))
            for kind in kinds:
                self.room.write(m__gos=f"{before} {texts.get(kind, kind)}")
                line = self.room.run(self.room.gos, "check", "m.gos").stdout
                self.assertEqual(line != f"m.gos: S1 at {len(before) + 1}\n", kind in may, f"{before} {kind}: {line}")

    def test_what_no_local_can_hold_gets_no_hint(self):
        for term in ("(c ; c) || c", "g e (g 0:8 c)", "(fun h : com -> com . h (h c)) (fun x : com . x)", "(fun x : com . x) (c ; d) || c"):
            self.room.write(m__gos=f"{HEAD}export {term} : com\n")
            said = self.said("check", "m.gos")
            self.assertIn(": C5: ", said)
            self.assertEqual(said.count("\n"), 6, said)


class Builds(Where):
    def test_lines(self):
        for line, other, hint in BUILDS:
            with self.subTest(other):
                self.assertIn(line, BUILD)
                self.room.write(b__txt=BUILD.replace(line, other, 1), main__gos="export skip : com", lib__gos="export skip : com")
                said = self.said("build", "b.txt")
                self.assertTrue(said.endswith(f"\n{hint}\n"), said)

    def test_the_file_of_the_line(self):
        self.room.write(b__txt=BUILD, main__gos="export skip : com", lib__gos="export d : com")
        self.assertTrue(self.said("build", "b.txt").startswith("lib.gos:1:8: C1: nothing binds `d` here\n"))


class Ports(Where):
    def test_a_port_of_a_function(self):
        """The ports that are shown; and the module that serves the import by them is taken by gos."""
        for written, use, imports, is_served in (
            ("exp 8 -> exp 16", "out := f 3:8", ["f_place : var 8", "f_cell : exp 16"], True),
            ("exp 8 -> var 16", "f 3:8 := 7:16", ["f_place : var 8", "f_cell : var 16"], False),
            ("exp 8 -> com", "f 3:8", ["f_value : var 8"], True), ("com -> com", "f skip", [], False),
        ):
            modules = {"main": f"import f : {written}  import out : var 16  export {use} : com\n"}
            self.room.write_build(modules, (), "main")
            said = self.said("build", "b.txt")
            self.assertEqual(re.findall(r"`import (\w+ : \w+ \d+)`", said), imports)
            served = re.search(r"^`(import .*)` serves `f`, as a module of its own by `bind main f GIVER`$", said, re.M)
            self.assertEqual(served is not None, is_served, said)
            if served:
                self.room.build({**modules, "g": served[1]}, "cycles 9\n", ["main f g"])
        self.assertIn("`bind main f GIVER` has an instance serve it: com -> com", said)


class Pulses(Where):
    NET = "gosnet 1\ncells 4\ninput 1\nreg 1 2\ninput 1\nreg 1 0\nports 2\ngive main com 0 1\ntake c com 3 2\nend\n"

    def of(self, pulses, build=""):
        self.room.write(n=self.NET, p=pulses, **({"b__txt": build} if build else {}))
        return self.said("sim", "n", "p", "t")

    def test_inputs(self):
        said = self.of("cycles 9\nnext 0 c.run\n")
        self.assertTrue(said.endswith("\nthe inputs of n are `main.run`, `c.done`\n"), said)

    def test_inputs_of_the_netlist_of_the_build(self):
        self.room.write(another="gosnet 1\ncells 0\nports 0\nend\n")
        self.assertNotIn("inputs", self.of("cycles 9\nnext 0 c.run\n"))
        self.assertIn("the inputs of n are", self.of("cycles 9\nnext 0 c.run\n", f"# all\n{BUILD}"))

    def test_the_line_of_a_broken_turn(self):
        said = self.of("cycles 9\nnext 0 main.run\nat 3 c.done\nat 3 c.done\n")
        self.assertIn("p:4:1: and here\nat 3 c.done\n", said)
        self.assertTrue(said.startswith("p:3:1: P5: `c.done` comes out of turn in cycle 3\n"), said)
        self.assertTrue(said.endswith("an answer may come when it was asked for; `next` waits for that\n"), said)
        self.assertIn("a request may come when the one before is answered", self.of("cycles 9\nat 0 main.run\nat 1 main.run\n"))

    def test_forms(self):
        self.assertIn("the first line is `cycles N`", self.of("next 0 main.run\n"))
        self.assertIn("the first line is `cycles N`", self.of("\n"))
        self.assertIn("`cycles` stands once", self.of("cycles 9\ncycles 9\n"))
        self.assertIn("a `#` begins a comment only", self.of("cycles 9\nnext 0 main.run # at once\n"))
        self.assertIn("a line is `next D PORT.EVENT`", self.of("cycles 9\nnext main.run\n"))

    def test_limits(self):
        self.assertIn("a run has 1 to 1,000,000 cycles", self.of("cycles 0\n"))
        self.assertIn("a distance is 1,000,000 at most", self.of("cycles 9\nnext 1000001 main.run\n"))
        self.assertIn("a cycle is below the number of cycles", self.of("cycles 9\nat 9 main.run\n"))


class Files(Where):
    """Missing and wrong files, and lines of no fault: no traceback, and status 1."""

    def wrong(self, *words):
        said, wrong, status = self.where(*words)
        self.assertEqual((wrong.count("\n"), status), (1, 1), wrong)
        return said, wrong

    def test_missing(self):
        said, why = self.wrong("gone.gos: S1 at 3")
        self.assertEqual(said, "gone.gos: S1: a module doesn't go on like this\n")
        self.assertIn("gone.gos can't be read: No such file", why)

    def test_folder(self):
        self.assertIn("can't be read: Is a directory", self.wrong(".", "S1 at 3")[1])

    def test_no_fault(self):
        self.assertIn("this is no line of a fault: ok weight 5", self.wrong("ok weight 5")[1])
        self.assertIn("gos printed nothing", self.wrong("")[1])
        self.assertIn("which file is this of? S1 at 3", self.wrong("S1 at 3")[1])

    def test_no_words(self):
        with self.assertRaisesRegex(SystemExit, "1"):
            self.where()

    def test_other_file(self):
        """Every fault of a file that is another one than gos read, or no text at all."""
        for text in (b"x", b"\xff\xfe\x00", b"export skip : com\n", b"gosnet 1\ncells x\n", b"gosbuild 1\n", b"(" * 300):
            (self.room.path / "m").write_bytes(text)
            for line in (
                "S1 at 0", "S1 at 99", "L2 byte at 0", "L2 byte at 99", "C1 d at 0..1", "C1 d at 90..99", "C2 at 0..1 want exp 8 got exp 1",
                "C2 at 90..91 want com or exp got var 8", "C3 at 0..9 got com", "C5 c at 0..1 and 3..4", "C6 at 0..1 width 0 value 0",
                "B1 line 0", "B1 line 1", "B1 line 9", "B5 lines 1 and 9", "P1 line 0", "P1 line 7", "P2 line 1", "P4 line 0",
                "P5 c.done at cycle 3", "K1 cycle 1 2", "K2 cell 5", "K4 port 0", "O2 joint 3",
            ):
                self.assertEqual(self.where(f"m: {line}")[1:], ("", 0), f"{line} of {text}")


if __name__ == "__main__":
    built.main(__doc__)
