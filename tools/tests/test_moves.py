#!/usr/bin/env python3
"""What gos-explain-show prints of moves; and that `gos explain`, `gos verify` and the moves of tools/moves.py, which share nothing, say the same.

usage: tools/tests/test_moves.py GOS [WORDS OF unittest]
"""
import random
import re
import unittest

import built

import moves  # (built has put the folder above into the path)
import ports
import terms

FORMATS = (built.TOP / "docs" / "FORMATS.md").read_text()
SEQUENCE = built.TOP / "examples" / "sequence"
# Examples of which traces are explained, and how many changes of a trace are tried for each.
EXAMPLES, CHANGES = ("sequence", "countdown", "shared_procedure", "handlers", "parallel", "retry", "two_phase"), 3
# The moves of a page, without what is said beside them.
MOVES = "".join(f"{line[4:].split('   ')[0].rstrip()}\n" for line in re.search(r"    gosmoves 1 .*?\n    end\n", FORMATS, re.S)[0].splitlines())
SHOWN = """\
     0  main.run
     1  c.run                      c ; d
                                   ^  main.gos:4:8
     1  c.done                     c.done? ; d
                                   ^^^^^^^  main.gos:4:8
        goes on                    skip ; d
                                   ^^^^  main.gos:4:8
     2  d.run                      d
                                   ^  main.gos:4:12
     2  d.done                     d.done?
                                   ^^^^^^^  main.gos:4:12
     3  main.done                  skip
                                   ^^^^  main.gos:4:12
"""


def body_of(text, imports="import c : com  import d : com  import e : exp 4  import v : var 4\n"):
    return terms.read("m", f"{imports}export {text} : com".encode()).body


class Terms(unittest.TestCase):
    def test_texts(self):
        for text in ("c ; c ; d", "(c ; c) ; d", "c || d || c", "(c || d) || c", "if 1:1 then c else c || d", "if 1:1 then c else (c || d) ; d",
                     "v := e + 1:4 - !v & 3:4 | e", "v := e - (1:4 - e)", "v := e & e = e", "while not (e = e) do (c ; d)", "(fun x : com . x ; x) c ; d",
                     "fst (c, d) ; snd (c, new x : 4 in x := !x)", "new a[4] : 8 in a 1:2 := !(a 2:2)", "(fun f : exp 4 -> com * com . fst (f e)) c",
                     "new x : 1 in c ; d"):
            term = body_of(text)
            self.assertEqual(str(terms.Text(term, {}, {})), text)
        for text in ("com", "exp 8", "com -> com -> com", "(com -> com) -> com", "com * com * com", "(com * com) * com", "com * (com -> com)",
                     "com * com -> com"):
            self.assertEqual(terms.type_text(terms.read("m", f"import c : {text} export c : {text}".encode()).type), text)

    def test_no_module(self):
        for text in ("", "c ; ;", "c)", "new a[ : 8 in c", "c ?"):
            self.assertRaises(terms.NoModule, body_of, text)

    def test_innermost_binder(self):
        term = body_of("(fun c : com . c ; (fun c : com . c) d) c")
        self.assertEqual(str(terms.Text(moves.unfolded(term)[0], {}, {})), "c ; (fun c : com . c) d")

    def test_a_program_of_an_array(self):
        module = terms.read("m", b"export new a[4] : 8 in (a 1:2 := 7:8 ; !(a 1:2) + !(a (1:2 - 1:2))) : exp 8")
        program = moves.program_of("main", {"main": module}, [])
        labels = [("main", 0, 0), ("main", 1, 7)]
        lines, used = moves.explained(program, labels)
        self.assertEqual((used, {str(it) for it in lines if len(it.path) > 4}), (2, {"s 0.0.0.1.0"} & {str(it) for it in lines}))
        self.assertEqual(moves.explained(program, [("main", 0, 0), ("main", 1, 8)])[1], 1)


class Shown(built.Case):
    def show(self, *words):
        return self.room.run(built.TOOLS / "gos-explain-show", *words)

    def lay(self, **files):
        for name in ("b.txt", "main.gos"):
            (self.room.path / name).write_bytes((SEQUENCE / name).read_bytes())
        self.room.write(**{"out__trc": (SEQUENCE / "trace.txt").read_text(), "m__txt": MOVES, **files})

    def test_a_sequence(self):
        self.lay()
        for words in (("b.txt", "m.txt"), ("b.txt",)):
            self.assertEqual(self.show(*words).stdout, SHOWN)
        self.assertEqual(self.show("--from", "2", "--labels", "b.txt").stdout, "".join(SHOWN.splitlines(True)[7:]))
        self.assertIn("c.d..\n", self.show("--width", "8", "b.txt").stdout.replace("one? ; d", "").replace("c.done..", "c.d.."))

    def test_what_is_wrong(self):
        for files, words, status, said in (
            ({}, "b.txt none", 2, "none: No such file or directory\n"), ({}, "b.txt b.txt", 2, "no text of moves"), ({}, "m.txt", 2, "no build file"),
            ({"m__txt": MOVES.replace("s .", "s 0")}, "b.txt m.txt", 3, "m.txt: line 3 of the moves, `s 0`, can't be made\n"),
            ({"m__txt": MOVES.replace("l .\nr\n", "").replace("7", "5")}, "b.txt m.txt", 3, "out.trc: no move explains d.done in cycle 2\n"),
            ({"out__trc": "0 main.run\n1 d.run\ncycles 9\n"}, "b.txt", 3, "out.trc: no move explains d.run in cycle 1\n"),
            ({"out__trc": "0 main.ask\ncycles 9\n"}, "b.txt", 2, "has no event main.ask\n"),
            ({"main__gos": "export"}, "b.txt", 2, "main.gos: this is no module"),
        ):
            self.lay(**files)
            ran = self.show(*words.split())
            self.assertEqual((ran.returncode, said in ran.stderr), (status, True), (words, ran.stderr))
        self.assertEqual(self.show().returncode, 1)

    def test_a_local_variable(self):
        self.lay(main__gos="import c : exp 2\nexport new x : 2 in (x := c + 1:2 ; new x : 2 in skip ; while !x = 1:2 do skip) : com\n",
                 out__trc="0 main.run\n1 c.ask\n2 c.ans 1\n9 main.done\ncycles 10\n")
        said = self.show("b.txt").stdout
        for line in ("x becomes 2                new x = 0 in x := 2 ; ", "x' begins, with 0          new x = 2 in new x : 2 in ",
                     "goes on                    new x = 2 in new x' = 0 in skip ; while !x' = 1:2 do skip", "2  c.ans 1                    new x = 0 in x := c.ans? + 1:2"):
            self.assertIn(line, said)


class Explained(built.Case):
    """Traces of examples, whose moves are found here and judged by gos."""

    def lay(self, name):
        for file in (built.TOP / "examples" / name).iterdir():
            (self.room.path / file.name).write_bytes(file.read_bytes())
        build = [line.split() for line in (self.room.path / "b.txt").read_text().splitlines()]
        modules = {it[1]: terms.read(it[2], (self.room.path / it[2]).read_bytes()) for it in build if it[0] == "inst"}
        return moves.program_of("main", modules, [it[1:] for it in build if it[0] == "bind"])

    def verified(self, program, text, lines):
        self.room.write(out__trc=text, m__txt=moves.text_of(lines))
        return self.room.run(self.room.gos, "verify", "b.txt", "m.txt").stdout

    def test_examples(self):
        for name in EXAMPLES:
            program, text = self.lay(name), (built.TOP / "examples" / name / "trace.txt").read_text()
            lines, used = moves.explained(program, list(moves.labels_of(program, ports.pulses_of(text)[0])))
            self.assertEqual(self.verified(program, text, lines), f"ok lines {len(lines)} labels {text.count(chr(10)) - 1}\n", name)
            self.assertEqual(used, text.count("\n") - 1)
            self.assertEqual(self.explained(text), f"ok lines {len(lines)} labels {used}\n")
            self.assertEqual((self.room.path / "n.txt").read_text(), moves.text_of(lines))

    def explained(self, text):
        self.room.write(out__trc=text)
        return self.room.run(self.room.gos, "explain", "b.txt", "n.txt").stdout

    def test_changed_traces(self):
        """Of a trace from which a pulse was taken: as many labels are explained as are said to be, and the moves of the whole are wrong."""
        for name in EXAMPLES:
            program, choose = self.lay(name), random.Random(name)
            *pulses, last = (built.TOP / "examples" / name / "trace.txt").read_text().splitlines()
            right = moves.explained(program, list(moves.labels_of(program, ports.pulses_of("\n".join(pulses))[0])))[0]
            for _ in range(CHANGES):
                changed, at = list(pulses), choose.randrange(len(pulses))
                del changed[at]
                text = "\n".join([*changed, last, ""])
                labels = list(moves.labels_of(program, ports.pulses_of(text)[0]))
                lines, used = moves.explained(program, labels)
                while lines[-1:] and lines[-1].word == "u":
                    lines.pop()
                said = f"ok lines {len(lines)} labels {used}\n" if used == len(labels) else f"m.txt: M3 labels {used}\n"
                self.assertEqual(self.verified(program, text, lines), said)
                self.assertEqual(self.explained(text), said if used == len(labels) else f"out.trc: M5 label {used}\n")
                self.assertRegex(self.verified(program, text, right), r"m\.txt: M2 line \d+\n" if at < len(pulses) - 1 else r"m\.txt: M")


if __name__ == "__main__":
    built.main(__doc__)
