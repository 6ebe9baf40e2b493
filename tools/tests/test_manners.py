#!/usr/bin/env python3
"""How each script begins and ends: a line and a status, and never a traceback.

usage: tools/tests/test_manners.py GOS [WORDS OF unittest]
"""
import ast
import contextlib
import errno
import io
import os
import pty
import re
import select
import shutil
import signal
import subprocess
import sys
import time
import unittest
from concurrent.futures import ThreadPoolExecutor

import built
import manners  # (built has put the folder above into the path)

TOP = built.TOP
# These have tests of their own.
OTHERS = {"prove", "install"}
SCRIPTS = [it for folder in ("tools", "examples", "peers", "fuzz", "bench") for it in sorted((TOP / folder).iterdir())
           if it.is_file() and os.access(it, os.X_OK) and it.name not in OTHERS and not it.name.startswith("test_")]
# The words by which a script is given files that aren't there; most have one.
MISSING = {"aag-to-aig": "none a.aig", "gos-vcd": "none none", "gos-wave": "none none", "gos-play": "none none", "edits": "none"}
# Those that take no file.
NO_FILE = {"house", "quick", "gos-lsp", "verilog.py"}
# Those that run a program that is named, and go on for long.
RUNNERS = {"examples/run": "", "peers/check": "1", "fuzz/run": "--workers 2", "bench/extremes.py": "parts/64",
           "bench/designs.py": "stack"}
SECONDS = 120


def name_of(script):
    return manners.name_of(script)


def words_of(script):
    """How a script is called, without what the environment would look for first."""
    is_python = script.read_text().partition("\n")[0].endswith("python3")
    return [sys.executable, str(script)] if is_python else [str(script)]


def run(script, *words, **how):
    how = {"stdin": subprocess.DEVNULL, "stderr": subprocess.PIPE, "stdout": subprocess.PIPE, "text": True, "timeout": SECONDS, **how}
    return subprocess.run([*words_of(script), *map(str, words)], **how)


def closed_pipe():
    """The end of a pipe that nobody reads."""
    reader, writer = os.pipe()
    os.close(reader)
    return writer


class Scripts(built.Case):
    def each(self, does, scripts=SCRIPTS):
        """What comes of something for each script, a few at once. No script has a traceback."""
        with ThreadPoolExecutor(os.cpu_count()) as pool:
            found = list(zip(scripts, pool.map(does, scripts)))
        self.assertEqual([name_of(script) for script, ran in found if "Traceback" in ran.stderr], [])
        return found

    def test_all_go_through_one_wrapper(self):
        for script in SCRIPTS:
            if len(words_of(script)) > 1:
                self.assertRegex(script.read_text(), r"\n    sys\.exit\((manners|builds)\.ended\(main, sys\.argv\[1:\]\)\)\n\Z", script)

    def test_help(self):
        for word in ("--help", "-h"):
            for script, ran in self.each(lambda it: run(it, word)):
                with self.subTest(name_of(script)):
                    doc = ast.get_docstring(ast.parse(script.read_text()), clean=False) if len(words_of(script)) > 1 else None
                    self.assertEqual((ran.returncode, ran.stderr), (0, ""))
                    self.assertIn(script.name, ran.stdout)
                    self.assertEqual(ran.stdout, f"{doc.strip()}\n" if doc else ran.stdout)

    def test_a_wrong_word(self):
        for script, ran in self.each(lambda it: run(it, "--no-such-word")):
            with self.subTest(name_of(script)):
                self.assertEqual((ran.returncode, ran.stdout, ran.stderr.count("\n")), (1, "", 1), ran.stderr)
                self.assertIn("--help says more", ran.stderr)

    def test_a_missing_file(self):
        takers = [it for it in SCRIPTS if it.name not in NO_FILE]
        for script, ran in self.each(lambda it: run(it, *MISSING.get(it.name, "none").split(), cwd=self.room.path), takers):
            with self.subTest(name_of(script)):
                self.assertIn(ran.returncode, (70,) if script.name == "edits" else (1, 2))
                self.assertEqual((ran.stdout, ran.stderr.count("\n")), ("", 1), ran.stderr)
                self.assertIn("none", ran.stderr)
        self.assertEqual(list(self.room.path.iterdir()), [])

    def test_a_full_disk(self):
        with open("/dev/full", "w") as full:
            for script, ran in self.each(lambda it: run(it, "--help", stdout=full)):
                with self.subTest(name_of(script)):
                    self.assertEqual((ran.returncode, ran.stderr.count("\n")), (4 if script.name == "quick" else 74, 1), ran.stderr)
                    self.assertIn(os.strerror(errno.ENOSPC), ran.stderr)

    def test_a_reader_that_has_gone(self):
        writer = closed_pipe()
        for script, ran in self.each(lambda it: run(it, "--help", stdout=writer)):
            with self.subTest(name_of(script)):
                self.assertEqual((ran.returncode, ran.stderr), (-signal.SIGPIPE if script.name == "quick" else 141, ""))
        os.close(writer)

    def test_no_output(self):
        for script, ran in self.each(lambda it: subprocess.run(
                ["bash", "-c", '"$@" --help >&-', "", *words_of(it)], stderr=subprocess.PIPE, text=True, timeout=SECONDS)):
            with self.subTest(name_of(script)):
                self.assertEqual((ran.returncode, ran.stderr.count("\n")), (4 if script.name == "quick" else 74, 1), ran.stderr)

    def test_an_older_python(self):
        """The scripts say so themselves: so they are written in what it reads."""
        called = [it for it in SCRIPTS if len(words_of(it)) > 1]
        for path in [*called, *(TOP / "tools").glob("*.py")]:
            ast.parse(path.read_text(), feature_version=(3, 8))
        older = "import runpy, sys; sys.version_info = (3, 9, 2, 'final', 0); del sys.argv[0]; sys.path.insert(0, sys.argv[1]); " \
                "runpy.run_path(sys.argv[0], run_name='__main__')"
        for script, ran in self.each(lambda it: subprocess.run(
                [sys.executable, "-c", older, it, it.parent], capture_output=True, text=True, timeout=SECONDS), called):
            with self.subTest(name_of(script)):
                self.assertEqual((ran.returncode, ran.stdout, ran.stderr.count("\n")), (1, "", 1), ran.stderr)
                self.assertIn("this wants Python 3.10 or later, and is run by 3.9", ran.stderr)
        self.assertIn("Python 3.10", (TOP / "docs/INSTALL.md").read_text())


class Ended(built.Case):
    """Scripts that are ended from outside."""

    def begun(self, words, **how):
        pipes = dict.fromkeys(("stdin", "stdout", "stderr"), subprocess.PIPE)
        # (who runs the tests may have the signal ignored)
        heard = {"preexec_fn": lambda: signal.signal(signal.SIGINT, signal.SIG_DFL)}
        child = subprocess.Popen(words, cwd=self.room.path, text=True, **pipes, **heard, **how)
        self.addCleanup(child.kill)
        return child

    def end(self, child, number=signal.SIGINT):
        """The status and what was said of a script that a signal ends, and how long that took."""
        begun = time.monotonic()
        child.send_signal(number)
        _, said = child.communicate(timeout=SECONDS)
        self.assertNotIn("Traceback", said)
        self.assertLess(time.monotonic() - begun, SECONDS / 2)
        return child.returncode, said

    def test_while_a_file_is_read(self):
        for name in ("gos-wave", "gos-vcd", "gos-picture", "gos-play", "gos-cost", "gos-formal", "gos-bench", "gos-why", "gos-explain-show", "gos-fmt",
                     "gos-top", "aag-to-aig"):
            with self.subTest(name):
                pipe = self.room.path / f"{name}.txt"
                os.mkfifo(pipe)
                script, others = built.TOOLS / name, MISSING.get(name, "").split()[1:]
                child = self.begun([*words_of(script), pipe.name, *others])
                with open(pipe, "wb"):
                    self.assertEqual(self.end(child), (130, f"{name}: ended by Ctrl-C\n"))

    def test_while_an_editor_is_served(self):
        child = self.begun([*words_of(built.TOOLS / "gos-lsp"), "--gos", self.room.gos])
        text = '{"jsonrpc": "2.0", "id": 1, "method": "shutdown"}'
        child.stdin.write(f"Content-Length: {len(text)}\r\n\r\n{text}")
        child.stdin.flush()
        self.assertIn("Content-Length", child.stdout.readline())
        self.assertEqual(self.end(child), (130, "gos-lsp: ended by Ctrl-C\n"))

    def test_while_a_program_runs(self):
        """Neither a traceback, nor the rest of the run, nor anything in the temporary folder."""
        for name, words in RUNNERS.items():
            for number, wanted in ((signal.SIGINT, (130, f"{name}: ended by Ctrl-C\n")), (signal.SIGTERM, (143, ""))):
                with self.subTest(name, signal=number):
                    stub, mark, kept = (self.room.path / f"{part}{name.replace('/', '-')}{number}" for part in ("stub", "mark", "kept"))
                    kept.mkdir()
                    stub.write_text(f"#!/bin/sh\necho begun >{mark}\nexec sleep 60\n")
                    stub.chmod(0o755)
                    child = self.begun([*words_of(TOP / name), str(stub), *words.split()], env={**os.environ, "TMPDIR": str(kept)})
                    begun = time.monotonic()
                    while not mark.exists() and time.monotonic() - begun < SECONDS:
                        time.sleep(0.02)
                    self.assertEqual(self.end(child, number), wanted)
                    self.assertEqual(list(kept.iterdir()), [])


    def test_while_workers_begin(self):
        """What ends a script isn't heard by the processes that it begins just then, with a handler that is the first one's."""
        slow = """if True:
            import os, runpy, sys, time
            first, forks = os.getpid(), []
            os.register_at_fork(before=lambda: forks.append(0),
                                after_in_child=lambda: time.sleep(2 if os.getppid() == first and len(forks) <= 2 else 0))
            del sys.argv[0]
            sys.path.insert(0, os.path.dirname(sys.argv[0]))
            runpy.run_path(sys.argv[0], run_name="__main__")
        """
        for number, wanted in ((signal.SIGINT, (130, "fuzz/run: ended by Ctrl-C\n")), (signal.SIGTERM, (143, ""))):
            with self.subTest(signal=number):
                stub, mark = (self.room.path / f"{part}{number}" for part in ("begins", "begun"))
                stub.write_text(f"#!/bin/sh\necho begun >{mark}\nexec sleep 60\n")
                stub.chmod(0o755)
                child = self.begun([sys.executable, "-c", slow, str(TOP / "fuzz/run"), str(stub), "--workers", "2"])
                begun = time.monotonic()
                while not mark.exists() and time.monotonic() - begun < SECONDS:
                    time.sleep(0.02)
                self.assertEqual(self.end(child, number), wanted)


class Long(built.Case):
    """Scripts that go on for long say on a terminal how far they are, after two seconds."""

    def says(self, wanted, words, **environment):
        """Has a script, whose program or peer is at work for long, say this; and ends it."""
        ours, theirs = pty.openpty()
        how = {"cwd": self.room.path, "stdin": subprocess.DEVNULL, "stdout": subprocess.DEVNULL, "env": {**os.environ, "TERM": "xterm", **environment}}
        child = subprocess.Popen([str(it) for it in words], stderr=theirs, **how)
        os.close(theirs)
        said, ends = b"", time.monotonic() + SECONDS
        # (where the script is over, a read of its terminal ends with an error)
        with contextlib.suppress(OSError):
            while not re.search(wanted, said.decode()) and time.monotonic() < ends:
                said += os.read(ours, 4096) if select.select([ours], [], [], 0.1)[0] else b""
        child.terminate()
        child.wait()
        os.close(ours)
        self.assertRegex(said.decode(), wanted)

    def sleeper(self, name):
        """A program that sleeps."""
        path = self.room.path / name
        path.write_text("#!/bin/sh\nexec sleep 10\n")
        path.chmod(0o755)
        return path

    def test_those_that_run_a_program(self):
        for name, wanted in (("fuzz/run", "0 of 2000 cases"), ("peers/check", r"0 of \d+ circuits"), ("bench/designs.py", "0 of 1 designs")):
            with self.subTest(name):
                words = [*words_of(TOP / name), self.sleeper("gos"), *RUNNERS[name].split()]
                self.says(rf"\r{name}: {wanted}(, \w+ is built)?, \d+ s", words)

    def test_those_that_run_a_peer(self):
        for it in (TOP / "examples/sequence").iterdir():
            shutil.copy(it, self.room.path)
        self.room.run(self.room.gos, "build", "b.txt")
        path = f"{self.sleeper('iverilog').parent}:{os.environ['PATH']}"
        self.says(r"\rgos-bench: iverilog is at work, \d+ s", [*words_of(built.TOOLS / "gos-bench"), "b.txt"], PATH=path)


class Outputs(built.Case):
    """What scripts print of a build, where it can't be printed."""

    def setUp(self):
        super().setUp()
        for it in (TOP / "examples/uart").iterdir():
            shutil.copy(it, self.room.path)
        self.room.run(self.room.gos, "build", "b.txt")
        self.room.run(self.room.gos, "gates", "out.net", "a.aag")
        self.room.write(top__txt="board icestick\ncircuit out.net out.v\nmain runs once\nline is pin 1\nhalf_a_bit takes 52 cycles\n"
                                 "bit beats every 104 cycles from half_a_bit.done\nreceived is pins 2 3 4 7 8 9 10 11\n")
        fault = "main.gos: C1 d at 7..8"
        self.calls = [[built.TOOLS / name, *words] for name, *words in (
            ("gos-wave", "out.net", "out.trc"), ("gos-vcd", "out.net", "out.trc"), ("gos-picture", "b.txt"), ("gos-cost", "b.txt"),
            ("gos-cost", "--parts", "b.txt"), ("gos-explain-show", "--to", "40", "b.txt"), ("gos-where", fault), ("gos-why", "b.txt"),
            ("gos-play", "--gos", self.room.gos, "b.txt", "uart.play"), ("gos-make", "--module", "mul", "W=8"), ("gos-bench", "b.txt"), ("gos-top", "top.txt"))]

    def test_it_is_said(self):
        writer = closed_pipe()
        with open("/dev/full", "w") as full:
            for call in self.calls:
                for out, status, lines in ((full, 74, 1), (writer, 141, 0)):
                    with self.subTest(call[0].name, status=status):
                        ran = run(*call, stdout=out, cwd=self.room.path)
                        self.assertNotIn("Traceback", ran.stderr)
                        # (a status of what was found stands before the one of what couldn't be printed)
                        self.assertIn(ran.returncode, (status, 3, 4) if call[0].name in ("gos-why", "gos-bench") else (status,), ran.stderr)
                        self.assertEqual(len(re.findall("standard output can't be written", ran.stderr)), lines)
        os.close(writer)

    def test_files(self):
        for name, *words in (("aag-to-aig", "a.aag", "/dev/full"), ("gos-bench", "--write", "/dev/full", "b.txt"),
                             ("gos-formal", "--write", "/dev/full", "b.txt"),
                             ("gos-play", "--gos", self.room.gos, "out.net", "uart.play", "/dev/full", "t")):
            ran = run(built.TOOLS / name, *words, cwd=self.room.path)
            self.assertIn(ran.returncode, (1, 2), name)
            self.assertEqual(ran.stderr, "/dev/full: No space left on device\n")


class Formatter(built.Case):
    SOURCES = sorted(it for folder in ("examples", "lib") for it in (TOP / folder).rglob("*.gos"))

    def fmt(self, *words, **how):
        return run(built.TOOLS / "gos-fmt", *words, cwd=self.room.path, **how)

    def test_examples_and_library(self):
        """As they stand, without their indents, and with other blanks: the same text comes of all, which gos takes for the same module."""
        import layout
        self.assertGreater(len(self.SOURCES), 40)
        for at, path in enumerate(self.SOURCES):
            data = path.read_bytes()
            self.assertEqual(layout.laid_out(data), data, path)
            self.assertEqual(layout.laid_out(re.sub(rb"(?m)^ +", b"", data)), data, path)
            wide = b"\n".join(re.sub(rb"(?<=\S) (?=[^# ])(?![^#]*#)", b"  ", line) for line in data.split(b"\n")).replace(b"\n", b" \r\n\r\n\n")
            once = layout.laid_out(wide)
            self.assertEqual(layout.laid_out(once), once, path)
            (self.room.path / f"m{at}.gos").write_bytes(wide)
        checks = [self.room.run(self.room.gos, "check", f"m{at}.gos").stdout for at, _ in enumerate(self.SOURCES)]
        self.assertEqual(self.fmt(*(f"m{at}.gos" for at, _ in enumerate(self.SOURCES))).stderr, "")
        self.assertEqual([self.room.run(self.room.gos, "check", f"m{at}.gos").stdout for at, _ in enumerate(self.SOURCES)], checks)
        self.assertTrue(all(it.startswith("ok ") for it in checks))

    def test_forms_that_are_split(self):
        import layout
        for text, made in (
            ("import c:com import x:var 8#x\nexport\nc;\nx:=!x+\n1:8;(new a[4]:2 in\na 1:2:=3:2)\n:com",
             "import c : com\nimport x : var 8 #x\nexport\n  c ;\n  x := !x +\n    1:8 ; (new a[4] : 2 in\n             a 1:2 := 3:2)\n  : com\n"),
            ("export\nif 1:1\nthen skip\nelse while 0:1\ndo\nskip:com", "export\n  if 1:1\n    then skip\n    else while 0:1\n      do\n      skip : com\n"),
            ("\n\n# a\n\n\n\n# \xe4\nexport(# b\nskip\n\n# c\n)\n||skip:com# d\n# e", None),
        ):
            once = layout.laid_out(text.encode("latin-1"))
            self.assertEqual(layout.laid_out(once), once)
            self.assertEqual(once.decode("latin-1") if made else made, made, once)
        self.assertEqual(re.findall(rb"#.*", once), re.findall(rb"#.*", text.encode("latin-1")))

    def test_the_command(self):
        self.room.write(a__gos="export  skip : com\n", b__gos="export\n  skip : com\n", c__gos="export (\n")
        os.chmod(self.room.path / "a.gos", 0o640)
        os.symlink("a.gos", self.room.path / "l.gos")
        for words, status, said in ((("--check", "a.gos", "b.gos"), 3, "a.gos would change\n"), (("l.gos", "b.gos"), 0, "l.gos is laid out\n"),
                                    (("a.gos",), 0, ""), (("b.gos", "c.gos"), 2, "")):
            ran = self.fmt(*words)
            self.assertEqual((ran.returncode, ran.stdout), (status, said), ran.stderr)
        self.assertIn("c.gos: this is no module", ran.stderr)
        self.assertEqual((self.room.path / "a.gos").read_text(), "export skip : com\n")
        self.assertEqual(((self.room.path / "a.gos").stat().st_mode & 0o777, (self.room.path / "l.gos").is_symlink()), (0o640, True))
        ran = self.fmt("-", stdin=None, input="export\nskip:com")
        self.assertEqual((ran.stdout, ran.returncode, len(list(self.room.path.iterdir()))), ("export\n  skip : com\n", 0, 4))


class Terminal(io.StringIO):
    def isatty(self):
        return True


class Progress(unittest.TestCase):
    def told(self, stream, **times):
        with contextlib.redirect_stderr(stream), contextlib.redirect_stdout(io.StringIO()) as out:
            progress = manners.Progress("cases", 9)
            for name, seconds in times.items():
                setattr(progress, name, seconds)
            with progress:
                progress.step(4)
                ends = time.monotonic() + SECONDS / 4
                while times and "4 of 9 cases" not in stream.getvalue() and time.monotonic() < ends:
                    time.sleep(0.01)
                progress.print("a line")
        return stream.getvalue(), out.getvalue()

    def test_on_a_terminal(self):
        said, printed = self.told(Terminal(), PATIENCE=0.01)
        self.assertRegex(said, r"^\r[^\r]*: 4 of 9 cases, 0 s\x1b\[K\r\x1b\[K")
        self.assertEqual((said.endswith("\r\x1b[K"), "\n" in said, printed), (True, False, "a line\n"))

    def test_elsewhere(self):
        said, _ = self.told(io.StringIO(), SELDOM=0.01)
        self.assertRegex(said, r"^([^\r]*: 4 of 9 cases, 0 s\n)+$")

    def test_what_is_soon_over(self):
        self.assertEqual([self.told(it) for it in (Terminal(), io.StringIO())], [("", "a line\n")] * 2)


if __name__ == "__main__":
    built.main(__doc__)
