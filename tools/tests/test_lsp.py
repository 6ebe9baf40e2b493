#!/usr/bin/env python3
"""What tools/gos-lsp answers to an editor that speaks the Language Server Protocol.

usage: tools/tests/test_lsp.py GOS [WORDS OF unittest]
"""
import json
import os
import queue
import stat
import subprocess
import tempfile
import threading
import unittest
from pathlib import Path

import built
import standin

SECONDS = 900
SOURCE = """import c : com
import f : exp 8 -> com
export
  new x : 8 in
    x := 3:8 ;
    (fun c : var 8 . f (!c)) x ;
    c
  : com
"""
LIBRARY = "# Does nothing with a number.\nexport fun n : exp 8 . skip : exp 8 -> com\n"
BUILD = (
    "gosbuild 1\ninst main main.gos main.obj\ninst lib sub/lib.gos lib.obj\nbind main f lib\nroot main\n"
    "net out.net\nverilog out.v\npulses in.pls\ntrace out.trc\n")
WRONG_LINE = "this line is wrong in its place, or a line is missing here"


class Client:
    """An editor: starts the server, and sends and receives messages."""

    def __init__(self, *words, cwd=None, **environment):
        how = {"cwd": cwd, "stdin": subprocess.PIPE, "stdout": subprocess.PIPE, "stderr": subprocess.PIPE}
        self.server = subprocess.Popen([str(it) for it in words], env={**os.environ, **environment}, **how)
        self.received, self.kept, self.number = queue.Queue(), [], 0
        self.opened, self.version = {}, 0
        threading.Thread(target=self.receive, daemon=True).start()

    def receive(self):
        while (line := self.server.stdout.readline()).startswith(b"Content-Length: "):
            assert self.server.stdout.readline() == b"\r\n"
            self.received.put(json.loads(self.server.stdout.read(int(line.split()[1]))))

    def send(self, **message):
        self.send_bytes(json.dumps({"jsonrpc": "2.0", **message}, ensure_ascii=False).encode())

    def send_bytes(self, text):
        self.server.stdin.write(b"Content-Length: %d\r\nContent-Type: application/json\r\n\r\n%s" % (len(text), text))
        self.server.stdin.flush()

    def wait_for(self, is_it):
        """The first message not yet taken of which this is true."""
        while not (found := next((it for it in self.kept if is_it(it)), None)):
            self.kept.append(self.received.get(timeout=SECONDS))
        self.kept.remove(found)
        return found

    def ask(self, method, **params):
        """The answer to a request."""
        self.number += 1
        self.send(id=self.number, method=method, params=params)
        return self.wait_for(lambda it: it.get("id") == self.number)

    def tell(self, method, **params):
        self.send(method=method, params=params)

    def end(self):
        """Ends the server as an editor does, and gives its status and what it wrote to standard error."""
        self.ask("shutdown")
        self.tell("exit")
        return self.leave()

    def leave(self):
        said = self.server.stderr.read().decode()
        for pipe in (self.server.stdin, self.server.stdout, self.server.stderr):
            pipe.close()
        return self.server.wait(SECONDS), said


class Session(unittest.TestCase):
    """A session of an editor, in a folder with a program of two modules. The tests of a class share it."""

    @classmethod
    def setUpClass(cls):
        room = tempfile.TemporaryDirectory()
        cls.addClassCleanup(room.cleanup)
        cls.room = built.Room(room.name)
        (cls.room.path / "sub").mkdir()
        (cls.room.path / "sub/lib.gos").write_text(LIBRARY)
        cls.room.write(main__gos=SOURCE, b__txt=BUILD)
        cls.client = cls.start("--gos", cls.room.gos)

    @classmethod
    def tearDownClass(cls):
        if (ended := cls.client.end()) != (0, ""):
            raise AssertionError(f"the server ended with {ended}")

    @classmethod
    def start(cls, *words, lsp=built.TOOLS / "gos-lsp", **environment):
        client = Client(lsp, *words, cwd=cls.room.path, **environment)
        cls.addClassCleanup(client.server.kill)
        client.hello = client.ask("initialize", processId=None, rootUri=cls.uri(""), capabilities={})["result"]
        client.tell("initialized")
        return client

    @classmethod
    def uri(cls, name):
        return (cls.room.path / name).as_uri()

    def put(self, name, text, language="gos"):
        """Puts a text into the editor as a file, or in the place of the one that is there, and gives its diagnostics."""
        uri, self.client.version = self.uri(name), self.client.version + 1
        document = {"uri": uri, "version": self.client.version}
        if uri in self.client.opened:
            self.client.tell("textDocument/didChange", textDocument=document, contentChanges=[{"text": text}])
        else:
            self.client.tell("textDocument/didOpen", textDocument={**document, "languageId": language, "text": text})
        self.client.opened[uri] = self.client.version
        return self.published(name)

    def published(self, name):
        """The diagnostics of the newest version of a file."""
        uri = self.uri(name)
        is_it = {"uri": uri, "version": self.client.opened[uri]}.items()
        return self.client.wait_for(lambda it: it.get("method", "").endswith("publishDiagnostics") and is_it <= it["params"].items())["params"]["diagnostics"]

    def close(self, name):
        """Closes a file. Its diagnostics are gone then."""
        uri = self.uri(name)
        del self.client.opened[uri]
        self.client.tell("textDocument/didClose", textDocument={"uri": uri})
        self.client.wait_for(lambda it: it.get("params") == {"uri": uri, "diagnostics": []})

    def at(self, method, name, text, part, after=0):
        """What is answered of the place in a text where a part of it begins, or so many characters behind that; a number is a place itself."""
        before = text[:(text.index(part) if isinstance(part, str) else part) + after]
        line = before.rpartition("\n")[2]
        place = {"line": before.count("\n"), "character": len(line.encode("utf-16-le")) // 2}
        return self.client.ask(f"textDocument/{method}", textDocument={"uri": self.uri(name)}, position=place)["result"]

    def hover(self, *place, **more):
        found = self.at("hover", *place, **more)
        return found and found["contents"]["value"]

    def definition(self, *place, **more):
        """Where a definition stands: the file's name, its line and its columns."""
        found = self.at("definition", *place, **more)
        if not found:
            return None
        start, end = found["range"]["start"], found["range"]["end"]
        self.assertEqual(start["line"], end["line"])
        return found["uri"].removeprefix(self.uri("") + "/"), start["line"], start["character"], end["character"]

    def place(self, found):
        """The range of a diagnostic as four numbers."""
        return tuple(found["range"][end][part] for end in ("start", "end") for part in ("line", "character"))


class Protocol(Session):
    def test_what_it_can_do(self):
        able = self.client.hello["capabilities"]
        self.assertEqual((able["hoverProvider"], able["definitionProvider"], able["textDocumentSync"]["change"]), (True, True, 1))

    def test_errors(self):
        self.assertEqual(self.client.ask("textDocument/implementation")["error"]["code"], -32601)
        self.assertEqual(self.client.ask("textDocument/hover", textDocument={"uri": "file:///none"})["error"]["code"], -32602)
        self.assertEqual(self.client.ask("initialize")["error"]["code"], -32600)
        self.client.send_bytes(b"{")
        self.assertEqual(self.client.wait_for(lambda it: it.get("error") and it["id"] is None)["error"]["code"], -32700)
        self.client.tell("$/setTrace", value="off")
        self.client.tell("textDocument/didChange", textDocument={"uri": "file:///none", "version": 1}, contentChanges=[])
        self.client.wait_for(lambda it: it.get("method") == "window/showMessage")

    def test_first_and_last(self):
        client = Client(built.TOOLS / "gos-lsp", "--gos", self.room.gos, "--stdio")
        self.addCleanup(client.server.kill)
        self.assertEqual(client.ask("textDocument/hover")["error"]["code"], -32002)
        able = {"textDocument": {"hover": {"contentFormat": ["plaintext"]}}}
        self.assertIn("result", client.ask("initialize", processId=None, rootUri=None, capabilities=able))
        client.tell("textDocument/didOpen", textDocument={"uri": "untitled:1", "languageId": "gos", "text": "export fun x : com . x : com -> com"})
        found = client.ask("textDocument/hover", textDocument={"uri": "untitled:1"}, position={"line": 0, "character": 22})["result"]
        self.assertEqual(found["contents"], {"kind": "plaintext", "value": "x : com\na parameter, of line 1"})
        self.assertIsNone(client.ask("shutdown")["result"])
        self.assertEqual(client.ask("textDocument/hover")["error"]["code"], -32600)
        client.tell("exit")
        self.assertEqual(client.leave(), (0, ""))

    def test_an_editor_that_breaks_off(self):
        hasty, lost = self.start(), self.start()
        hasty.tell("exit")
        lost.server.stdin.close()
        self.assertEqual([client.leave() for client in (hasty, lost)], [(1, ""), (1, "")])


class Diagnostics(Session):
    def test_a_fault_that_is_mended(self):
        found = self.put("main.gos", SOURCE.replace("(!c)", "c"))
        self.assertEqual([self.place(it) for it in found], [(5, 23, 5, 24)])
        self.assertEqual((found[0]["code"], found[0]["severity"], found[0]["source"]), ("C2", 1, "gos"))
        self.assertEqual(found[0]["message"], "this is of type var 8, and exp 8 is wanted here\n`!` reads a variable: `!c`")
        self.assertEqual(self.put("main.gos", SOURCE), [])
        self.assertEqual((self.room.path / "main.gos").read_text(), SOURCE)

    def test_two_places(self):
        found = self.put("m.gos", "import c : com\nexport c || c : com\n")
        self.assertEqual([self.place(it) for it in found], [(1, 7, 1, 8), (1, 12, 1, 13)])
        self.assertEqual([it["message"] for it in found], ["`c` stands on both sides, and these may share nothing", "and here"])

    def test_columns_are_those_of_editors(self):
        """A letter of two bytes is a column, and one beyond U+FFFF is two; lines end by each of three signs."""
        for ending in ("\n", "\r\n", "\r"):
            text = f"# a\u00e9{ending}export \u00e9 : com"
            found = self.put("m.gos", text)
            self.assertEqual([self.place(it) for it in found], [(1, 7, 1, 8)] if ending != "\r" else [(1, 14, 1, 14)], repr(ending))
        self.assertEqual([self.place(it) for it in self.put("m.gos", "export\n\t\U0001f600 d : com")], [(1, 1, 1, 3)])
        self.assertEqual([self.place(it) for it in self.put("m.gos", "export # \U0001f600\n \t oops : com")], [(1, 3, 1, 7)])

    def test_places_at_the_edges(self):
        for text, code, place in (
            ("", "S1", (0, 0, 0, 0)), ("export skip\n", "S1", (1, 0, 1, 0)), ("export if skip", "S1", (0, 14, 0, 14)),
            ("export skip skipping : com then", "S1", (0, 27, 0, 31)), ("export 99999999999999999999:8 : exp 8", "L3", (0, 7, 0, 27)),
            ("# \n" * 22_000, "L1", (0, 0, 0, 0)), (f" export {';'.join(['(' + ';'.join(['skip'] * 28) + ')'] * 30)} : com", "C9", (0, 1, 0, 7)),
        ):
            found = self.put("m.gos", text)
            self.assertEqual([(it["code"], self.place(it)) for it in found], [(code, place)])

    def test_a_file_that_is_no_source(self):
        self.assertEqual(self.put("in.pls", "cycles 1\nand more\n", "gospulses"), [])
        self.assertEqual(self.put("notes.txt", "nothing\n", "plaintext"), [])
        self.close("notes.txt")

    def test_a_build(self):
        self.assertEqual(self.put("b.txt", BUILD, "gosbuild"), [])
        self.assertEqual(sorted(it.name for it in self.room.path.iterdir()), ["b.txt", "main.gos", "sub"])
        for line, other, place, message in (
            ("bind main f lib", "bind main g lib", (3, 0, 3, 15), "the module of this user has no import `g`"),
            ("bind main f lib\n", "", (2, 0, 2, 28), "the instance `lib` is not the root, and serves nobody"),
            ("net out.net", "net main.obj", (5, 0, 5, 12), f"{WRONG_LINE}\n`main.obj` is named as a file by line 2 already"),
            ("net out.net", "net b.txt", (5, 0, 5, 9), f"{WRONG_LINE}\n`b.txt` is the build file itself"),
            ("main.gos", "other.gos", (1, 10, 1, 19), "other.gos isn't there"),
        ):
            with self.subTest(other):
                found = self.put("b.txt", BUILD.replace(line, other, 1))
                self.assertEqual([(self.place(it), it["message"]) for it in found], [(place, message)])

    def test_a_build_writes_nothing(self):
        """Not even where its files are named by whole paths."""
        before = {it: it.read_bytes() for it in self.room.path.rglob("*") if it.is_file()}
        whole = BUILD
        for name in ("main.gos", "main.obj", "sub/lib.gos", "lib.obj", "out.net", "out.v"):
            whole = whole.replace(f" {name}", f" {self.room.path}/{name}")
        self.assertEqual(self.put("b.txt", whole, "gosbuild"), [])
        self.assertEqual([it["code"] for it in self.put("b.txt", whole.replace("lib.obj", "main.gos"))], ["B1"])
        self.assertEqual({it: it.read_bytes() for it in self.room.path.rglob("*") if it.is_file()}, before)

    def test_a_build_of_modules_that_are_changed(self):
        self.assertEqual(self.put("b.txt", BUILD, "gosbuild"), [])
        self.assertEqual([it["code"] for it in self.put("sub/lib.gos", "export d : com\n")], ["C1"])
        self.client.tell("textDocument/didSave", textDocument={"uri": self.uri("sub/lib.gos")})
        found = self.published("b.txt")
        self.assertEqual([it["message"] for it in found], ["sub/lib.gos has a fault. C1: nothing binds `d` here"])
        self.assertEqual([self.place(it) for it in found], [(2, 9, 2, 20)])
        self.close("sub/lib.gos")
        self.assertEqual(self.put("b.txt", f"{BUILD}# mended\n"), [])


class Names(Session):
    def test_hover(self):
        self.put("main.gos", SOURCE)
        for part, after, said in (
            ("c : com", 0, "```gos\nc : com\n```\nan import, of line 1"),
            ("f (!c)", 0, "```gos\nf : exp 8 -> com\n```\nan import, of line 2"),
            ("f (!c)", 1, "```gos\nf : exp 8 -> com\n```\nan import, of line 2"),
            ("!c", 1, "```gos\nc : var 8\n```\na parameter, of line 6"),
            ("    c\n", 4, "```gos\nc : com\n```\nan import, of line 1"),
            ("x ;", 0, "```gos\nx : var 8\n```\na local, of line 4"),
            ("export", 1, None), ("3:8", 0, None),
        ):
            self.assertEqual(self.hover("main.gos", SOURCE, part, after), said, part)

    def test_definition(self):
        self.put("main.gos", SOURCE)
        for part, after, place in (("f (!c)", 0, (1, 7, 8)), ("!c", 1, (5, 9, 10)), ("    c\n", 4, (0, 7, 8)), ("x ;", 0, (3, 6, 7))):
            self.assertEqual(self.definition("main.gos", SOURCE, part, after), ("main.gos", *place), part)
        self.assertIsNone(self.definition("main.gos", SOURCE, "export"))

    def test_scopes(self):
        """The type of each name `x` behind `export`, in order."""
        head = "import x : com\nimport f : com -> com -> com\nexport "
        for term, types in (
            ("(fun x : exp 1 . x ; x) ; x", "exp 1,exp 1,exp 1,com"),
            ("f (new x : 2 in x := x ; x) x", "var 2,var 2,var 2,var 2,com"),
            ("fun x : exp 1 . new x : 3 in if x then x else skip ; x", "exp 1,var 3,var 3,var 3,var 3"),
            ("(fun x : (com -> com) * exp 4 . fst x , x)", "(com -> com) * exp 4,(com -> com) * exp 4,com"),
            ("while (new x : 1 in x) do x", "var 1,var 1,com"), ("if fun x : com . x then x else x", "com,com,com,com"),
            ("if new x : 1 in !x then x else x || x", "var 1,var 1,com,com,com"),
            # What is no module yet.
            ("x := new x : 8 in !x ; x", "com,var 8,var 8,var 8"), ("{ x ; (fun x : exp 2 . x ; ) ; x", "com,exp 2,exp 2,com"),
            ("fun x . x", ","), ("new x : in x", ","), ("(new x : 3 in x ; y := ) x", "var 3,var 3,com"), ("f x) x ; \u00e9 new x : 7", "com,com,var 7"),
            ("if new x : 1 in then x else (fun x : exp 3 . x) := else", "var 1,com,exp 3,exp 3"), ("fun x : export new x : 2 in x", ",var 2,var 2"),
        ):
            text = f"{head}{term} : com"
            self.put("m.gos", text)
            found, at = [], len(head) - 1
            while (at := text.find("x", at + 1)) >= 0:
                if text[at - 1] not in "e":
                    found.append((self.hover("m.gos", text, at) or "```gos\nx : \n").split("\n")[1].removeprefix("x : "))
            self.assertEqual(found, types.split(","), term)

    def test_a_name_behind_a_wide_letter(self):
        text = "import c : com # \U0001f600\nexport # \U0001f600 c\n c : com"
        self.put("m.gos", text)
        self.assertEqual(self.definition("m.gos", text, "\n c", 2), ("m.gos", 0, 7, 8))
        self.assertIsNone(self.definition("m.gos", text, "\U0001f600 c\n", 2))

    def test_words_of_a_build(self):
        self.put("b.txt", BUILD, "gosbuild")
        main, lib, f = ("main.gos", 2, 0, 6), ("sub/lib.gos", 1, 0, 6), ("main.gos", 1, 7, 8)
        for part, after, place, said in (
            ("inst main", 0, main, "main : com"), ("main.gos", 3, main, "main : com"), ("inst lib", 5, lib, "lib : exp 8 -> com"),
            ("sub/lib.gos", 0, lib, "lib : exp 8 -> com"), ("bind", 0, lib, "lib : exp 8 -> com"), ("bind main", 5, main, "main : com"),
            ("f lib", 0, f, "f : exp 8 -> com"), ("f lib", 2, lib, "lib : exp 8 -> com"), ("root main", 5, main, "main : com"),
            ("net out", 0, None, None), ("gosbuild", 0, None, None),
        ):
            self.assertEqual(self.definition("b.txt", BUILD, part, after), place, part)
            hover = self.hover("b.txt", BUILD, part, after)
            self.assertEqual(hover and hover.split("\n")[1], said, part)

    def test_a_build_in_another_folder_than_its_modules(self):
        """Paths of a build file are from the folder in which gos is called, which may be that of the editor's project."""
        (self.room.path / "deep").mkdir()
        self.assertEqual(self.put("deep/b.txt", BUILD, "gosbuild"), [])
        self.assertEqual(self.definition("deep/b.txt", BUILD, "root"), ("main.gos", 2, 0, 6))


class Editing(Session):
    def labels(self, *place, **more):
        return {it["label"]: it.get("detail") for it in self.at("completion", *place, **more)}

    def test_completion(self):
        self.put("main.gos", SOURCE)
        self.assertEqual({name: kind for name, kind in self.labels("main.gos", SOURCE, "!c", 2).items() if kind},
                         {"c": "var 8", "f": "exp 8 -> com", "x": "var 8"})
        found = self.labels("main.gos", SOURCE, "    c\n", 4)
        self.assertEqual((found["c"], found["x"], "while" in found, "then" in found), ("com", "var 8", True, False))
        for text, part, wanted in (
            ("import cc : com\nexport c", "export c", {"cc"}), ("import c : com  export if c th", "th", {"then"}), ("export fun ", "fun ", set()),
            ("export (fun y : com . y) ", ") ", {"skip"}), ("import c : com # no\nexport c : com", "# n", set()), ("", "", {"import", "export"}),
        ):
            self.put("m.gos", text)
            found = set(self.labels("m.gos", text, part, len(part)))
            self.assertTrue(wanted <= found and (wanted or not found), (text, found))
            self.assertNotIn("y", found)

    def test_completion_in_a_build(self):
        text = BUILD.replace("bind main f lib\n", "bind main \nb")
        self.put("b.txt", text, "gosbuild")
        self.assertEqual(self.labels("b.txt", text, "bind main ", 10), {"c": "com", "f": "exp 8 -> com"})
        self.assertEqual(self.labels("b.txt", text, "bind ", 5), {"main": "main.gos", "lib": "sub/lib.gos"})
        self.assertEqual(set(self.labels("b.txt", text, "\nbroot", 2)), {"bind", "root"})

    def test_symbols(self):
        self.put("main.gos", SOURCE)
        self.put("b.txt", BUILD, "gosbuild")
        for name, wanted in (("main.gos", ["c com", "f exp 8 -> com", "x var 8", "c var 8", "export com"]), ("b.txt", ["main main.gos", "lib sub/lib.gos"])):
            found = self.client.ask("textDocument/documentSymbol", textDocument={"uri": self.uri(name)})["result"]
            self.assertEqual([f"{it['name']} {it['detail']}" for it in found], wanted)

    def rename(self, name, text, part, after, new):
        """What becomes of the texts of all files in which a name is changed, or why it isn't."""
        before = text[:text.index(part) + after]
        place = {"line": before.count("\n"), "character": len(before.rpartition("\n")[2])}
        answer = self.client.ask("textDocument/rename", textDocument={"uri": self.uri(name)}, position=place, newName=new)
        if "error" in answer:
            return answer["error"]["message"]
        return {uri.rpartition("/")[2]: self.changed({"main.gos": SOURCE, "b.txt": BUILD}.get(uri.rpartition("/")[2], text), edits)
                for uri, edits in answer["result"]["changes"].items()}

    def changed(self, text, edits):
        lines = text.split("\n")
        for edit in sorted(edits, key=lambda it: (it["range"]["start"]["line"], it["range"]["start"]["character"]), reverse=True):
            start, end = edit["range"]["start"], edit["range"]["end"]
            line = lines[start["line"]]
            lines[start["line"]] = line[:start["character"]] + edit["newText"] + line[end["character"]:]
        return "\n".join(lines)

    def test_rename(self):
        self.put("main.gos", SOURCE)
        self.put("b.txt", BUILD, "gosbuild")
        self.assertEqual(self.rename("main.gos", SOURCE, "x :=", 0, "y"),
                         {"main.gos": SOURCE.replace("new x", "new y").replace("x :=", "y :=").replace(" x ;", " y ;")})
        self.assertEqual(self.rename("main.gos", SOURCE, "!c", 1, "n"), {"main.gos": SOURCE.replace("fun c", "fun n").replace("!c", "!n")})
        self.assertEqual(self.rename("main.gos", SOURCE, "f (", 0, "g"), {
            "main.gos": SOURCE.replace("import f", "import g").replace(" f (", " g ("), "b.txt": BUILD.replace("bind main f", "bind main g")})
        self.assertEqual(self.rename("b.txt", BUILD, "inst lib", 5, "two"), {
            "b.txt": BUILD.replace("inst lib", "inst two").replace("f lib", "f two")})
        for part, after, new, said in (("x :=", 0, "f", "bound here already"), ("x :=", 0, "c", "bound here already"), ("f (", 0, "c", "bound here already"),
                                       ("x :=", 0, "while", "a word of the language"), ("x :=", 0, "1x", "`1x` is no name"), ("export", 0, "y", "no name")):
            self.assertIn(said, self.rename("main.gos", SOURCE, part, after, new), new)
        self.assertIn("an instance `main` already", self.rename("b.txt", BUILD, "inst lib", 5, "main"))
        found = self.at("prepareRename", "main.gos", SOURCE, "x :=")
        self.assertEqual(found["placeholder"], "x")

    def test_formatting(self):
        for text, made in (("import c:com export\nc;c:com", "import c : com\nexport\n  c ; c : com\n"), ("export skip : com\n", ""), ("export (", None)):
            self.put("m.gos", text)
            found = self.client.ask("textDocument/formatting", textDocument={"uri": self.uri("m.gos")}, options={})["result"]
            self.assertEqual(found if found is None else "".join(it["newText"] for it in found), made)


class Programs(Session):
    """Which gos is run."""

    def stub(self, name, code, said=""):
        """A program that names a name which is not bound, and says something on standard error."""
        path = self.room.path / name
        path.parent.mkdir(exist_ok=True)
        path.write_text(f'#!/bin/sh\n[ -z "{said}" ] || echo "{said}" >&2\necho "m.gos: C1 {name.partition("/")[0]} at 7..8"\nexit {code}\n')
        path.chmod(stat.S_IRWXU)
        return path

    def ran(self, *words, **how):
        """What is said of a source, and what is shown besides."""
        self.client = self.start(*words, **how)
        self.put("m.gos", "export d : com\n")
        found = self.put("m.gos", "export e : com\n")
        self.assertEqual(self.client.end(), (0, ""))
        shown = [it["params"]["message"] for it in self.client.kept if it.get("method") == "window/showMessage"]
        return [it["message"] for it in found], shown

    def test_the_order(self):
        option, variable, path = (self.stub(f"{it}/gos", 2) for it in ("option", "variable", "path"))
        places = f"{path.parent}:{os.environ['PATH']}"
        self.assertEqual(self.ran("--gos", option, GOS=str(variable), PATH=places), (["nothing binds `option` here"], []))
        self.assertEqual(self.ran(GOS="variable/gos", PATH=places), (["nothing binds `variable` here"], []))
        self.assertEqual(self.ran(GOS="", PATH=places), (["nothing binds `path` here"], []))

    def test_a_program_that_is_not_there(self):
        places = f"{self.stub('path/gos', 2).parent}:{os.environ['PATH']}"
        self.assertEqual(self.ran(GOS=str(self.room.path / "none"), PATH=places), ([], [f"{self.room.path / 'none'} can't be run: No such file or directory"]))

    def test_the_script_and_its_preview(self):
        """Without another program it is the script of the repository, and that it runs a preview is shown."""
        with tempfile.TemporaryDirectory() as room:
            repository = standin.Repository(room)
            places = [it for it in os.environ["PATH"].split(":") if not (Path(it) / "gos").exists()]
            path = ":".join([str(repository.bin), *places])
            found, shown = self.ran(GOS="", GOS_PROVED="", PATH=path, lsp=repository.top / "tools/gos-lsp")
        self.assertEqual((found, len(shown)), ([], 2))
        self.assertRegex(shown[0], r"^gos: not proved on this machine yet: a preview is made first")
        self.assertRegex(shown[1], r"^gos: not proved on this machine yet: this is a preview")

    def test_what_it_says_besides_is_shown_once(self):
        preview = self.stub("preview/gos", 2, "gos: not proved on this machine yet")
        self.assertEqual(self.ran("--gos", preview), (["nothing binds `preview` here"], ["gos: not proved on this machine yet"]))
        failing = self.stub("failing/gos", 5, "gos: memory ran out")
        self.assertEqual(self.ran("--gos", failing), ([], ["gos: memory ran out", "gos check ended with status 5"]))


if __name__ == "__main__":
    built.main(__doc__)
