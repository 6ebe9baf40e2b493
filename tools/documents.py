"""Texts as editors have them: lines and columns, the words of build files, and what a name means: what tools/gos-lsp works on."""
import bisect
import re
from dataclasses import dataclass
from functools import cached_property
from pathlib import Path
from urllib.parse import unquote, urlsplit

import scopes

# Sorts of diagnostics, as the Language Server Protocol numbers them.
ERROR, WARNING = 1, 2
LINE_END = re.compile(rb"\r\n|\n|\r")
SORTS = {"import": "an import", "fun": "a parameter", "new": "a local"}


@dataclass(frozen=True)
class Word:
    """A word of a build file, and its place in bytes."""

    text: str
    start: int
    stop: int


@dataclass(frozen=True)
class Meaning:
    """What a word means: the word, which has a place of its own; the name that is meant, its type, and what it is, in words; and the
    document and the bytes there to which one jumps."""

    word: object
    name: str
    type: str
    sort: str
    document: object
    start: int
    stop: int


@dataclass
class Document:
    """A text, in the editor or in its file. Its places are bytes of UTF-8 for gos, and lines and columns of UTF-16 for an editor."""

    uri: str
    text: str
    language: str = ""
    version: int = None

    @cached_property
    def data(self):
        return self.text.encode(errors="replace")

    @cached_property
    def starts(self):
        """The bytes at which the lines begin."""
        return [0, *(it.end() for it in LINE_END.finditer(self.data))]

    @cached_property
    def module(self):
        """The names of a source."""
        return scopes.module_of(self.data)

    @cached_property
    def statements(self):
        """The lines of a build file that say something, each as its words."""
        lines, at = [], 0
        for line in self.data.split(b"\n"):
            found = re.finditer(rb"[^ \t\r]+", line)
            lines.append([Word(it[0].decode(), at + it.start(), at + it.end()) for it in found])
            at += len(line) + 1
        return [line for line in lines if line and not line[0].text.startswith("#")]

    @cached_property
    def path(self):
        return path_of(self.uri)

    @property
    def is_build(self):
        return self.language == "gosbuild" or [it[0].text for it in self.statements[:1]] == ["gosbuild"]

    @property
    def is_source(self):
        return self.language == "gos" or self.path.suffix == ".gos"

    @property
    def instances(self):
        """The names of a build file's instances, each with its source."""
        return {line[1].text: line[2].text for line in self.statements if line[0].text == "inst" and len(line) == 4}

    def position(self, at):
        """The line and the column of a byte."""
        line = bisect.bisect_right(self.starts, at) - 1
        before = self.data[self.starts[line]:at].decode(errors="replace")
        return {"line": line, "character": len(before.encode("utf-16-le")) // 2}

    def range(self, start, stop):
        """The range of a span of bytes, widened to whole characters."""
        start, stop = min(start, len(self.data)), min(stop, len(self.data))
        while start and self.data[start:start + 1] and self.data[start] & 0xC0 == 0x80:
            start -= 1
        while stop < len(self.data) and self.data[stop] & 0xC0 == 0x80:
            stop += 1
        return {"start": self.position(start), "end": self.position(stop)}

    def offset(self, position):
        """The byte at a line and a column."""
        line = min(position["line"], len(self.starts) - 1)
        text = self.data[self.starts[line]:[*self.starts, len(self.data)][line + 1]].decode().rstrip("\r\n")
        before = text.encode("utf-16-le")[:2 * position["character"]].decode("utf-16-le", errors="ignore")
        return self.starts[line] + len(before.encode())

    def meaning(self, at):
        """What the name of a source at a byte means, or none."""
        word = self.module.name_at(at)
        binder = self.module.bound.get(word.start) if word else None
        if not binder:
            return None
        sort = f"{SORTS[binder.word]}, of line {self.position(binder.name.start)['line'] + 1}"
        return Meaning(word, word.text, binder.type, sort, self, binder.name.start, binder.name.stop)

    def diagnostic(self, start, stop, message, code=None, severity=ERROR):
        said = {"range": self.range(start, stop), "severity": severity, "source": "gos", "message": message}
        return {**said, "code": code} if code else said


def path_of(uri):
    return Path(unquote(urlsplit(uri).path))
