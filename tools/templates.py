"""Templates of modules, with names in braces for which numbers and other names are put (docs/MAKE.md): what tools/gos-make makes
modules of. A file that it wrote is known by its first line, which has a sum of the lines behind it.
"""
import difflib
import re
import zlib
from dataclasses import dataclass
from pathlib import Path

import grammar
from builds import Wrong

NAME = r"[A-Za-z_][A-Za-z0-9_]*"
PLACE = re.compile(r"\{([^{}\n]*)\}")
DECLARATION = re.compile(rf"\{{\s*({NAME})\s*(?:=\s*(\d+|{NAME})\s*)?(?:,\s*(\d+)\s+to\s+(\d+)\s*)?:\s*(.*?)\s*\}}\s*")
SYMBOL = re.compile(rf"\s*(?:(\d+)|({NAME})|(\S))")
MOST = 2**64 - 1
HEAD = re.compile(r"# By gos-make, from [^\n]*; sum ([0-9a-f]{8})\.\n")


@dataclass
class Declared:
    """A name of a template: its number or name where none is given, or none; its least and its greatest number, if told; its meaning."""

    name: str
    default: object
    least: int
    most: int
    says: str

    def wrong(self, value):
        """Why this is no value of the name, or nothing."""
        if isinstance(value, str) != isinstance(self.default, str) and self.default is not None:
            return f"{self.name} is a {'name' if isinstance(self.default, str) else 'number'}, and not `{value}`: {self.says}"
        if self.most is not None and (isinstance(value, str) or not self.least <= value <= self.most):
            return f"{self.name} is {self.least} to {self.most}, and not {value}: {self.says}"
        return ""


def near(word, words):
    """A question, where a word is nearly one of some words."""
    found = difflib.get_close_matches(word, list(words), 1)
    return f"; is `{found[0]}` meant?" if found else ""


def value_of(text):
    """The number or the name that a text is, or none."""
    if re.fullmatch(r"[0-9]+", text):
        return int(text)
    return text if re.fullmatch(NAME, text) and text not in grammar.WORDS else None


class Expression:
    """An expression in braces, worked out from left to right: `+ - * / %`, `^` for a power, `bits(n)` for how many bits n has."""

    def __init__(self, text, values, wrong):
        self.symbols = [next(filter(None, it.groups())) for it in SYMBOL.finditer(text)]
        self.values, self.wrong, self.at = values, wrong, 0

    def value(self):
        """The number, or the name where the expression is one that stands for a name."""
        if len(self.symbols) == 1 and isinstance(self.values.get(self.symbols[0]), str):
            return self.values[self.symbols[0]]
        found = self.sum()
        if self.at < len(self.symbols):
            raise self.wrong(f"`{self.symbols[self.at]}` can't stand here")
        if not 0 <= found <= MOST:
            raise self.wrong(f"this is {found}, and numbers are 0 to {MOST}")
        return found

    def may(self, *symbols):
        """The next symbol, where it is one of these; then it is passed."""
        found = self.symbols[self.at] if self.at < len(self.symbols) and self.symbols[self.at] in symbols else ""
        self.at += bool(found)
        return found

    def sum(self):
        found = self.product()
        while sign := self.may("+", "-"):
            other = self.product()
            found = found + other if sign == "+" else found - other
        return found

    def product(self):
        found = self.power()
        while sign := self.may("*", "/", "%"):
            other = self.power()
            if sign != "*" and not other:
                raise self.wrong(f"0 stands behind `{sign}`")
            found = found * other if sign == "*" else found // other if sign == "/" else found % other
        return found

    def power(self):
        found = self.atom()
        if self.may("^"):
            other = self.power()
            if not 0 <= other <= 64 or abs(found) > MOST:
                raise self.wrong("this power is too great")
            found = found ** other
        return found

    def atom(self):
        if self.may("("):
            return self.closed()
        symbol = self.symbols[self.at] if self.at < len(self.symbols) else ""
        self.at += 1
        if symbol.isdigit():
            return int(symbol)
        if symbol == "bits" and self.may("("):
            return max(1, self.closed().bit_length())
        if symbol not in self.values:
            raise self.wrong(f"`{symbol}` can't stand here" if symbol else "the expression ends too early")
        if isinstance(self.values[symbol], str):
            raise self.wrong(f"`{symbol}` is the name {self.values[symbol]}, and a number is wanted")
        return self.values[symbol]

    def closed(self):
        found = self.sum()
        if not self.may(")"):
            raise self.wrong("a bracket isn't closed")
        return found


class Template:
    """A module's text with names in braces; a text without any is a template too."""

    def __init__(self, file, text):
        self.file, self.declared, self.lines = file, {}, []
        for number, line in enumerate(text.splitlines(), 1):
            found = DECLARATION.fullmatch(line)
            if not found:
                self.lines.append((number, line))
                continue
            name, default, least, most, says = found.groups()
            if name in self.declared or name == "bits":
                raise Wrong(f"{file}:{number}:1: `{name}` can't be declared " + ("twice" if name in self.declared else "here"))
            limits = (int(least), int(most)) if most else (None, None)
            self.declared[name] = Declared(name, value_of(default) if default else None, *limits, says)
        for number, line in self.lines:
            for place in PLACE.finditer(line):
                self.check_names(f"{file}:{number}:{place.start() + 2}", place[1])

    def check_names(self, place, text):
        for name in re.findall(NAME, text):
            if name != "bits" and name not in self.declared:
                hint = near(name, self.declared) or f"; a line such as `{{{name} = 8: what it is}}` does"
                raise Wrong(f"{place}: nothing declares `{name}`{hint}")

    def values(self, given, found=None):
        """The value of each name: the given one, else the one that was found, else its own. A fault is a sentence, without a place."""
        for name in given:
            if name not in self.declared:
                has = f"it has {', '.join(self.declared)}" if self.declared else "it has no names at all"
                raise Wrong(f"{self.file} has no name `{name}`; {has}{near(name, self.declared)}")
        values = {}
        for name, it in self.declared.items():
            value = given.get(name, (found or {}).get(name, it.default))
            if value is None:
                raise Wrong(f"{self.file} wants a value of {name}, as `{name}=8`: {it.says}")
            if why := it.wrong(value):
                raise Wrong(f"{self.file}: {why}")
            values[name] = value
        return values

    def module(self, values):
        """The text of the module with these values, without the line by which it is known."""
        said = ", ".join(f"{name} = {value}" for name, value in values.items())

        def put(number, line):
            def value(place):
                def wrong(why):
                    return Wrong(f"{self.file}:{number}:{place.start() + 2}: `{place[0]}`{f', with {said}' if said else ''}: {why}")
                return str(Expression(place[1], values, wrong).value())
            return PLACE.sub(value, line)

        return "".join(f"{put(number, line)}\n" for number, line in self.lines)

    def type_text(self):
        """The type that the module gives, with its braces."""
        text = "\n".join(re.sub(r"#.*", "", line) for _, line in self.lines)
        return text.rpartition(":")[2].strip() if "export" in text else ""


def with_head(text, made_from):
    """A text that gos-make writes, with the line by which it is known."""
    return f"# By gos-make, from {made_from}; sum {zlib.crc32(text.encode()):08x}.\n{text}"


def is_made(text):
    """Whether a text has the first line of one that gos-make wrote."""
    return bool(HEAD.match(text))


def is_as_made(text):
    """Whether nothing has changed in a text since gos-make wrote it."""
    found = HEAD.match(text)
    return bool(found) and f"{zlib.crc32(text[found.end():].encode()):08x}" == found[1]


def tree_of(text):
    """A type as a tree, whose widths are digits or a name in braces; none where the text is no type."""
    tokens = re.findall(r"\{[^{}]*\}|->|\w+|\S", text)
    tree, at = arrow(tokens, 0)
    return tree if at == len(tokens) else None


def arrow(tokens, at):
    left, at = product(tokens, at)
    if left and tokens[at:at + 1] == ["->"]:
        right, at = arrow(tokens, at + 1)
        return (("fun", left, right) if right else None), at
    return left, at


def product(tokens, at):
    left, at = base(tokens, at)
    if left and tokens[at:at + 1] == ["*"]:
        right, at = product(tokens, at + 1)
        return (("pair", left, right) if right else None), at
    return left, at


def base(tokens, at):
    first, *rest = tokens[at:at + 2] or [""]
    if first == "com":
        return ("com",), at + 1
    if first in ("exp", "var") and rest and re.fullmatch(r"\d+|\{[^{}]*\}", rest[0]):
        return (first, rest[0] if rest[0][0] == "{" else int(rest[0])), at + 2
    if first == "(":
        tree, at = arrow(tokens, at + 1)
        return (tree if tokens[at:at + 1] == [")"] else None), at + 1
    return None, at


def found_in(pattern, tree):
    """The numbers that names in braces stand for, where a type with such ones is this type."""
    if not pattern or not tree or pattern[0] != tree[0]:
        return {}
    found = {}
    for one, other in zip(pattern[1:], tree[1:]):
        if isinstance(one, tuple):
            found = {**found_in(one, other), **found}
        elif isinstance(one, str) and re.fullmatch(NAME, one[1:-1].strip()):
            found.setdefault(one[1:-1].strip(), other)
    return found


def read(file, shown=""):
    """The template in a file, which is called as shown in what is said of it."""
    try:
        return Template(shown or file, Path(file).read_text())
    except (OSError, ValueError) as error:
        raise Wrong(f"{file}: {getattr(error, 'strerror', None) or 'this is no text'}") from error
