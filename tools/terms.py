"""Modules as terms, as the model of the language has them (docs/LANGUAGE.md, "Terms"), each part with its place in the text; and the text
of a term, with one place of it marked.

A bound variable keeps its name: nothing that is put for one has a free variable of its own, so nothing is captured. A term is never
changed, and terms share their parts.
"""
import sys
from dataclasses import dataclass

import grammar

# A term may be as deep as it is large.
sys.setrecursionlimit(2_000_000)
NOBODY = frozenset()
# The path of a part that is shown as a whole, beside which no other is marked.
WHOLE = (-1,)
SIDES = {"fst": 0, "snd": 1}


class NoModule(Exception):
    """A text that is no module: `gos check` says where it stops being one."""


class Term:
    """A term: its form, its parts in written order, what else it says, and its place in a text, as file, start and stop.

    The forms are those of the grammar; `bound` and `import` are names, `bin` is an operator. Forms of running terms alone are `loc` and
    `arr`, locations of a variable and of an array; `scope`, a block whose variable or array is at a location; `wait`, for event s of
    port p; `held`, k and an operator whose left side gave k; `put`, an assignment whose right side gave k.
    """

    __slots__ = ("form", "parts", "said", "place", "free", "ports", "size")

    def __init__(self, form, parts=(), said=None, place=None):
        self.form, self.parts, self.said, self.place = form, parts, said, place
        self.size = 1 + sum(it.size for it in parts)
        self.ports = joined(it.ports for it in parts)
        self.free = joined(it.free for it in parts)
        if form == "bound":
            self.free = frozenset((said,))
        elif form in ("fun", "new", "array") and said[0] in self.free:
            self.free -= {said[0]}
        elif form == "import":
            self.ports = frozenset((said,))
        elif form == "wait":
            self.ports = frozenset((said[0],))

    def with_part(self, at, part):
        parts = list(self.parts)
        parts[at] = part
        return Term(self.form, tuple(parts), self.said, self.place)

    def is_value(self):
        return self.form in ("skip", "lit")


def joined(sets):
    """The union of sets; one of them, where it has all."""
    found = NOBODY
    for it in sets:
        if not it <= found:
            found = it if found <= it else found | it
    return found


def put(term, name, given):
    """The term with a closed one put for a bound name."""
    if name not in term.free:
        return term
    if term.form == "bound":
        return given
    return Term(term.form, tuple(put(it, name, given) for it in term.parts), term.said, term.place)


def supplied(term, givers):
    """The term with closed terms put for imports, by their names."""
    if term.ports.isdisjoint(givers):
        return term
    if term.form == "import":
        return givers[term.said]
    return Term(term.form, tuple(supplied(it, givers) for it in term.parts), term.said, term.place)


@dataclass
class Module:
    """A module: its imports with their types, in order, its term and its type."""

    imports: dict
    body: Term
    type: tuple


class Reader:
    """Reads the tokens of a source by its grammar."""

    def __init__(self, file, data):
        self.file, (self.tokens, self.wrong) = file, grammar.tokens_of(data)
        self.at, self.scope = 0, []

    def peek(self):
        return self.tokens[self.at].kind if self.at < len(self.tokens) else ""

    def take(self, *kinds):
        """Takes a token of one of these kinds."""
        if self.peek() not in kinds:
            raise NoModule(f"{self.file}: this is no module; gos check says where it stops being one")
        self.at += 1
        return self.tokens[self.at - 1].text

    def may(self, *kinds):
        return self.take(*kinds) if self.peek() in kinds else ""

    def made(self, start, form, *parts, said=None):
        """A term whose first token has the number `start` and whose last one was just read."""
        return Term(form, parts, said, (self.file, self.tokens[start].start, self.tokens[self.at - 1].stop))

    def module(self):
        imports = {}
        while self.may("import"):
            name = self.take("name")
            self.take(":")
            imports.setdefault(name, self.type())
        self.take("export")
        body = self.term()
        self.take(":")
        module = Module(imports, body, self.type())
        if self.peek() or self.wrong is not None:
            self.take("the end")
        return module

    def type(self):
        left = self.product()
        return ("fun", left, self.type()) if self.may("->") else left

    def product(self):
        if self.may("("):
            left = self.type()
            self.take(")")
        else:
            word = self.take("com", "exp", "var")
            left = (word,) if word == "com" else (word, int(self.take("numeral")))
        return ("pair", left, self.product()) if self.may("*") else left

    def body_of(self, name):
        self.scope.append(name)
        body = self.term()
        self.scope.pop()
        return body

    def term(self):
        start = self.at
        if self.may("fun"):
            name = self.take("name")
            self.take(":")
            its = self.type()
            self.take(".")
            return self.made(start, "fun", self.body_of(name), said=(name, its))
        if self.may("new"):
            name = self.take("name")
            length = int(self.take("numeral")) if self.may("[") else 0
            if length:
                self.take("]")
            self.take(":")
            width = int(self.take("numeral"))
            self.take("in")
            said = (name, width, length) if length else (name, width)
            return self.made(start, "array" if length else "new", self.body_of(name), said=said)
        left = self.beside()
        return self.made(start, "seq", left, self.term()) if self.may(";") else left

    def beside(self):
        start, left = self.at, self.command()
        return self.made(start, "par", left, self.beside()) if self.may("||") else left

    def command(self):
        start = self.at
        if self.may("if"):
            test = self.term()
            self.take("then")
            first = self.command()
            self.take("else")
            return self.made(start, "if", test, first, self.command())
        if self.may("while"):
            test = self.term()
            self.take("do")
            return self.made(start, "while", test, self.command())
        left = self.compared()
        return self.made(start, "assign", left, self.compared()) if self.may(":=") else left

    def compared(self):
        start, left = self.at, self.chain(0)
        sign = self.may("=", "<")
        return self.made(start, "bin", left, self.chain(0), said=sign) if sign else left

    def chain(self, level):
        """Operators of one level, from left to right."""
        signs = (("&", "|", "^"), ("+", "-"))[level]
        start, left = self.at, self.chain(1) if level == 0 else self.applied()
        while sign := self.may(*signs):
            left = self.made(start, "bin", left, self.chain(1) if level == 0 else self.applied(), said=sign)
        return left

    def applied(self):
        start, left = self.at, self.prefixed()
        while self.peek() in grammar.FIRST["pre"]:
            left = self.made(start, "app", left, self.prefixed())
        return left

    def prefixed(self):
        start, word = self.at, self.may("not", "!", "fst", "snd")
        return self.made(start, "deref" if word == "!" else word, self.prefixed()) if word else self.atom()

    def atom(self):
        start, kind = self.at, self.peek()
        text = self.take("skip", "numeral", "name", "(")
        if kind == "skip":
            return self.made(start, "skip")
        if kind == "numeral":
            self.take(":")
            return self.made(start, "lit", said=(int(text), int(self.take("numeral"))))
        if kind == "name":
            return self.made(start, "bound" if text in self.scope else "import", said=text)
        inner = self.term()
        if self.may(","):
            other = self.term()
            self.take(")")
            return self.made(start, "both", inner, other)
        self.take(")")
        return inner


def read(file, data):
    """The module of a source, given as its bytes."""
    return Reader(file, data).module()


def type_text(its):
    """The text of a type."""
    if its[0] not in ("pair", "fun"):
        return " ".join(map(str, its))
    left, right = map(type_text, its[1:])
    left = f"({left})" if its[1][0] in ("fun", its[0]) else left
    right = f"({right})" if its[0] == "pair" and its[2][0] == "fun" else right
    return f"{left} {'*' if its[0] == 'pair' else '->'} {right}"


EVENTS = {"com": ("run", "done"), "exp": ("ask", "ans"), "var": ("read", "ans", "write", "done")}
# How tightly a form binds, and what its text is: words, and its parts by their numbers, each with how tightly it has to bind there.
TIGHT = 8
LAYOUTS = {
    "seq": (0, (0, 1), " ; ", (1, 0)), "par": (1, (0, 2), " || ", (1, 1)), "while": (2, "while ", (0, 0), " do ", (1, 2)),
    "if": (2, "if ", (0, 0), " then ", (1, 2), " else ", (2, 2)), "assign": (2, (0, 3), " := ", (1, 3)), "app": (6, (0, 6), " ", (1, 7)),
    "not": (7, "not ", (0, 7)), "deref": (7, "!", (0, 7)), "fst": (7, "fst ", (0, 7)), "snd": (7, "snd ", (0, 7)),
    "both": (TIGHT, "(", (0, 0), ", ", (1, 0), ")"), "skip": (TIGHT, "skip"),
}
# The levels of an operator's text and of its two sides.
SIGNS = {**dict.fromkeys("=<", (3, 4, 4)), **dict.fromkeys("&|^", (4, 4, 5)), **dict.fromkeys("+-", (5, 5, 6))}


def layout(term, names, ports):
    """The layout of a term, with names for locations, and the types of ports by their names."""
    said = term.said
    if term.form in LAYOUTS:
        return LAYOUTS[term.form]
    if term.form == "bin":
        level, left, right = SIGNS[said]
        return level, (0, left), f" {said} ", (1, right)
    if term.form == "held":
        level, _, right = SIGNS[said[1]]
        return level, f"{said[0]} {said[1]} ", (0, right)
    if term.form == "put":
        return 2, (0, 3), f" := {said}"
    if term.form == "fun":
        return 0, f"fun {said[0]} : {type_text(said[1])} . ", (0, 0)
    if term.form == "new":
        return 0, f"new {said[0]} : {said[1]} in ", (0, 0)
    if term.form == "array":
        return 0, f"new {said[0]}[{said[2]}] : {said[1]} in ", (0, 0)
    if term.form == "scope":
        return 0, f"new {names[said][0]} = {names[said][1]} in ", (0, 0)
    if term.form == "wait":
        return TIGHT, f"{said[0]}.{EVENTS[ports[said[0]][0]][said[1]]}?"
    texts = {"lit": lambda: f"{said[0]}:{said[1]}", "loc": lambda: names[said][0], "arr": lambda: names[said][0]}
    return TIGHT, texts.get(term.form, lambda: said)()


# Of these forms only so many items of the layout are marked: what else they have comes later, or not at all.
MARKED = {"seq": 1, "if": 2, "while": 2, "new": 1, "array": 1, "scope": 1}


class Text:
    """The text of a term, and where the marked place stands in it. A part beside that place is left out where it has more nodes than are
    to be shown."""

    def __init__(self, term, names, ports, path=None, most=None):
        self.names, self.ports, self.pieces, self.length, self.mark = names, ports, [], 0, None
        self.most = term.size if most is None else most
        self.put(term, 0, path)

    def __str__(self):
        return "".join(self.pieces)

    def say(self, text):
        self.pieces.append(text)
        self.length += len(text)

    def put(self, term, level, path):
        """The text of a part that has to bind so tightly, and the path from it to the marked place; it is none beside that path."""
        if path is None and term.size > self.most:
            self.say("..")
            return
        own, *items = layout(term, self.names, self.ports)
        self.say("(" if own < level else "")
        start = self.length
        for number, it in enumerate(items):
            if path == () and number == MARKED.get(term.form, len(items)):
                self.mark = start, self.length
            if isinstance(it, str):
                self.say(it)
            elif path == ():
                self.put(term.parts[it[0]], it[1], None if self.mark else WHOLE)
            else:
                below = path[1:] if path and path[0] == it[0] else None
                self.put(term.parts[it[0]], it[1], WHOLE if path == WHOLE else below)
        if path == () and not self.mark:
            self.mark = start, self.length
        self.say(")" if own < level else "")
