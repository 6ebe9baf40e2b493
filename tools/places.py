"""The parts of a module's plan, each with its place in the source and the name that it is of: what tools/gos-cost and tools/gos-vcd tell
by name. A part stands before those of its operands, and the Shares of the names that two operands have stand before it, in the order
in which these names stand in the first one.
"""
from dataclasses import dataclass
from pathlib import Path

import builds
import plans
import terms

OPERATORS = {"+": "add", "-": "sub", "&": "and", "|": "or", "^": "xor", "=": "eq", "<": "less"}
KINDS = {"new": "local", "array": "array", **{it: it for it in "skip lit seq par if while not assign deref".split()}}
# The cells of a part that are registers of a pulse: in a cycle in which one of them is 1, a token waits there for the next cycle.
PULSES = {"while": [0], "local": [0, 3], "array": [2, 12, 13]}
# The cell of a part that answers its caller. Its caller's request is the first pin of its first cell, but for a while: there the first
# cell is a register, and the request the second pin of the second one.
ANSWERS = {"skip": 0, "lit": 0, "seq": 2, "seqexp": 2, "par": 6, "if": 4, "ifexp": 4, "while": 4, "not": 1, "assign": 3, "deref": 1,
           "local": 8, "array": 18, **dict.fromkeys(plans.OPERATORS, 5)}
# The cell of a local that is the register of its number; and of an array that of its first number, with how many cells to the next.
NUMBER, FIRST_NUMBER, EACH_NUMBER = 7, 24, 7


@dataclass
class Part:
    """A part: its kind, the name that it is of, or none, and its place as file, start and stop."""

    kind: str
    name: str
    place: tuple


def name_of(term):
    """The name at the head of a variable's term, or none."""
    while term.form in ("app", "fst", "snd"):
        term = term.parts[0]
    return term.said if term.form in ("bound", "import") else ""


def merged(left, right):
    """The Shares of the names that both sides have, and the names of both with their first places. A Share is at its name's second use."""
    shares = [Part("share", name, right[name]) for name in left if name in right]
    return shares, {**left, **{name: place for name, place in right.items() if name not in left}}


def own_part(term):
    """The part that a term has of its own, in a list; functions, applications, pairs and names have none."""
    kind = OPERATORS[term.said] if term.form == "bin" else KINDS.get(term.form)
    name = term.said[0] if term.form in ("new", "array") else name_of(term.parts[0]) if term.form in ("assign", "deref") else ""
    return [Part(kind, name, term.place)] if kind else []


def laid(term):
    """The parts of a term, in order, and its free names with the places where they stand first."""
    if term.form in ("bound", "import"):
        return [], {term.said: term.place}
    found = [laid(it) for it in term.parts]
    shares, names = [], {}
    for _, its in reversed(found):
        first, names = merged(its, names)
        shares = first + shares
    if term.form in ("fun", "new", "array"):
        names.pop(term.said[0], None)
    return shares + own_part(term) + [part for parts, _ in found for part in parts], names


def parts_of(source, data, plan):
    """The parts of a source, which have to be those of its plan."""
    try:
        found = laid(terms.read(source, data).body)[0]
    except terms.NoModule as error:
        raise builds.Wrong(str(error)) from error
    if [it.kind for it in found] != [words[0].removesuffix("exp") for words in plan.parts]:
        raise builds.Wrong(f"{source}: this is not the source of its object any more; gos build makes a new one")
    return found


@dataclass
class Placed:
    """A part of a netlist: its region (tools/plans.py), and its part of a source."""

    region: plans.Region
    part: Part

    def net(self, cell):
        return self.region.start + cell

    def pulses(self):
        """The nets of its registers in which a token waits for the next cycle."""
        kind = self.region.words[0]
        if kind != "share":
            return [self.net(it) for it in PULSES.get(kind, [])]
        found, at = [], self.region.start + 3
        for serves, asked, answered in plans.roles(plans.parse_type(self.region.words[1:])[0]):
            found += [at + 3] if serves else [at + 2, at + 3]
            at += len(plans.block_of(serves, asked, answered))
        return found

    def handshakes(self, cells):
        """The nets of the request and of the answer of each handshake by which the part is run. A Share is run by both its callers."""
        kind = self.region.words[0]
        if kind != "share":
            is_while = kind == "while"
            return [(cells[self.net(is_while)][2][is_while], self.net(ANSWERS[kind]))]
        found, at = [], self.region.start + 3
        for serves, asked, answered in plans.roles(plans.parse_type(self.region.words[1:])[0]):
            answer = at + 4 + 3 * bool(asked)
            found += zip(cells[at + 2][2], (answer, answer + 1)) if serves else []
            at += len(plans.block_of(serves, asked, answered))
        return found

    def numbers(self):
        """The nets of the registers of a local's number or of an array's numbers."""
        kind, *words = self.region.words
        if kind == "local":
            return [self.net(NUMBER)]
        return [self.net(FIRST_NUMBER + EACH_NUMBER * it) for it in range(int(words[1]))] if kind == "array" else []


def placed(name, build, cells):
    """The parts of a build's netlist with their places, and the bytes of its sources."""
    all_plans = plans.plans_of(name, build)
    regions = iter(plans.regions_of(build, all_plans, cells))
    texts, found = {}, []
    for it, plan in zip(build.instances, all_plans):
        builds.read_text(it.source)
        texts[it.source] = Path(it.source).read_bytes()
        found += [Placed(next(regions), part) for part in parts_of(it.source, texts[it.source], plan)]
    return found, texts


def outermost(build, found):
    """The part that answers what an instance gives, by the instance: the one of its whole term. None has a term that is a name, an
    application or a side of a pair."""
    for it in build.instances:
        body = terms.read(it.source, Path(it.source).read_bytes()).body
        own = [part for part in found if part.region.instance == it.name and part.part.kind != "share"]
        if own_part(body):
            yield it.name, own[0]


def line_of(place, texts):
    """The file of a place, and its line."""
    file, start, _ = place
    return file, texts[file].count(b"\n", 0, start) + 1


def column_of(place, texts):
    """The column of a place in its line, from 1 on."""
    file, start, _ = place
    return start - texts[file].rfind(b"\n", 0, start)
