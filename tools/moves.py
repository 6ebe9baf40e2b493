"""Moves of the program of linked modules, as the model has them (docs/LANGUAGE.md, "How a term runs"): lists of moves are made again, and
one is found for the labels of a trace. This shares nothing with plans and circuits, and nothing with gos.
"""
import re
from dataclasses import dataclass, field

import terms
from terms import Term

LINE = re.compile(r"(?:([usl]) (\.|[012](?:\.[012])*)|r)\n")
SKIP = Term("skip")
OPERATORS = {
    "+": lambda k, j: k + j, "-": lambda k, j: k - j, "&": lambda k, j: k & j, "|": lambda k, j: k | j, "^": lambda k, j: k ^ j,
    "=": lambda k, j: int(k == j), "<": lambda k, j: int(k < j),
}
# Which part of a term is reached from it, and which is a head's head.
REACHED = {"seq": (0,), "par": (0, 1), "if": (0,), "bin": (0,), "held": (0,), "not": (0,), "assign": (1,), "scope": (0,)}
HEADS = ("app", "fst", "snd")
ACCESSES = ("deref", "put")


class CantBeMade(Exception):
    """A line of moves that can't be made."""


class NoMoves(Exception):
    """A text that is none of moves."""


@dataclass
class Program:
    """The program of linked modules: its root's name and type, the types of its ports by their names, and its term."""

    root: str
    type: tuple
    ports: dict
    body: Term


@dataclass
class Variable:
    """What a store has at a location: a name for it, a width, the numbers, and whether it is an array."""

    name: str
    width: int
    numbers: list
    is_array: bool

    def shown(self):
        return f"[{' '.join(map(str, self.numbers))}]" if self.is_array else str(self.numbers[0])


@dataclass
class Line:
    """A line of moves: `u`, `s`, `l` or `r`, and a path."""

    word: str
    path: tuple = ()

    def __str__(self):
        return self.word if self.word == "r" else f"{self.word} {'.'.join(map(str, self.path)) or '.'}"


@dataclass
class Happened:
    """What a line did: in words; and the label that it took, or none."""

    words: str
    label: tuple = None


@dataclass
class Stand:
    """Where moves lead: the running term, or none, the store, and how many labels are used."""

    term: Term = None
    store: dict = field(default_factory=dict)
    used: int = 0


def program_of(root, modules, binds):
    """The program of modules by their instances' names. A bind is a user, an import and a giver."""
    serving = {(user, name): giver for user, name, giver in binds}
    made, ports = {}, {}
    waiting = [root]
    while waiting:
        name = waiting[-1]
        givers = {its: serving[name, its] for its in modules[name].imports if (name, its) in serving}
        missing = [it for it in givers.values() if it not in made]
        if missing and len(waiting) <= len(modules):
            waiting.append(missing[0])
            continue
        waiting.pop()
        if name not in made:
            made[name] = terms.supplied(modules[name].body, {its: made[giver] for its, giver in givers.items()})
    for name, module in modules.items():
        ports.update({its: kind for its, kind in module.imports.items() if (name, its) not in serving})
    return Program(root, modules[root].type, ports, made[root])


def moves_of(text):
    """The lines of a text of moves."""
    head = re.match(r"gosmoves 1\nlines (0|[1-9][0-9]*)\n", text)
    found, at = [], head.end() if head else 0
    while head and (line := LINE.match(text, at)):
        path = () if line[2] in (None, ".") else tuple(map(int, line[2].split(".")))
        found.append(Line(line[1] or "r", path))
        at = line.end()
    if not head or int(head[1]) != len(found) or text[at:] != "end\n":
        raise NoMoves("this is no text of moves; gos verify says where it stops being one")
    return found


def text_of(lines):
    return "".join(["gosmoves 1\n", f"lines {len(lines)}\n", *(f"{it}\n" for it in lines), "end\n"])


def labels_of(program, pulses):
    """The labels of pulses, each a cycle, `PORT.EVENT` and a value or none: a port's name, the event's number, and the value or 0."""
    for _, name, value in pulses:
        port, _, event = name.partition(".")
        kind = program.type if port == program.root else program.ports[port]
        yield port, terms.EVENTS[kind[0]].index(event), value or 0


def part_at(term, path):
    for at in path:
        term = term.parts[at]
    return term


def replaced(term, path, part):
    """The term with another part at a path."""
    around = []
    for at in path:
        around.append((term, at))
        term = term.parts[at]
    for above, at in reversed(around):
        part = above.with_part(at, part)
    return part


def is_index(term, path):
    """Whether a path from `!` or a put leads to the index of an array of the program's own."""
    return path[:2] == (0, 1) and term.parts[0].form == "app" and term.parts[0].parts[0].form == "arr"


def reached(term, path, is_head=False):
    """The reached place at a path, or the head there; or none."""
    while path:
        if path[0] in REACHED.get(term.form, ()):
            term, path = term.parts[path[0]], path[1:]
        elif term.form in ACCESSES and is_index(term, path):
            term, path = term.parts[0].parts[1], path[2:]
        elif is_head and path[0] == 0 and term.form in HEADS + ACCESSES:
            term, path = term.parts[0], path[1:]
            if path and (term.form not in HEADS or set(path) != {0}):
                return None
            while path and term.form in HEADS:
                term, path = term.parts[0], path[1:]
            return None if path else term
        else:
            return None
    return term


def unfolded(term):
    """What a head becomes, and that in words; or none."""
    if term.form == "app" and term.parts[0].form == "fun":
        name = term.parts[0].said[0]
        return terms.put(term.parts[0].parts[0], name, term.parts[1]), f"{name} is put in"
    if term.form in terms.SIDES and term.parts[0].form == "both":
        side = terms.SIDES[term.form]
        return term.parts[0].parts[side], f"the {('first', 'second')[side]} side"
    return None


def located(term, store):
    """The location and the index that a variable's or an array's term stands for, with its name; or none."""
    if term.form == "loc" and term.said in store:
        return term.said, 0, store[term.said].name
    if term.form == "app" and term.parts[0].form == "arr" and term.parts[1].form == "lit" and term.parts[0].said in store:
        at, index = term.parts[0].said, term.parts[1].said[0]
        return (at, index, f"{store[at].name} {index}") if index < len(store[at].numbers) else None
    return None


def new_name(name, store):
    """The name, with a stroke for each other variable of this name that there is."""
    while any(it.name == name for it in store.values()):
        name += "'"
    return name


def computed(term, store):
    """What a computation step at the whole term makes of it and of the store, and that in words; or none."""
    parts, said = term.parts, term.said
    values = [it.said if it.form == "lit" else None for it in parts]

    def made(form, *its, said=None):
        return Term(form, its, said, term.place)

    if term.form == "seq" and parts[0].form == "skip":
        return parts[1], store, "goes on"
    if term.form == "par" and parts[0].form == parts[1].form == "skip":
        return made("skip"), store, "both are done"
    if term.form == "if" and values[0]:
        return parts[1 if values[0][0] else 2], store, "then" if values[0][0] else "else"
    if term.form == "while":
        return made("if", parts[0], made("seq", parts[1], term), made("skip")), store, "looks at the test"
    if term.form == "bin" and values[0]:
        return made("held", parts[1], said=(values[0][0], said)), store, f"the left side is {values[0][0]}"
    if term.form == "held" and values[0]:
        (k, sign), (j, width) = said, values[0]
        result = OPERATORS[sign](k, j) % 2 ** width, 1 if sign in "=<" else width
        return made("lit", said=result), store, f"is {result[0]}"
    if term.form == "not" and values[0]:
        k, width = values[0]
        return made("lit", said=(2 ** width - 1 - k, width)), store, f"is {2 ** width - 1 - k}"
    if term.form == "assign" and values[1]:
        return made("put", parts[0], said=values[1][0]), store, f"{values[1][0]} is to be written"
    if term.form in ("new", "array"):
        place = next(it for it in range(len(store) + 1) if it not in store)
        array = term.form == "array"
        numbers = [0] * (said[2] if array else 1)
        variable = Variable(new_name(said[0], store), said[1], numbers, array)
        body = terms.put(parts[0], said[0], made("arr" if array else "loc", said=place))
        return made("scope", body, said=place), {**store, place: variable}, f"{variable.name} begins, with 0"
    if term.form == "scope" and parts[0].is_value():
        return parts[0], {at: it for at, it in store.items() if at != said}, f"{store[said].name} ends"
    if term.form in ACCESSES and (found := located(parts[0], store)):
        place, index, name = found
        old = store[place]
        if term.form == "deref":
            return made("lit", said=(old.numbers[index], old.width)), store, f"{name} is {old.numbers[index]}"
        numbers = [said if at == index else it for at, it in enumerate(old.numbers)]
        return made("skip"), {**store, place: Variable(old.name, old.width, numbers, old.is_array)}, f"{name} becomes {said}"
    return None


def shown(term, program):
    """The port and the event of the label at a place, what the term becomes by a value, and the value or its width; or none."""
    kind = ()
    if term.form == "import":
        kind, name = program.ports.get(term.said, ()), term.said
    elif term.form in ACCESSES and term.parts[0].form == "import":
        name = term.parts[0].said
        kind = program.ports.get(name, ())

    def waits(event):
        return lambda value: Term("wait", (), (name, event), term.place)

    if term.form == "wait":
        (name, event), kind = term.said, program.ports[term.said[0]]
        if event == 1 and kind[0] != "com":
            return name, event, lambda value: Term("lit", (), (value, kind[1]), term.place), (None, kind[1])
        return name, event, lambda value: Term("skip", (), None, term.place), (0, 0)
    if term.form == "import" and kind[:1] in (("com",), ("exp",)):
        return name, 0, waits(1), (0, 0)
    if term.form == "deref" and kind[:1] == ("var",):
        return name, 0, waits(1), (0, 0)
    if term.form == "put" and kind[:1] == ("var",):
        return name, 2, waits(3), (term.said, 0)
    return None


def takes(found, label):
    """Whether a label is the one at a place."""
    name, event, _, (value, width) = found
    return label[:2] == (name, event) and (label[2] == value if value is not None else label[2] < 2 ** width)


def answer_of(term):
    """The number that the program's answer has where the term is a value; or none."""
    return {"skip": 0}.get(term.form, term.said[0] if term.form == "lit" else None)


def made(program, labels, stand, line):
    """Where a line leads, and what happened."""
    label = labels[stand.used] if stand.used < len(labels) else None
    if line.word == "r" and stand.term is None and label == (program.root, 0, 0):
        return Stand(program.body, {}, stand.used + 1), Happened("", label)
    if line.word == "r" and stand.term and label and label == (program.root, 1, answer_of(stand.term)):
        return Stand(None, {}, stand.used + 1), Happened("", label)
    place = reached(stand.term, line.path, line.word == "u") if stand.term and line.word != "r" else None
    if place and line.word == "u" and (found := unfolded(place)):
        part, words = found
        return Stand(replaced(stand.term, line.path, part), stand.store, stand.used), Happened(words)
    if place and line.word == "s" and (found := computed(place, stand.store)):
        part, store, words = found
        return Stand(replaced(stand.term, line.path, part), store, stand.used), Happened(words)
    if place and line.word == "l" and label and (found := shown(place, program)) and takes(found, label):
        return Stand(replaced(stand.term, line.path, found[2](label[2])), stand.store, stand.used + 1), Happened("", label)
    raise CantBeMade(str(line))


def needed(program, stand, label):
    """The next line for a label, which needs no other branch of a `||` than those on the way to its port; or none where it can't come."""
    term, path = stand.term, ()
    if term.is_value():
        return Line("r") if label == (program.root, 1, answer_of(term)) else None
    while True:
        if computed(term, stand.store):
            return Line("s", path)
        found = shown(term, program)
        if found:
            return Line("l", path) if takes(found, label) else None
        if term.form in ACCESSES and is_index(term, (0, 1)):
            term, path = term.parts[0].parts[1], (*path, 0, 1)
            continue
        if term.form in HEADS + ACCESSES:
            while term.form in ACCESSES or term.parts[0].form in HEADS:
                term, path = term.parts[0], (*path, 0)
                if term.form not in HEADS:
                    return None
            return Line("u", path) if unfolded(term) else None
        ways = REACHED.get(term.form)
        if not ways:
            return None
        at = ways[0]
        if term.form == "par":
            at = int(label[0] in term.parts[1].ports or label[0] not in term.parts[0].ports and term.parts[0].form == "skip")
        term, path = term.parts[at], (*path, at)


def explained(program, labels, most=1_000_000):
    """Lines that make moves with these labels; and how many labels they have, fewer where the next one can't come, or not in so many
    lines."""
    stand, lines = Stand(), []
    while stand.used < len(labels) and len(lines) < most:
        line = needed(program, stand, labels[stand.used]) if stand.term else Line("r")
        try:
            stand, _ = made(program, labels, stand, line or Line("r"))
        except CantBeMade:
            return lines, stand.used
        lines.append(line)
    return lines, stand.used
