"""Plans as objects have them (docs/FORMATS.md, "Object text"), and which cells of a netlist are the gates of which part
(docs/CIRCUITS.md): what tools/gos-picture draws.

The cells of the parts stand last in a netlist, in the order of the instances and of their parts. Each kind of part has its own list
of cells, by which one knows whether a netlist is that of some objects.
"""
from dataclasses import dataclass
from pathlib import Path

import builds
from builds import Wrong

OPERATORS = "add sub and or xor eq less".split()
# The cells of each kind but Op, Local, Array and Share, which depend on more.
GATES = {
    "skip": "or", "lit": "or const gate", "seq": "or or or", "seqexp": "or or or gate", "par": "or or reg reg or or and xor xor xor xor",
    "if": "or and not and or", "ifexp": "or and not and or gate mux", "while": "reg or and not and", "not": "or or not gate",
    "assign": "or or gate or", "deref": "or or gate",
}
LOCAL = "reg or gate reg not gate mux reg or"
ARRAY = "reg or reg not and or reg mux reg not and and reg reg reg gate not const or"
ARRAY_NUMBER = "const eq and gate mux reg mux"


def parse_type(words):
    """The first type of these words, which stand in prefix order, and the words behind it."""
    first, rest = words[0], words[1:]
    if first in ("exp", "var"):
        return (first, int(rest[0])), rest[1:]
    if first in ("pair", "fun"):
        left, rest = parse_type(rest)
        right, rest = parse_type(rest)
        return (first, left, right), rest
    return (first,), rest


def type_text(ty, is_inner=False):
    """A type as the language writes it."""
    if ty[0] in ("pair", "fun"):
        sign = "*" if ty[0] == "pair" else "->"
        text = f"{type_text(ty[1], ty[1][0] in ('pair', 'fun'))} {sign} {type_text(ty[2], ty[0] == 'pair' and ty[2][0] == 'fun')}"
        return f"({text})" if is_inner else text
    return " ".join(map(str, ty))


def roles(ty, serves=True):
    """The handshakes of a type, in order: whether its holder serves each, and the bits of its request and of its answer."""
    if ty[0] == "com":
        return [(serves, 0, 0)]
    if ty[0] == "exp":
        return [(serves, 0, ty[1])]
    if ty[0] == "var":
        return [(serves, 0, ty[1]), (serves, ty[1], 0)]
    return roles(ty[1], serves if ty[0] == "pair" else not serves) + roles(ty[2], serves)


def handshakes(ty):
    """The handshakes of a type, as the bits of their requests and answers, in order."""
    return [(asked, answered) for _, asked, answered in roles(ty)]


def part_handshakes(words):
    """The handshakes of a part, by its line in the object text."""
    kind, *numbers = words
    if kind == "share":
        return 3 * handshakes(parse_type(numbers)[0])
    w = int(numbers[0]) if numbers else 0
    v = int(numbers[2]) if kind == "local" and len(numbers) > 2 else 0
    index, bits = (int(numbers[1]).bit_length() - 1, int(numbers[3]) if len(numbers) > 3 else 0) if kind == "array" else (0, 0)
    operators = dict.fromkeys(OPERATORS, [(0, w), (0, w), (0, 1 if kind in ("eq", "less") else w)])
    return {
        "skip": [(0, 0)], "lit": [(0, w)], "seq": [(0, 0)] * 3, "seqexp": [(0, 0), (0, w), (0, w)], "par": [(0, 0)] * 3,
        "if": [(0, 1), (0, 0), (0, 0), (0, 0)], "ifexp": [(0, 1), (0, w), (0, w), (0, w)], "while": [(0, 1), (0, 0), (0, 0)],
        "not": [(0, w)] * 2, "assign": [(0, w), (w, 0), (0, 0)], "deref": [(0, w)] * 2,
        "local": [(0, v), (0, w), (w, 0), (0, v)], "array": [(0, bits), (0, index), (0, w), (w, 0), (0, bits)], **operators,
    }[kind]


def counted(lines, word):
    """The lines behind the one that counts them with this word."""
    at = next(at for at, line in enumerate(lines) if line.startswith(word + " "))
    found = lines[at + 1 : at + 1 + int(lines[at].split(" ")[1])]
    if len(found) < int(lines[at].split(" ")[1]):
        raise ValueError
    return found


@dataclass
class Plan:
    """What a picture wants of an object: its imports with their types, the type of its result, and the words of its parts."""

    imports: dict
    result: tuple
    parts: list


def plan_of(name, text):
    """The plan of an object's text."""
    lines = text.split("\n")
    try:
        if lines[0] not in ("gosobj 1", "gosobj 2"):
            raise ValueError
        imports = {name: parse_type(ty)[0] for _, name, *ty in (line.split(" ") for line in counted(lines, "imports"))}
        result = parse_type(next(line for line in lines if line.startswith("result ")).split(" ")[1:])[0]
        parts = [line.split(" ") for line in counted(lines, "parts")]
        for words in parts:
            part_handshakes(words)
        return Plan(imports, result, parts)
    except (ValueError, KeyError, IndexError, StopIteration, RuntimeError) as error:
        raise Wrong(f"{name}: this is no object that is right; gos link says where it stops being one") from error


def gates_of(words):
    """The words of a part's cells, in order."""
    kind = words[0]
    if kind in OPERATORS:
        return f"or mux reg or and or reg xor xor mux {kind} gate".split()
    if kind == "local":
        return LOCAL.split() + ["gate"] * (words[2] == "exp")
    if kind == "array":
        return ARRAY.split() + ARRAY_NUMBER.split() * int(words[2]) + ["gate"] * (words[3] == "exp")
    if kind == "share":
        blocks = [cell for role in roles(parse_type(words[1:])[0]) for cell in block_of(*role)]
        return ["reg", "not", "const", *blocks, "or"]
    return GATES[kind].split()


def block_of(serves, asked, answered):
    """The words of a Share's cells for one handshake of its type."""
    if serves:
        request = ["mux", "or", "or", "reg"] + ["mux", "reg", "gate"] * bool(asked)
        return request + ["and", "and"] + ["gate", "gate"] * bool(answered)
    request = ["and", "and", "reg", "reg"] + ["reg", "gate", "gate"] * bool(asked)
    return request + ["or"] + ["mux", "gate"] * bool(answered)


@dataclass
class Region:
    """The cells of a part in a netlist: its instance, its number there and its words, its first cell and the one behind its last."""

    instance: str
    number: int
    words: list
    start: int
    stop: int

    @property
    def name(self):
        return f"{self.instance}.{self.number}"


def regions_of(build, plans, cells):
    """The regions of all parts of a build's netlist, in order; `plans` are those of its instances."""
    parts = [(it.name, number, words) for it, plan in zip(build.instances, plans) for number, words in enumerate(plan.parts)]
    wanted = [gates_of(words) for _, _, words in parts]
    start, found = len(cells) - sum(map(len, wanted)), []
    # (what stands before them is of ports and joints)
    is_right = start >= 0 and {cell[0] for cell in cells[:start]} <= {"input", "reg", "const"}
    for (instance, number, words), gates in zip(parts, wanted):
        if not is_right or [cell[0] for cell in cells[start:start + len(gates)]] != gates:
            raise Wrong(f"{build.files['net']}: this is no netlist of the objects that the build file names; gos link writes it")
        found.append(Region(instance, number, words, start, start + len(gates)))
        start += len(gates)
    return found


def plans_of(name, build):
    """The plans of the instances of a build file, in order."""
    for it in build.instances:
        if not Path(it.object).is_file():
            raise Wrong(f"{it.object} isn't there yet: gos build {name} writes it")
    return [plan_of(it.object, builds.read_text(it.object)) for it in build.instances]
