"""A module of Verilog (IEEE 1364-2005) is read and run, one clock edge after another, by nobody's tool but this page.

It takes what gos writes and little more: ports, wires and registers that are vectors, `assign` of one operator, a choice or a
constant, and registers with a reset. Numbers are unsigned, and an expression is as wide as what it is assigned to or its widest
operand (5.4.1), but for comparisons, whose operands are as wide as the wider of them.
"""
import re
from dataclasses import dataclass, field
from graphlib import TopologicalSorter

DECLARED = re.compile(r"(input|output|wire|reg)(?: \[(\d+):0\])? (\w+);")
ASSIGNED = re.compile(r"assign (\w+) = (.+);")
CLOCKED = re.compile(r"always @\(posedge clk\) if \(rst\) (\w+) <= (\S+); else (\w+) <= (\w+);")
NUMBER = re.compile(r"(\d+)'d(\d+)")
CHOICE = re.compile(r"(\S+) \? (\S+) : (\S+)")
PAIR = re.compile(r"(\S+) ([-+|&^]|==|<) (\S+)")


@dataclass
class Module:
    bits: dict = field(default_factory=dict)
    inputs: list = field(default_factory=list)
    outputs: list = field(default_factory=list)
    assigned: dict = field(default_factory=dict)
    # Of each register its number after a reset, and what it takes at an edge.
    clocked: dict = field(default_factory=dict)


def read(text):
    """The one module of a text. A line of another form is no module that is taken here."""
    head, *lines, end = [line.strip() for line in text.splitlines()]
    if not head.startswith("module ") or end != "endmodule":
        raise ValueError("no module")
    module = Module()
    for line in lines:
        if found := DECLARED.fullmatch(line):
            kind, high, name = found.groups()
            module.bits[name] = int(high or 0) + 1
            {"input": module.inputs, "output": module.outputs}.get(kind, []).append(name)
        elif found := ASSIGNED.fullmatch(line):
            module.assigned[found[1]] = found[2]
        elif (found := CLOCKED.fullmatch(line)) and found[1] == found[3]:
            module.clocked[found[1]] = number(found[2]), found[4]
        else:
            raise ValueError(f"no line of a module: {line}")
    return module


def number(text):
    """A number with its width, cut to it."""
    bits, value = map(int, NUMBER.fullmatch(text).groups())
    return value & (1 << bits) - 1


def operand(module, text):
    """An operand as Python says it, and its bits."""
    if found := NUMBER.fullmatch(text):
        return str(number(text)), int(found[1])
    return f"s[{text!r}]", module.bits[text]


def expression(module, name, text):
    """What is assigned to a name, as Python says it."""
    mask = (1 << module.bits[name]) - 1
    if found := CHOICE.fullmatch(text):
        test, one, other = (operand(module, it)[0] for it in found.groups())
        return f"({one} if {test} else {other}) & {mask}"
    if found := PAIR.fullmatch(text):
        (left, _), (right, _) = operand(module, found[1]), operand(module, found[3])
        return f"int({left} {found[2]} {right})" if found[2] in ("==", "<") else f"({left} {found[2]} {right}) & {mask}"
    if text.startswith("~"):
        return f"~{operand(module, text[1:])[0]} & {mask}"
    return f"{operand(module, text)[0]} & {mask}"


def compiled(module):
    """A function that gives each net its value, from those of the inputs and registers: no net comes before what it needs."""
    needs = {name: [it for it in re.findall(r"[A-Za-z_]\w*", text.replace("'d", "'")) if it in module.assigned]
             for name, text in module.assigned.items()}
    order = list(TopologicalSorter(needs).static_order())
    lines = "".join(f" s[{name!r}] = {expression(module, name, module.assigned[name])}\n" for name in order)
    made = {}
    exec(f"def settle(s):\n{lines or ' pass'}", made)
    return made["settle"]


def first_difference(text, rows):
    """The first cycle whose outputs aren't those wanted; none where all are. A row has the inputs and the outputs of a cycle."""
    module = read(text)
    settle = compiled(module)
    state = {name: value for name, (value, _) in module.clocked.items()}
    cycle = 0
    while cycle < len(rows):
        given, wanted = rows[cycle]
        before = {name: state[name] for name in module.clocked}
        state.update(given)
        settle(state)
        if any(state[name] != value for name, value in wanted.items()):
            return cycle
        state.update({name: state[taken] for name, (_, taken) in module.clocked.items()})
        cycle += 1
        if all(state[name] == value for name, value in before.items()):
            # (nothing changes until something else comes in)
            while cycle < len(rows) and rows[cycle] == (given, wanted):
                cycle += 1
    return None
