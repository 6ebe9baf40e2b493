"""Modules as yosys writes them (RTLIL), and what is looked for in one before anything of it is made smaller or proved.

A bit is the name of a wire and a place in it, or a digit where it is a constant.
"""
import re
from dataclasses import dataclass, field

TOKEN = re.compile(r"[{}]|\[(\d+)(?::(\d+))?\]|(\d+)'([01xzm-]*)|\"(?:\\.|[^\"\\])*\"|-?\d+|[\\$]\S+")
COMBINATIONAL = {f"${word}" for word in (
    "not pos neg and or xor xnor reduce_and reduce_or reduce_xor reduce_xnor reduce_bool logic_not logic_and logic_or shl shr sshl sshr"
    " shift shiftx lt le eq ne eqx nex ge gt add sub mul mux pmux anyseq").split()}
# Cells of which each bit stands on those of the same place alone, but for that which selects.
BITWISE = {f"${word}" for word in "not pos and or xor xnor mux".split()}
# What isn't said of a value by the language itself, as that of a division by 0.
DIVISIONS = {f"${word}" for word in "div mod divfloor modfloor pow".split()}
REGISTER = "$dff"
NO_MEMORIES = "memories are not taken here, but a register for each element is"


@dataclass
class Wire:
    """A wire: its bits in all, `input` or `output` where it is a port, and its attributes."""

    width: int
    side: str
    attributes: dict


@dataclass
class Cell:
    """A cell: its type, its attributes, its parameters, and its pins with their bits, the least first."""

    sort: str
    attributes: dict
    parameters: dict = field(default_factory=dict)
    pins: dict = field(default_factory=dict)

    def outputs(self):
        return [bit for pin, bits in self.pins.items() if pin in ("Y", "Q") for bit in bits]

    def inputs(self):
        return [bit for pin, bits in self.pins.items() if pin not in ("Y", "Q") for bit in bits]


@dataclass
class Process:
    """An `always` as yosys first reads it: its place, the bits that it reads from outside or as they were before it, and the bits of
    the variables that it gives a value without an edge."""

    place: str
    reads: list = field(default_factory=list)
    writes: list = field(default_factory=list)


@dataclass
class Module:
    wires: dict = field(default_factory=dict)
    cells: list = field(default_factory=list)
    processes: list = field(default_factory=list)
    # pairs of bits: what is driven, and by what
    joints: list = field(default_factory=list)

    def bits_of(self, name):
        return [(name, at) for at in range(self.wires[name].width)]

    def ports(self, side):
        return [bit for name, wire in self.wires.items() if wire.side == side for bit in self.bits_of(name)]

    def place(self, bit):
        """Where a bit's wire is declared, as yosys says it."""
        return self.wires[bit[0]].attributes.get("src", "") if isinstance(bit, tuple) else ""

    def initial(self, bit):
        """The first value of a bit, as a digit."""
        digits = self.wires[bit[0]].attributes.get("init", "")
        return digits[-1 - bit[1]] if bit[1] < len(digits) else "x"


def constant(word):
    """The digits of a constant, or what is in a string."""
    if word.startswith('"'):
        return word[1:-1]
    return word.partition("'")[2] or f"{int(word) & (1 << 32) - 1:032b}"


def bits_of(module, text):
    """The bits of a signal's text, the least first."""
    parts = []
    for found in TOKEN.finditer(text):
        word = found[0]
        if word[0] in "\\$":
            parts.append(module.bits_of(word))
        elif word[0] == "[":
            high, low = int(found[1]), int(found[2] or found[1])
            parts[-1] = parts[-1][low : high + 1]
        elif word[0] == '"':
            parts.append([digit for letter in reversed(word[1:-1]) for digit in reversed(f"{ord(letter):08b}")])
        elif word[0] not in "{}":
            parts.append(list(reversed(constant(word))))
    return [bit for part in reversed(parts) for bit in part]


def process_of(module, place, lines):
    """The process whose lines come next, up to its end."""
    found, depth, sync = Process(place), 1, ""
    while depth:
        word, _, rest = next(lines).strip().partition(" ")
        depth += (word == "switch") - (word == "end")
        if word in ("switch", "case"):
            found.reads += bits_of(module, rest.replace(", ", " "))
        elif word == "assign":
            found.reads += bits_of(module, split_sides(rest)[1])
        elif word == "sync":
            sync = rest
        elif word == "update" and sync == "always":
            left, right = (bits_of(module, side) for side in split_sides(rest))
            # (variables of a function have no value behind it)
            found.writes += left if set(right) != {"x"} else []
    return found


def modules_of(text):
    """The modules of a text, by name."""
    modules, module, cell, attributes = {}, None, None, {}
    lines = iter(text.splitlines())
    for line in lines:
        word, _, rest = line.strip().partition(" ")
        if word == "attribute":
            name, _, said = rest.partition(" ")
            attributes[name[1:]] = constant(said)
            continue
        if word == "module":
            module = modules[rest] = Module()
        elif word == "wire":
            name = rest.split(" ")[-1]
            width, side = re.search(r"\bwidth (\d+)", rest), re.search(r"\b(input|output|inout) \d+", rest)
            module.wires[name] = Wire(int(width[1]) if width else 1, side[1] if side else "", attributes)
        elif word == "process":
            module.processes.append(process_of(module, attributes.get("src", ""), lines))
        elif word in ("cell", "memory"):
            cell = Cell(rest.split(" ")[0] if word == "cell" else word, attributes)
            module.cells.append(cell)
        elif word == "parameter":
            cell.parameters[rest.split(" ")[-2][1:]] = rest.split(" ")[-1]
        elif word == "connect":
            sides = rest.split(" ", 1) if cell else split_sides(rest)
            if cell:
                cell.pins[sides[0][1:]] = bits_of(module, sides[1])
            else:
                module.joints += zip(bits_of(module, sides[0]), bits_of(module, sides[1]))
        if word in ("end", "memory"):
            cell = None
        attributes = {}
    return modules


def split_sides(text):
    """The two signals of a line that joins them."""
    depth, at = 0, 0
    words = re.findall(r"\S+", text)
    for at, word in enumerate(words, 1):
        depth += (word == "{") - (word == "}")
        following = words[at] if at < len(words) else ""
        if not depth and not following.startswith("["):
            break
    return " ".join(words[:at]), " ".join(words[at:])


def shown(bit):
    """A bit's net as a user calls it, or none where it has no name of a user's."""
    return bit[0][1:] if isinstance(bit, tuple) and bit[0].startswith("\\") else ""


def wrong_cells(module, clock):
    """What is wrong with cells: each as where, and what."""
    for cell in module.cells:
        place = cell.attributes.get("src", "")
        if cell.sort in DIVISIONS:
            if not (all(isinstance(bit, str) for bit in cell.pins["B"]) and "1" in cell.pins["B"]) or cell.sort == "$pow":
                yield place, "what is divided by has to be a number other than 0"
        elif cell.sort == REGISTER:
            if cell.pins["CLK"] != [(clock, 0)] or constant(cell.parameters["CLK_POLARITY"])[-1] != "1":
                yield place, f"a register takes its value at `posedge {clock[1:]}` alone"
        elif "latch" in cell.sort:
            yield place, "what is said here for some cases alone would be a latch"
        elif "mem" in cell.sort:
            yield place, NO_MEMORIES
        elif "ff" in cell.sort:
            yield place, f"a register takes its value at `posedge {clock[1:]}` alone"
        elif cell.sort not in COMBINATIONAL:
            yield place, f"`{cell.sort.lstrip(chr(92))}` is not taken"


def wrong_drivers(module):
    """Nets that nothing drives although something reads them, and those that two things drive."""
    driven = set(module.ports("input"))
    for bit in [bit for cell in module.cells for bit in cell.outputs()] + [bit for bit, _ in module.joints]:
        if isinstance(bit, str):
            yield "", "a constant is driven"
        elif bit in driven:
            yield module.place(bit), f"`{shown(bit) or 'this'}` is driven twice"
        driven.add(bit)
    read = [bit for cell in module.cells for bit in cell.inputs()] + [bit for _, bit in module.joints] + module.ports("output")
    for bit in dict.fromkeys(read):
        if isinstance(bit, tuple) and bit not in driven:
            yield module.place(bit), f"nothing drives `{shown(bit) or 'this'}`"


def wrong_clocks(module, clock):
    """Reads of the clock as if it were a net like others."""
    for cell in module.cells:
        if any((clock, 0) in bits for pin, bits in cell.pins.items() if pin != "CLK"):
            yield cell.attributes.get("src", ""), f"`{clock[1:]}` is the clock, and has no value in a cycle"
    for bit, by in module.joints:
        if by == (clock, 0):
            yield module.place(bit), f"`{clock[1:]}` is the clock, and has no value in a cycle"


def without_first_value(module):
    """Registers of which some bit has no first value."""
    for cell in module.cells:
        if cell.sort == REGISTER:
            bit = next((bit for bit in cell.pins["Q"] if module.initial(bit) not in "01"), None)
            if bit:
                where = module.place(bit) if shown(bit) else cell.attributes.get("src", "")
                yield where, f"`{shown(bit) or 'this register'}` has no first value, as in `reg {shown(bit) or 'seen'} = 0;`"


def sources(module):
    """The bits that each bit stands on in the same cycle."""
    found = {bit: [by] for bit, by in module.joints}
    for cell in module.cells:
        if cell.sort == REGISTER:
            continue
        for at, bit in enumerate(cell.outputs()):
            pins = [bits for pin, bits in cell.pins.items() if pin != "Y"]
            found[bit] = [bits[min(at, len(bits) - 1)] for bits in pins] if cell.sort in BITWISE else cell.inputs()
    return found


def rings(module):
    """Nets that stand on themselves in the same cycle; one is enough."""
    below, done, open_now = sources(module), set(), set()
    waiting = list(below)
    while waiting:
        bit = waiting[-1]
        left = [it for it in below.get(bit, ()) if it in below and it not in done]
        if bit in done or not left:
            done.add(waiting.pop())
        elif bit in open_now:
            yield module.place(bit), f"`{shown(bit) or 'this'}` stands on itself, with no register between"
            return
        else:
            open_now.add(bit)
            waiting += left


def early_reads(module):
    """Each `always` without an edge that a simulator runs otherwise, as where, and what: one that reads a variable before it gives it
    a value, which is then the one from before; and one that reads nothing, which is never run."""
    below = sources(module)
    for process in module.processes:
        waiting, seen = list(process.reads), set()
        while waiting:
            bit = waiting.pop()
            if isinstance(bit, tuple) and bit not in seen:
                seen.add(bit)
                # (a net without a name is the value of an expression)
                waiting += [] if shown(bit) else below.get(bit, [])
        early = sorted(seen.intersection(process.writes))
        if early:
            yield process.place, f"`{shown(early[0])}` is read before it has its value"
        elif process.writes and not any(map(shown, seen)):
            yield process.place, "an `always @*` that reads nothing is never run by a simulator"


def faults(module, clock):
    """What is wrong with a module without processes, each as where, and what."""
    yield from ((it.place, "this `always` is not taken") for it in module.processes)
    yield from wrong_cells(module, clock)
    yield from wrong_drivers(module)
    yield from wrong_clocks(module, clock)
    yield from rings(module)


def misread(module, nets):
    """The nets of which `read:NET` isn't the input NET: a line of the user has made the name another one."""
    drivers = dict(module.joints)
    for net in nets:
        for at in range(module.wires[f"\\{net}"].width):
            bit = (f"\\read:{net}", at)
            while bit in drivers and bit != (f"\\{net}", at):
                bit = drivers[bit]
            if bit != (f"\\{net}", at):
                yield net
                break


def inputs_below(module, output):
    """The inputs that an output stands on, in this cycle or by registers."""
    drivers = {bit: [by] for bit, by in module.joints}
    for cell in module.cells:
        drivers.update(dict.fromkeys(cell.outputs(), cell.inputs()))
    waiting, seen = module.bits_of(output), set()
    while waiting:
        bit = waiting.pop()
        if bit not in seen and isinstance(bit, tuple):
            seen.add(bit)
            waiting += drivers.get(bit, [])
    return {bit[0][1:] for bit in seen if module.wires[bit[0]].side == "input"}
