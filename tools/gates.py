"""Circuits of two-input gates and latches: ASCII AIGER 1.0 as yosys and gos write it, and binary AIGER, which abc reads.

A literal is twice the number of a variable, and one more where it is inverted. 0 is false, and 1 is true.
"""
from dataclasses import dataclass, field

# What is known of a bit: that it is 0, that it is 1, or neither.
UNKNOWN = None


@dataclass
class Gates:
    """A circuit of gates. Inputs and latches are known by their literals, and each gate stands behind those that it names."""

    inputs: list = field(default_factory=list)
    # the literal of what each latch takes next; each is 0 at first
    nexts: dict = field(default_factory=dict)
    gates: dict = field(default_factory=dict)
    # literals by the names of outputs, and names by the literals of latches and inputs
    outputs: dict = field(default_factory=dict)
    names: dict = field(default_factory=dict)

    def both(self, one, other):
        """The literal that is true where two are."""
        literal = 2 + max([0, *self.inputs, *self.nexts, *self.gates])
        self.gates[literal] = (one, other)
        return literal

    def either(self, literals):
        """The literal that is true where one of some is."""
        none = 1
        for literal in literals:
            none = self.both(none, literal ^ 1)
        return none ^ 1

    def always(self, literal):
        """The literal that is true where one is, and was in all cycles before."""
        ended = 2 + max([0, *self.inputs, *self.nexts, *self.gates])
        self.nexts[ended] = 0
        still = self.both(literal, ended ^ 1)
        self.nexts[ended] = still ^ 1
        return still


def numbers_of(line, count):
    numbers = [int(word) for word in line.split()]
    if len(numbers) != count:
        raise ValueError
    return numbers


def read(text):
    """The circuit of a text in ASCII AIGER whose latches are all 0 at first. It is a ValueError where the text is another one."""
    lines = text.splitlines()
    word, _, *counts = lines[0].split()
    if word != "aag" or len(counts) != 4:
        raise ValueError
    inputs, latches, outputs, gates = map(int, counts)
    rows = iter(lines[1:])
    made = Gates(inputs=[numbers_of(next(rows), 1)[0] for _ in range(inputs)])
    made.nexts = dict(numbers_of(next(rows), 2) for _ in range(latches))
    shown = [numbers_of(next(rows), 1)[0] for _ in range(outputs)]
    unsorted = {row[0]: (row[1], row[2]) for row in (numbers_of(next(rows), 3) for _ in range(gates))}
    owners = {"i": made.inputs, "l": list(made.nexts)}
    for line in rows:
        if line == "c":
            break
        place, name = line.split(" ", 1)
        if place[0] == "o":
            made.outputs[name] = shown[int(place[1:])]
        else:
            made.names[owners[place[0]][int(place[1:])]] = name
    made.gates = {literal: unsorted[literal] for literal in in_order(unsorted, unsorted)}
    return made


def in_order(gates, wanted):
    """The gates that some literals stand on, each behind those that it names. It is a ValueError where some stand in a ring."""
    done, open_now, waiting = {}, set(), [literal & ~1 for literal in wanted]
    while waiting:
        literal = waiting[-1]
        left = [it & ~1 for it in gates.get(literal, ()) if it & ~1 in gates and it & ~1 not in done]
        if literal in done or literal not in gates or not left:
            waiting.pop()
            open_now.discard(literal)
            if literal in gates:
                done[literal] = True
        elif literal in open_now:
            raise ValueError("ring")
        else:
            open_now.add(literal)
            waiting += left
    return done


def value(values, literal):
    """What a literal is, by what the variables are."""
    known = values[literal & ~1]
    return known if known is UNKNOWN else known ^ (literal & 1)


def settled(made, inputs, latches):
    """What each variable is in a cycle, by what is known of inputs and of latches."""
    values = {0: 0, **inputs, **latches}
    for literal, (one, other) in made.gates.items():
        a, b = value(values, one), value(values, other)
        values[literal] = 0 if a == 0 or b == 0 else UNKNOWN if a is UNKNOWN or b is UNKNOWN else 1
    return values


def run(made, rows):
    """A run from the first state: for each cycle, of which a row gives the inputs, what each variable is."""
    latches = {literal: 0 for literal in made.nexts}
    for row in rows:
        values = settled(made, dict(zip(made.inputs, row)), latches)
        yield values
        latches = {literal: value(values, it) for literal, it in made.nexts.items()}


def at_end(made, rows):
    """What each variable is in the last cycle of a run."""
    values = {}
    for values in run(made, rows):
        pass
    return values


def cone(made, literal):
    """The circuit of one output, with all the inputs, and with those latches and gates that it stands on."""
    latches, waiting = set(), [literal]
    while waiting:
        below = in_order(made.gates, waiting)
        used = {it & ~1 for gate in below for it in made.gates[gate]} | {it & ~1 for it in waiting}
        found = {it for it in used if it in made.nexts} - latches
        latches |= found
        waiting = [made.nexts[it] for it in found]
    nexts = {it: following for it, following in made.nexts.items() if it in latches}
    gates = in_order(made.gates, [literal, *nexts.values()])
    return Gates(made.inputs, nexts, {it: made.gates[it] for it in gates}, {"": literal})


def packed(number):
    """A number as seven bits a byte, the least first, each but the last with its eighth bit set."""
    some = bytearray()
    while number > 127:
        some.append(number & 127 | 128)
        number >>= 7
    some.append(number)
    return bytes(some)


def binary(made):
    """The circuit in binary AIGER, with its variables numbered anew: inputs, latches, gates."""
    new = {0: 0}
    for literal in (*made.inputs, *made.nexts, *made.gates):
        new[literal] = 2 * len(new)
    by_new = {literal: new[literal & ~1] | literal & 1 for literal in (*made.nexts.values(), *made.outputs.values())}
    lines = [f"aig {len(new) - 1} {len(made.inputs)} {len(made.nexts)} {len(made.outputs)} {len(made.gates)}"]
    lines += [str(by_new[literal]) for literal in (*made.nexts.values(), *made.outputs.values())]
    body = bytearray()
    for literal, gate in made.gates.items():
        second, first = sorted(new[it & ~1] | it & 1 for it in gate)
        body += packed(new[literal] - first) + packed(first - second)
    return "".join(f"{line}\n" for line in lines).encode() + bytes(body)
