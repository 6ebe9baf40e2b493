"""A netlist as a circuit that runs, cycle by cycle (docs/FORMATS.md, "Netlist text"): what tools/gos-play and tools/gos-why run, and
under a trace tools/gos-cost and tools/gos-vcd.

A cell is settled anew only where a net that it names has changed. So a cycle costs what happens in it, however large the netlist
is, and it is known when nothing in a circuit moves any more.
"""
import heapq

import builds
from ports import Pin, handshakes_of, pins_of  # noqa: F401  (tools have them from here)

PINS = {"not": 1, "and": 2, "or": 2, "xor": 2, "mux": 3, "add": 2, "sub": 2, "eq": 2, "less": 2, "gate": 2, "reg": 1}


def cells_of(name, text):
    """The cells of a netlist's text, each as its word, its width and its numbers."""
    try:
        lines = text.split("\n")
        cells = []
        for line in lines[2 : 2 + int(lines[1].removeprefix("cells "))]:
            word, width, *numbers = line.split(" ")
            cells.append((word, int(width), [int(it) for it in numbers]))
            if len(numbers) != PINS.get(word, {"input": 0, "const": 1}.get(word)):
                raise ValueError
        if any(net >= len(cells) for word, _, numbers in cells if word in PINS for net in numbers):
            raise ValueError
        return cells
    except (ValueError, IndexError) as error:
        raise builds.Wrong(f"{name}: this is no netlist that is accepted; gos sim says where") from error


def pins_of_cell(cell):
    """The nets that a cell names."""
    return cell[2] if cell[0] in PINS else []


def shown(word, width, numbers, v):
    """What a cell shows, as a function of the nets v at the time when it is called."""
    mask = (1 << width) - 1
    if word in ("not", "gate", "mux"):
        s, a, b = (numbers + [0, 0])[:3]
        return {
            "not": lambda: ~v[s] & mask,
            "gate": lambda: v[a] if v[s] else 0,
            "mux": lambda: v[a] if v[s] else v[b],
        }[word]
    a, b = numbers
    return {
        "and": lambda: v[a] & v[b],
        "or": lambda: v[a] | v[b],
        "xor": lambda: v[a] ^ v[b],
        "add": lambda: (v[a] + v[b]) & mask,
        "sub": lambda: (v[a] - v[b]) & mask,
        "eq": lambda: int(v[a] == v[b]),
        "less": lambda: int(v[a] < v[b]),
    }[word]


class Circuit:
    """A run of a netlist from reset: `give` inputs, then `tick`, and so on. The nets are those of the present cycle."""

    def __init__(self, name, text):
        self.cells = cells_of(name, text)
        self.ports = builds.read_ports(name, text)
        self.pins = [pin for port in self.ports for pin in pins_of(port)]
        self.going_out = [pin for pin in self.pins if pin.is_output]
        self.nets = [cell[2][0] if cell[0] == "const" else 0 for cell in self.cells]
        self.users = [[] for _ in self.cells]
        for number, (word, _, numbers) in enumerate(self.cells):
            for net in set(numbers) if word in PINS else ():
                self.users[net].append(number)
        self.order = self.ordered(name)
        self.show = {net: shown(*self.cells[net], self.nets) for net in self.order}
        for net, show in self.show.items():
            self.nets[net] = show()
        # registers whose next value may be another one, and inputs that are not 0
        self.moving = {net for net, cell in enumerate(self.cells) if cell[0] == "reg"}
        self.given = {}

    def ordered(self, name):
        """The place of each cell that is settled in a cycle, so that each one stands behind those that it names."""
        waits = {net: 0 for net, cell in enumerate(self.cells) if cell[0] in PINS and cell[0] != "reg"}
        for net in waits:
            waits[net] = sum(it in waits for it in set(self.cells[net][2]))
        free, order = [net for net, count in waits.items() if not count], {}
        while free:
            net = free.pop()
            order[net] = len(order)
            for user in self.users[net]:
                if user in waits:
                    waits[user] -= 1
                    if not waits[user]:
                        free.append(user)
        if len(order) < len(waits):
            raise builds.Wrong(f"{name}: cells drive one another in a ring without a register; gos sim names them")
        return order

    def settle(self, changed):
        """Settles what follows from nets that have changed."""
        waiting, known = [], set()
        while changed or waiting:
            for net in changed:
                for user in self.users[net]:
                    if user not in self.order:
                        self.moving.add(user)
                    elif user not in known:
                        known.add(user)
                        heapq.heappush(waiting, (self.order[user], user))
            changed = []
            if waiting:
                _, net = heapq.heappop(waiting)
                value = self.show[net]()
                if value != self.nets[net]:
                    self.nets[net], changed = value, [net]

    def outputs(self):
        """The pulses that go out in this cycle, each as its pin and its value or none."""
        return [(it, self.nets[it.value_net] if it.bits else None) for it in self.going_out if self.nets[it.net]]

    def give(self, inputs):
        """Gives the inputs of this cycle, each as its pin and its value or none; all others are 0."""
        now = {}
        for pin, value in inputs:
            now[pin.net] = 1
            if pin.bits:
                now[pin.value_net] = value
        changed = [net for net in now.keys() | self.given.keys() if now.get(net, 0) != self.nets[net]]
        for net in changed:
            self.nets[net] = now.get(net, 0)
        self.given = now
        self.settle(changed)

    def tick(self):
        """Goes on to the next cycle. Says whether a register changed, or an input is still to go back to 0."""
        taken = [(net, self.nets[self.cells[net][2][0]]) for net in self.moving]
        changed = [(net, value) for net, value in taken if value != self.nets[net]]
        self.moving = set()
        for net, value in changed:
            self.nets[net] = value
        self.settle([net for net, _ in changed])
        return bool(changed) or bool(self.given)


def run_again(circuit, trace, pulses, cycles):
    """Runs a circuit by the inputs of a trace. Gives each cycle in which something happens; the circuit then stands in that cycle.

    The outputs of the trace have to be those of the circuit: else it is the trace of another netlist.
    """
    pins, given, wanted = {pin.name: pin for pin in circuit.pins}, {}, {}
    for cycle, name, value in pulses:
        if pins[name].is_output:
            wanted.setdefault(cycle, {})[name] = value
        else:
            given.setdefault(cycle, []).append((pins[name], value))
    cycle, coming = 0, sorted(given)
    while cycle < cycles:
        circuit.give(given.get(cycle, []))
        if wanted.pop(cycle, {}) != {pin.name: value for pin, value in circuit.outputs()}:
            raise builds.Wrong(f"{trace}: this is no trace of this netlist, which has other outputs in cycle {cycle}; gos sim writes one")
        yield cycle
        cycle += 1
        if not circuit.tick():
            # (nothing moves until something is given)
            cycle = next((it for it in coming if it >= cycle), cycles)
    if wanted:
        raise builds.Wrong(f"{trace}: this is no trace of this netlist, which has no output in cycle {min(wanted)}; gos sim writes one")
