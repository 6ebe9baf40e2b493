"""Circuits for the benches, each by a seeded choice, and their texts: a netlist, pulses, and Verilog.

They are made of tiles of some 350 cells with 20 layers of gates of all words. Each layer has two registers too: one adds up
what a gate shows, while the tile's enabling net is 1, and one takes over a net of the tile before. So a tile that is
enabled goes on changing, and one that isn't comes to rest. Gates take nets that nothing reads yet before others, so that
few cells stand there for nothing.
"""

import random
from collections import deque
from dataclasses import dataclass, field

TILE, LAYERS = 350, 20
# A gate's word, its pins' widths and its own. The last pin has a byte.
GATES = [
    ('add', (8, 8), 8), ('sub', (8, 8), 8), ('xor', (8, 8), 8), ('and', (8, 8), 8), ('or', (8, 8), 8), ('not', (8,), 8),
    ('mux', (1, 8, 8), 8), ('gate', (1, 8), 8), ('eq', (8, 8), 1), ('less', (8, 8), 1),
]
BYTES = [gate for gate in GATES if gate[2] == 8]
VERILOG = {
    'add': '{} + {}', 'sub': '{} - {}', 'xor': '{} ^ {}', 'and': '{} & {}', 'or': '{} | {}', 'not': '~{}',
    'mux': '{} ? {} : {}', 'gate': '{} ? {} : 0', 'eq': '{} == {}', 'less': '{} < {}', 'const': '{}',
}
# The nets of an import of each type: the cells that show them, and their widths.
IMPORTS = {
    'com': [('reg', 1), ('input', 1)],
    'exp 8': [('reg', 1), ('input', 1), ('input', 8)],
    'var 8': [('reg', 1), ('input', 1), ('input', 8), ('reg', 1), ('reg', 8), ('input', 1)],
}


@dataclass
class Circuit:
    """Cells, each its word, its width and its pins or constant; ports, each its words and nets; and whether it is asked."""
    choose: random.Random
    asked: bool = True
    cells: list = field(default_factory=list)
    ports: list = field(default_factory=list)

    def add(self, word, width, *operands):
        """Adds a cell, and gives its net."""
        self.cells.append((word, width, operands))
        return len(self.cells) - 1


class Nets:
    """The nets of one width that may be read: those that nothing reads yet, and the last ones."""

    def __init__(self, nets=()):
        self.unread, self.last = deque(nets), deque(nets, 64)

    def add(self, net):
        self.unread.append(net)
        self.last.append(net)

    def take(self, choose):
        return self.unread.popleft() if self.unread else choose.choice(self.last)


def begin(seed, asked):
    """A circuit with nets that are 1 once it is asked, always 0, and the number 1, but no gate could tell so: two registers read
    each other, and always show the same."""
    circuit = Circuit(random.Random(seed), asked)
    ask = circuit.add('input', 1)
    on, other = circuit.add('reg', 1, 4), circuit.add('reg', 1, 3)
    circuit.add('or', 1, on, ask)
    circuit.add('or', 1, other, ask)
    return circuit, on, circuit.add('xor', 1, on, other), circuit.add('const', 8, 1)


def end(circuit, off, nets):
    """Ends a circuit with the port that it gives, whose answer never comes."""
    last = circuit.add('and', 1, off, nets[1].last[-1])
    circuit.ports.insert(0, ('give main com', (0, circuit.add('reg', 1, last))))
    return circuit


def adder(circuit, on, net):
    """Adds a register that adds up a net while another one is 1."""
    own = circuit.add('reg', 8, len(circuit.cells) + 2)
    circuit.add('add', 8, own, circuit.add('gate', 8, on, net))
    return own


def tile(circuit, size, layers, on, one, before):
    """Adds a tile of so many cells, which takes over nets of the one before, if there is one. Gives its own nets."""
    start = len(circuit.cells)
    nets = {1: Nets([on]), 8: Nets([one])}
    below = [one]
    for n in range(layers):
        below = layer(circuit, start + size * (n + 1) // layers, on, below, nets, before or nets)
    return nets


def layer(circuit, stop, on, below, nets, before):
    """Adds a layer up to a cell, whose gates each read a net of a byte of the layer below. Gives its own such nets."""
    choose, width = circuit.choose, circuit.choose.choice([1, 8, 8, 8])
    nets[8].add(adder(circuit, on, choose.choice(below)))
    made = [(circuit.add('reg', width, before[width].take(choose)), width)]
    while len(circuit.cells) < stop:
        word, widths, width = choose.choice(GATES if len(made) > 1 else BYTES)
        pins = [nets[w].take(choose) for w in widths[:-1]]
        made.append((circuit.add(word, width, *pins, choose.choice(below)), width))
    for net, width in made:
        nets[width].add(net)
    return [net for net, width in made[1:] if width == 8]


def tiled(size, layers=LAYERS, tiles=None, asked=True, active=None):
    """A circuit of so many cells in tiles, of which so many are enabled when it is asked, the last ones, or else all."""
    circuit, on, off, one = begin(size, asked)
    tiles = tiles or max(1, size // TILE)
    nets = None
    for n in range(tiles):
        here = (size - 2 - len(circuit.cells)) // (tiles - n)
        nets = tile(circuit, here, layers, off if active and tiles - n > active else on, one, nets)
    return end(circuit, off, nets)


def many_ports(imports):
    """A circuit that takes so many imports, of all types in turn. It asks none of them, as it isn't asked itself."""
    circuit, on, off, one = begin(imports, False)
    for n in range(imports):
        kind = list(IMPORTS)[n % len(IMPORTS)]
        pins = {1: off, 8: one}
        nets = [circuit.add(word, width, *([pins[width]] if word == 'reg' else [])) for word, width in IMPORTS[kind]]
        circuit.ports.append((f'take p{n} {kind}', nets))
    return end(circuit, off, {1: Nets([on]), 8: Nets([one])})


def netlist(circuit):
    lines = ['gosnet 1', f'cells {len(circuit.cells)}']
    lines += [' '.join([word, str(width), *map(str, operands)]) for word, width, operands in circuit.cells]
    lines += [f'ports {len(circuit.ports)}'] + [' '.join([words, *map(str, nets)]) for words, nets in circuit.ports]
    return '\n'.join(lines + ['end', ''])


def pulses(circuit, cycles):
    return f'cycles {cycles}\n' + ('next 0 main.run\n' if circuit.asked else '')


def inputs(circuit):
    """The nets of the input cells, with their widths."""
    return [(n, width) for n, (word, width, _) in enumerate(circuit.cells) if word == 'input']


def verilog(circuit):
    """A module `circuit` with the same cells. Its inputs are `clk` and the input cells, its outputs the registers of ports."""
    outs = [n for _, nets in circuit.ports for n in nets if circuit.cells[n][0] == 'reg']
    ports = ['input clk'] + [f'input [{width - 1}:0] n{n}' for n, width in inputs(circuit)]
    ports += [f'output [{circuit.cells[n][1] - 1}:0] o{n}' for n in outs]
    lines = [f'module circuit({", ".join(ports)});']
    for n, (word, width, _) in enumerate(circuit.cells):
        if word != 'input':
            lines.append(f'  reg [{width - 1}:0] n{n} = 0;' if word == 'reg' else f'  wire [{width - 1}:0] n{n};')
    for n, (word, _, operands) in enumerate(circuit.cells):
        if word == 'reg':
            lines.append(f'  always @(posedge clk) n{n} <= n{operands[0]};')
        elif word != 'input':
            names = operands if word == 'const' else [f'n{pin}' for pin in operands]
            lines.append(f'  assign n{n} = {VERILOG[word].format(*names)};')
    return '\n'.join(lines + [f'  assign o{n} = n{n};' for n in outs] + ['endmodule', ''])
