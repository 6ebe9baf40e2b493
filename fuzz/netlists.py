"""Netlists that are accepted, of random cells behind random ports, and pulse files for them; and such that are changed."""

import changes
import pulses
from case import command, lines

WIDTHS = (1, 1, 1, 2, 8, 32, 33, 63, 64)
# The nets of a port of each side and type in order: the cells that show them, and whether they have the type's width.
NETS = {
    ('give', 'com'): [('input', False), ('reg', False)],
    ('give', 'exp'): [('input', False), ('reg', False), ('reg', True)],
    ('take', 'com'): [('reg', False), ('input', False)],
    ('take', 'exp'): [('reg', False), ('input', False), ('input', True)],
    ('take', 'var'): [('reg', False), ('input', False), ('input', True), ('reg', False), ('reg', True), ('input', False)],
}
# A gate's pins, each of one bit or as wide as the cell.
PINS = {
    'not': 'w', 'and': 'ww', 'or': 'ww', 'xor': 'ww', 'mux': '1ww', 'add': 'ww', 'sub': 'ww', 'gate': '1w', 'reg': 'w',
}


class Circuit:
    """Cells, each its word, its width and its operands; nets by their width; and ports, each its words and nets."""

    def __init__(self, choose):
        self.choose = choose
        self.cells, self.ports, self.nets = [], [], {}

    def add(self, word, width, *operands):
        self.cells.append([word, width, *operands])
        self.nets.setdefault(width, []).append(len(self.cells) - 1)
        return len(self.cells) - 1

    def net(self, width):
        """A net of this width, a constant where there is none."""
        if width not in self.nets:
            self.add('const', width, self.choose.randrange(2 ** width))
        return self.choose.choice(self.nets[width])

    def gate(self):
        """Adds a gate, a constant or a register, of which the pins come before it."""
        width, word = self.choose.choice(WIDTHS), self.choose.choice(['eq', 'less', 'const', *PINS])
        if word == 'const':
            return self.add('const', width, self.choose.randrange(2 ** width))
        if word in ('eq', 'less'):
            return self.add(word, 1, self.net(width), self.net(width))
        return self.add(word, width, *[self.net(1 if pin == '1' else width) for pin in PINS[word]])

    def port(self, side, name, kind):
        """Adds a port with cells of its own; its registers get their pins when all cells are there."""
        nets = [self.add(word, kind[1] if is_wide else 1) for word, is_wide in NETS[side, kind[0]]]
        self.ports.append([side, name, kind, nets])

    def end(self):
        """Gives each register of a port a pin."""
        for cell in list(self.cells):
            if cell[0] == 'reg' and len(cell) == 2:
                cell.append(self.net(cell[1]))

    def bent(self):
        """Gives a cell a pin that comes behind it, so that there may be a ring, or any, which may not be there or not fit."""
        gates = [n for n, cell in enumerate(self.cells) if len(cell) > 2 and cell[0] != 'const']
        if gates:
            number = self.choose.choice(gates)
            cell = self.cells[number]
            pin = self.choose.randrange(2, len(cell))
            behind = [net for net in self.nets[self.cells[cell[pin]][1]] if net >= number]
            cell[pin] = self.choose.choice(behind) if behind else self.choose.randrange(len(self.cells) + 1)

    def shuffled(self):
        """Puts the cells into another order."""
        place = list(range(len(self.cells)))
        self.choose.shuffle(place)
        cells = [None] * len(place)
        for n, (word, width, *operands) in enumerate(self.cells):
            cells[place[n]] = [word, width, *(operands if word == 'const' else [place[pin] for pin in operands])]
        self.cells = cells
        for port in self.ports:
            port[3] = [place[net] for net in port[3]]

    def text(self):
        cells = [' '.join(map(str, cell)) for cell in self.cells]
        ports = [' '.join(map(str, [side, name, *kind, *nets])) for side, name, kind, nets in self.ports]
        return lines('gosnet 1', f'cells {len(cells)}', *cells, f'ports {len(ports)}', *ports, 'end')


def circuit(choose, size, taken):
    """A circuit of about so many gates, which takes so many ports."""
    made = Circuit(choose)
    made.port('give', 'main', choose.choice((('com',), ('exp', choose.choice(WIDTHS)))))
    for n in range(taken):
        made.port('take', f'p{n}', choose.choice((('com',), ('exp', choose.choice(WIDTHS)), ('var', choose.choice(WIDTHS)))))
    for _ in range(size):
        made.gate()
    made.end()
    return made


def events_of(made):
    return pulses.events_of([(side, name, kind) for side, name, kind, _ in made.ports])


def ran(net, pulse_file):
    return command('sim a.net in.pls out.trc', {'a.net': net, 'in.pls': pulse_file})


def rewritten(choose, net, pulse_file):
    """A case of `tidy` or `gates`; the pulse file lies beside it."""
    return command(choose.choice(('tidy', 'gates')) + ' a.net out.net', {'a.net': net, 'in.pls': pulse_file})


def case(choose):
    """A case of `sim`, `tidy` or `gates` whose netlist may be changed."""
    made = circuit(choose, choose.choice((0, 1, 4, 10, 30, 200)), choose.choice((0, 1, 2, 5)))
    how = choose.randrange(4)
    if how == 0:
        made.bent()
    elif how == 1:
        made.shuffled()
    net, pulse_file = changes.often_changed(choose, made.text(), 0.6), pulses.text(choose, events_of(made), 60)
    return ran(net, pulse_file) if choose.randrange(2) else rewritten(choose, net, pulse_file)


def case_of_pulses(choose):
    """A case of `sim` whose pulse file may be changed. Seldom it is as long as can be."""
    made = circuit(choose, 5, choose.choice((0, 1, 3)))
    cycles = choose.choice((1, 3, 50, 50, 2_000)) if choose.randrange(400) else 1_000_000
    entries = choose.choice((0, 1, 2, 3, 8, 30)) if choose.randrange(300) else 100_001
    return ran(made.text(), changes.often_changed(choose, pulses.text(choose, events_of(made), cycles, entries), 0.75))
