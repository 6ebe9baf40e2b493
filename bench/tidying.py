#!/usr/bin/env python3
"""Measures `gos tidy` on circuits of bench/circuits.py and on others, and how many cells it leaves of the examples.

    bench/tidying.py GOS [NAME]..

GOS is the program. It prints a row of the tables of docs/PERFORMANCE.md for each circuit, or for each of those named:

    active-1000000, or any other kind and number
              a circuit of this kind, of so many cells
    controllers
              ten controllers of examples, one after another, and all of them

The kinds are those in which something could take more time than in proportion to the cells:

    active    gates of all kinds, of which few are equal
    shifts    two shift registers that read one input, and are one
    late      the same with their far ends first
    waves     registers that become equal stage by stage, and a chain of gates each of which is looked at again after each stage
    fans      equal registers, each of which a gate reads beside one net that they all read
    mixes     a Xor with many readers, one of whose nets goes to another class again and again
    passing   a Xor that is known to be one for a while, and a net once registers are one, beside two shift registers
    turned    the same, where a gate with its nets turned around was read by it
    zeros     registers that hold each other at 0
    peels     registers of which each stays 0 only once two others are one
    crowded   constants that a table all looks for from one place on; its time grows with the square, and it has to be named

Times are of the processor, with all that the command does: it reads the netlist, accepts it, makes it tidy and writes it. Each
is the least of three runs, and the memory the most that they have. `growth` is how many times as long as a circuit of half the
cells it takes: 2 where the time is linear.
"""

import argparse
import re
import shutil
import subprocess
import sys
import tempfile
from pathlib import Path

import circuits
from simulation import best, round_off

sys.path.append(str(Path(__file__).resolve().parent.parent / 'tools'))

import manners  # noqa: E402  (it stands in the folder of tools)

TOP = Path(__file__).resolve().parent.parent
CONTROLLERS = ['calculator', 'debounce', 'dma', 'elevator', 'i2c', 'mutex', 'spi', 'traffic', 'uart', 'vending']
# The numbers by which a table spreads cells.
MIXERS, WORDS = (0x9E37_79B9_7F4A_7C15, 0x94D0_49BB_1331_11EB), 2**64
LINE = re.compile(r'ok cells (\d+) to (\d+)\n')


def shifts(size):
    """A circuit of so many cells, whose two shift registers read one input."""
    circuit, on, off, one = circuits.begin(size, True)
    first = second = 0
    for _ in range((size - 9) // 2):
        first, second = circuit.add('reg', 1, first), circuit.add('reg', 1, second)
    return circuits.end(circuit, off, {1: circuits.Nets([circuit.add('xor', 1, first, second)])})


def answers(circuit, net):
    """Ends a circuit of a command that is asked at its first net, and answers as a net shows it."""
    circuit.ports.append(('give main com', (0, circuit.add('reg', 1, net))))
    return circuit


def waves(size):
    """Registers in a tree, of which those of each stage become equal after those before, and a chain of gates that read its last
    ones, and each of which is looked at again after each stage."""
    circuit = circuits.Circuit(None)
    ask = circuit.add('input', 1)
    pairs = [circuit.add('reg', 1, ask) for _ in range(2)]
    while len(pairs) < size // 11:
        pairs += [circuit.add('reg', 1, pairs[-2]) for _ in range(2)]
    stage = [ask]
    for _ in range(4):
        stage = [circuit.add('reg', 1, net) for net in stage for _ in range(4)]
    net = circuit.add('not', 1, ask)
    for n in range((size - len(circuit.cells) - 1) // 2):
        net = circuit.add('reg', 1, circuit.add('mux', 1, stage[n % len(stage)], pairs[n] if n < len(pairs) else ask, net))
    return answers(circuit, net)


def late(size):
    """Two shift registers that read one input, with their far ends first."""
    circuit, length = circuits.Circuit(None), (size - 3) // 2
    circuit.add('input', 1)
    for n in range(2 * length):
        circuit.add('reg', 1, n + 2 if (n + 1) % length else 0)
    return answers(circuit, circuit.add('xor', 1, 1, length + 1))


def fans(size):
    """Pairs of equal registers, each pair behind the one before, and gates that read one of them and the input."""
    circuit = circuits.Circuit(None)
    net = last = circuit.add('input', 1)
    for _ in range((size - 2) // 6):
        first, second = circuit.add('reg', 1, net), circuit.add('reg', 1, net)
        both = circuit.add('xor', 1, circuit.add('and', 1, 0, first), circuit.add('or', 1, 0, second))
        net, last = second, circuit.add('xor', 1, last, both)
    return answers(circuit, last)


def mixes(size):
    """A Xor that half of the cells read. The net that it reads becomes one with others, each of which more cells read than all before."""
    circuit = circuits.Circuit(None)
    last = ask = circuit.add('input', 1)
    own = circuit.add('reg', 1, ask)
    mixed = circuit.add('xor', 1, own, ask)
    first = second = own
    for doubling in range(max(1, (size // 4).bit_length() - 1)):
        first, second = circuit.add('reg', 1, first), circuit.add('reg', 1, second)
        same = circuit.add('xor', 1, circuit.add('xor', 1, own, first), second)
        for _ in range(2 ** doubling):
            last = circuit.add('and', 1, same, last)
    while len(circuit.cells) < size - 1:
        last = circuit.add('or', 1, mixed, last)
    return answers(circuit, last)


def passing(size, turned=False):
    """Two shift registers that read one input, and a Xor that is a net once two registers are one, but is read before."""
    circuit = circuits.Circuit(None)
    first = second = ask = circuit.add('input', 1)
    for _ in range((size - 16) // 2):
        first, second = circuit.add('reg', 1, first), circuit.add('reg', 1, second)
    own = circuit.add('reg', 1, circuit.add('xor', 1, first, second))
    net = circuit.add('and', 1, own, ask) if turned else circuit.add('not', 1, own)
    one, other = circuit.add('reg', 1, ask), circuit.add('reg', 1, ask)
    mixed = circuit.add('xor', 1, net, one)
    again = circuit.add('xor', 1, mixed, other)
    last = circuit.add('xor', 1, other, again) if turned else circuit.add('not', 1, again)
    for net in (own, mixed, ask):
        last = circuit.add('and', 1, circuit.add('or', 1, again, net), last)
    return answers(circuit, last)


def turned(size):
    return passing(size, turned=True)


def zeros(size):
    """Registers that read one another through gates, and stay 0."""
    circuit, count = circuits.Circuit(None), (size - 3) // 2
    circuit.add('input', 1)
    for n in range(count):
        following = 2 * n + 3 if n + 1 < count else 0
        circuit.add('and', 1, circuit.add('reg', 1, 2 * n + 2), following)
    return answers(circuit, circuit.add('or', 1, 0, 1))


def peels(size):
    """Registers that stay 0 once two that they read are one, and these are one once the register before stays 0."""
    circuit = circuits.Circuit(None)
    net = circuit.add('input', 1)
    for _ in range((size - 2) // 6):
        first, second = circuit.add('reg', 1, net), circuit.add('reg', 1, net)
        own = circuit.add('reg', 1, len(circuit.cells) + 2)
        circuit.add('xor', 1, circuit.add('xor', 1, own, first), second)
        net = circuit.add('or', 1, own, first)
    return answers(circuit, net)


def mixed(so_far, number):
    """As `mixed` of crates/gos_tidy/src/slots.rt."""
    turned = (so_far ^ number) * MIXERS[0] % WORDS
    return turned ^ turned >> 29


def crowded(size):
    """Constants that the table of the guess (crates/gos_tidy/src/slots.rt) all looks for from its first place on."""
    circuit = circuits.Circuit(None)
    ask = circuit.add('input', 1)
    head = mixed(mixed(64 << 32 | 1, 0), 0)
    for spread in range(1, size - 1):
        tail = spread * pow(MIXERS[1], -1, WORDS) % WORDS
        turned = tail
        for _ in range(2):
            turned = tail ^ turned >> 29
        circuit.add('const', 64, turned * pow(MIXERS[0], -1, WORDS) % WORDS ^ head)
    return answers(circuit, ask)


CIRCUITS = {'active': circuits.tiled, 'shifts': shifts, 'late': late, 'waves': waves, 'fans': fans, 'mixes': mixes, 'passing': passing,
            'turned': turned, 'zeros': zeros, 'peels': peels, 'crowded': crowded}
NAMES = ['active-1000000', *(f'{kind}-5000000' for kind in CIRCUITS if kind != 'crowded'), 'controllers']
AIMS = {'active-1000000': '2 s, 200 B', **{name: '15 s' for name in NAMES if name.endswith('-5000000')}, 'all ten': '0.66'}


def counts(gos, folder, net):
    """The cells before and after."""
    said = subprocess.run([gos, 'tidy', net, 'tidy.net'], cwd=folder, check=True, capture_output=True, text=True).stdout
    return [int(number) for number in LINE.fullmatch(said).groups()]


def spent_on(gos, circuit, folder):
    """What a circuit takes."""
    (folder / 'a.net').write_text(circuits.netlist(circuit))
    return best([gos, 'tidy', 'a.net', 'tidy.net'], folder)


def circuit_row(gos, name, folder):
    kind, size = name.split('-')
    half, spent = (spent_on(gos, CIRCUITS[kind](cells), folder) for cells in (int(size) // 2, int(size)))
    before, after = counts(gos, folder, 'a.net')
    growth = f'{spent.seconds / half.seconds:.1f}' if half.seconds > 0.02 else ''
    took = [f'{round_off(spent.seconds)} s', growth, f'{spent.memory / before:.0f} B']
    return [name, f'{before:,}', f'{after:,}', f'{after / before:.2f}', *took, AIMS.get(name, '')]


def controller_counts(gos, name, folder):
    """The cells of a controller's netlist before and after."""
    here = folder / name
    shutil.copytree(TOP / 'examples' / name, here)
    subprocess.run([gos, 'build', 'b.txt'], cwd=here, check=True, capture_output=True)
    net = re.search(r'^net (\S+)', (here / 'b.txt').read_text(), re.M).group(1)
    return counts(gos, here, net)


def controller_rows(gos, folder):
    both = [controller_counts(gos, name, folder) for name in CONTROLLERS]
    both.append([sum(pair[0] for pair in both), sum(pair[1] for pair in both)])
    for name, (before, after) in zip([*CONTROLLERS, 'all ten'], both):
        yield [name, f'{before:,}', f'{after:,}', f'{after / before:.2f}', '', '', '', AIMS.get(name, '')]


def circuit_name(word):
    """A word that names a circuit, or the controllers."""
    if word != 'controllers' and not re.fullmatch(rf'({"|".join(CIRCUITS)})-[1-9]\d*', word):
        kinds = ', '.join(f'{kind}-' for kind in CIRCUITS)
        raise argparse.ArgumentTypeError(f'there is no circuit {word}, but controllers, and {kinds} with any number')
    return word


def main(words):
    parser = manners.Parser(__doc__)
    parser.add_argument('gos', metavar='GOS')
    parser.add_argument('names', metavar='NAME', type=circuit_name, nargs='*', default=[])
    asked = parser.parse_args(words)
    gos, names = manners.program(asked.gos), asked.names or NAMES
    print('| circuit | cells | after | of them | time | growth | memory a cell | aim |\n' + '|---' * 8 + '|')
    for name in names:
        with tempfile.TemporaryDirectory() as folder:
            rows = controller_rows if name == 'controllers' else lambda gos, folder, name=name: [circuit_row(gos, name, folder)]
            for row in rows(gos, Path(folder)):
                print('| ' + ' | '.join(row) + ' |', flush=True)


if __name__ == '__main__':
    sys.exit(manners.ended(main, sys.argv[1:]))
