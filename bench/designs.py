#!/usr/bin/env python3
"""Measures `gos sim` on designs of examples, in which few cells change in a cycle, and beside it Icarus Verilog's vvp and the
code that Verilator compiles, where these are installed.

    bench/designs.py [--cycles N] GOS,GOS.. [NAME]..

GOS is the program, or several are, such as those before and after a change. It prints a row for each of ten designs, or for each
folder of examples that is named: its cells, the pulses of the run, the time that each program and each peer takes for a cycle, and
how many times that of a peer, or of the first program, a program's is. The last row has the geometric mean of these.

The first program builds the design. The entries of the folder's pulse file are given again and again, for 500,000 cycles or N:
behind the first time without those that run the root, where it never comes to its end. Something has to happen up to the end; in
some folders it doesn't, as where a loop is entered at another entry than the first.
A peer is given the inputs of the trace in their cycles, and has to show its outputs. In a first run all of them are compared in
each cycle; in the runs that are measured, in the cycles in which the trace has a pulse. vvp, which is slow, runs the first tenth of
the cycles. Other programs have to write that trace.

Times are of the processor. That of a run which ends after one cycle is taken from that of the whole, so what is read and made
before isn't in it; in that of gos is that the trace is written, in a peer's that inputs are given and outputs compared. All take
turns, five times, or ROUNDS times where the environment says so, and the least time of each counts. The status is 3 where a trace
or outputs differ.
"""

import argparse
import os
import re
import shutil
import sys
import tempfile
from dataclasses import dataclass
from pathlib import Path
from statistics import geometric_mean

from replays import SIMULATORS, Replay, called
from side import least
from simulation import TooLong

sys.path.append(str(Path(__file__).resolve().parent.parent / 'tools'))

import builds  # noqa: E402  (these stand in the folder of tools)
import manners  # noqa: E402
from ports import pins_of  # noqa: E402

EXAMPLES = Path(__file__).resolve().parent.parent / 'examples'
ROUNDS = int(os.environ.get('ROUNDS', '5'))
CYCLES, MOST_ENTRIES = 500_000, 100_000
# How long a run may take, in seconds.
LIMIT = 600
NAMES = ['calculator', 'debounce', 'dma', 'i2c', 'sort', 'spi', 'stack', 'table', 'uart', 'vending']


@dataclass
class Design:
    """A design, built in a folder: its netlist, its Verilog text, its pins, the entries that it is run under, and how many cycles
    those of its own pulse file take."""
    name: str
    folder: Path
    net: str
    verilog: str
    pins: list
    entries: list
    period: int

    def cells(self):
        with open(self.folder / self.net) as text:
            return int(text.read(64).split('\n')[1].removeprefix('cells '))


def repeated(text, root, ends, cycles):
    """The entries of a pulse file again and again, more than are given in so many cycles; and how many its own cycles are."""
    (_, (_, period)), *lines = builds.statements(text)
    entries = [' '.join(words) for _, words in lines]
    again = [entry for entry in entries if ends or entry.split()[2] not in (f'{root}.run', f'{root}.ask')]
    if any(entry.startswith('at ') for entry in entries) or not again:
        raise manners.Wrong('entries that say `at`, or that only run the root, are not given again')
    return (entries + again * (2 * cycles // int(period) + 1))[:MOST_ENTRIES], int(period)


def built(gos, name, cycles, folder):
    """A design of examples, built and run as its folder says."""
    shutil.copytree(EXAMPLES / name, folder, dirs_exist_ok=True)
    files = builds.build_of(name, (folder / 'b.txt').read_text()).files
    called([gos, 'build', 'b.txt'], folder)
    pins = [pin for port in builds.read_ports(folder / files['net']) for pin in pins_of(port)]
    pulses, _ = builds.read_trace(folder / files['trace'], {pin.name for pin in pins})
    ends = any(event in (f'{files["root"]}.done', f'{files["root"]}.ans') for _, event, _ in pulses)
    entries, period = repeated((folder / files['pulses']).read_text(), files['root'], ends, cycles)
    return Design(name, folder, files['net'], files['verilog'], pins, entries, period)


def gos_command(gos, design, trace):
    def command(cycles):
        pulses = design.folder / f'{cycles}.pls'
        if not pulses.exists():
            pulses.write_text('\n'.join([f'cycles {cycles}', *design.entries, '']))
        return [gos, 'sim', design.net, pulses.name, trace]
    return command


def long_pulses(design, programs, cycles):
    """The pulses of the long run, of which all programs write the same trace."""
    for number, gos in enumerate(programs):
        called(gos_command(gos, design, f'{number}.trc')(cycles), design.folder)
    texts = [(design.folder / f'{number}.trc').read_bytes() for number, _ in enumerate(programs)]
    other = next((gos for gos, text in zip(programs, texts) if text != texts[0]), None)
    if other:
        raise manners.Wrong(f'{design.name}: the trace of {other} is not that of {programs[0]}', builds.RUN_IS_WRONG)
    pulses, _ = builds.read_trace(design.folder / '0.trc', {pin.name for pin in design.pins})
    last = max((cycle for cycle, _, _ in pulses), default=0)
    if last < cycles - design.period:
        raise manners.Wrong(f'{design.name}: nothing happens behind cycle {last} of {cycles}')
    return pulses


def peer_command(peer, design, pulses, cycles):
    """The command of a peer, which shows what the trace says in each cycle."""
    command = SIMULATORS[peer].made_by(Replay(design.folder, design.verilog, design.pins, pulses))
    said = called(command(max(2, cycles // SIMULATORS[peer].share), each=True), design.folder).strip().splitlines()
    if said[-1:] != ['agrees']:
        raise manners.Wrong(f'{design.name}: {peer} {said[-1] if said else "says nothing"}', builds.RUN_IS_WRONG)
    return command


def of_share(command, share):
    """A command for one cycle of so many, and for two or more."""
    return lambda cycles: command(max(2, cycles // share))


def cycle_times(commands, shares, cycles, folder):
    """The seconds of the processor that a cycle takes by each command, each of which runs one cycle of so many as its share says."""
    try:
        few = least(commands, 1, folder, ROUNDS, LIMIT)
        many = least(list(map(of_share, commands, shares)), cycles, folder, ROUNDS, LIMIT)
    except TooLong as error:
        raise manners.Wrong(f'a run takes longer than {LIMIT} s', builds.RUN_IS_WRONG) from error
    return [max(long - short, 1e-9) / (max(2, cycles // share) - 1) for short, long, share in zip(few, many, shares)]


def measured(programs, peers, name, cycles, progress):
    """A design's cells, its pulses, and the seconds that a cycle takes by each program and peer."""
    with tempfile.TemporaryDirectory() as folder:
        progress.now(f'{name} is built')
        design = built(programs[0], name, cycles, Path(folder))
        pulses = long_pulses(design, programs, cycles)
        commands = [gos_command(gos, design, 'out.trc') for gos in programs]
        commands += [peer_command(peer, design, pulses, cycles) for peer in peers]
        shares = [1] * len(programs) + [SIMULATORS[peer].share for peer in peers]
        progress.now(f'{name} is run')
        return design.cells(), len(pulses), cycle_times(commands, shares, cycles, design.folder)


def ratios(times, count):
    """How many times that of each peer the time of each program is, and how many times that of the first the others' are."""
    programs, peers = times[:count], times[count:]
    return [own / peer for own in programs for peer in peers] + [own / programs[0] for own in programs[1:]]


def shown(ratio):
    """A ratio with two digits behind its point, or where it is small with two of its own."""
    return f'{ratio:.2f}' if ratio >= 0.1 else f'{ratio:.2g}'


def heads(count, peers):
    named = ['gos'] if count == 1 else [f'program {number}' for number in range(1, count + 1)]
    compared = [f'{name} to {peer}' for name in named for peer in peers] + [f'{number} to 1' for number in range(2, count + 1)]
    return ['design', 'cells', 'pulses', *named, *peers, *compared]


def line(cells):
    return '| ' + ' | '.join(cells) + ' |'


def folder_name(word):
    """A word that names a folder of examples with a build file and a pulse file."""
    if not re.fullmatch(r'\w+', word) or not all((EXAMPLES / word / it).is_file() for it in ('b.txt', 'in.pls')):
        raise argparse.ArgumentTypeError(f'there is no design {word} in examples')
    return word


def cycle_count(word):
    """A number of cycles that can be measured, and that a pulse file may have."""
    number = manners.count(word)
    if not 2 <= number <= builds.MOST_CYCLES:
        raise argparse.ArgumentTypeError(f'{word} is no number from 2 to {builds.MOST_CYCLES}')
    return number


def main(words):
    parser = manners.Parser(__doc__)
    parser.add_argument('programs', metavar='GOS,GOS..', type=lambda word: word.split(','))
    parser.add_argument('names', metavar='NAME', type=folder_name, nargs='*', default=[])
    parser.add_argument('--cycles', type=cycle_count, default=CYCLES)
    asked = parser.parse_args(words)
    programs, names = [manners.program(name) for name in asked.programs], asked.names or NAMES
    peers = [peer for peer, it in SIMULATORS.items() if it.is_there()]
    found = []
    with manners.Progress('designs', len(names)) as progress:
        for missing in SIMULATORS.keys() - peers:
            progress.print(f'{missing} is not installed')
        head = heads(len(programs), peers)
        progress.print(line(head) + '\n' + '|---' * len(head) + '|')
        for name in names:
            cells, pulses, times = measured(programs, peers, name, asked.cycles, progress)
            found.append(ratios(times, len(programs)))
            progress.print(line([name, f'{cells:,}', f'{pulses:,}', *(f'{1e9 * time:.0f} ns' for time in times), *map(shown, found[-1])]))
            progress.step()
        means = [shown(geometric_mean(column)) for column in zip(*found)]
        progress.print(line(['geometric mean', *[''] * (len(head) - 1 - len(means)), *means]))


if __name__ == '__main__':
    sys.exit(manners.ended(main, sys.argv[1:]))
