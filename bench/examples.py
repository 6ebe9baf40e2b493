#!/usr/bin/env python3
"""Counts what the circuits of the examples take, by several programs side by side, such as those before and after a change.

    bench/examples.py GOS,GOS.. [NAME]..

Each folder of examples with a build file, or each of those named, is built by each program, and run under the pulse file that is there
or, where there is a description of the environment (*.play), in these. A row for each, and one for all together, has the cycles in
which the circuit's next output was awaited; the cells of the netlist and the bits of its registers; and the same two of what `gos tidy`
makes of it. Each field has a number for each program. Then a row for each later program has its sums as parts of those of the first.
"""

import shutil
import subprocess
import sys
import tempfile
from pathlib import Path

TOP = Path(__file__).resolve().parent.parent
EXAMPLES = TOP / 'examples'
sys.path.append(str(TOP / 'tools'))

import builds  # noqa: E402  (it stands in the folder of tools, as the next two do)
import manners  # noqa: E402
import ports  # noqa: E402

HEADS = ['cycles', 'cells', 'register bits', 'cells after tidy', 'register bits after tidy']


def awaited(net, trace):
    """The cycles of a trace from an event to the next one, where that is an output of the netlist."""
    is_output = {event.name: event.is_output for port in ports.ports_of(net) for event in port.events}
    pulses, _ = ports.pulses_of(trace)
    return sum(cycle - since for (since, _, _), (cycle, name, _) in zip([(0, '', None), *pulses], pulses) if is_output[name])


def sizes(net):
    """The cells of a netlist, and the bits of its registers."""
    lines = net.split('\n')
    cells = [line.split(' ') for line in lines[2 : 2 + int(lines[1].removeprefix('cells '))]]
    return [len(cells), sum(int(width) for word, width, *_ in cells if word == 'reg')]


def counts(gos, name, room):
    """The numbers of an example by a program."""
    folder = Path(shutil.copytree(EXAMPLES / name, Path(room) / name))
    files = builds.said_by((folder / 'b.txt').read_text()).files
    plays = [[TOP / 'tools/gos-play', '--gos', gos, 'b.txt', it.name] for it in sorted(folder.glob('*.play'))]
    for words in ([gos, 'build', 'b.txt'], *plays, [gos, 'tidy', files['net'], 'tidy.net']):
        subprocess.run(words, cwd=folder, check=True, capture_output=True)
    net, tidy = (folder / files['net']).read_text(), (folder / 'tidy.net').read_text()
    return [awaited(net, (folder / files['trace']).read_text()), *sizes(net), *sizes(tidy)]


def row(programs, name):
    """The numbers of an example, a list for each program."""
    found = []
    for gos in programs:
        with tempfile.TemporaryDirectory() as room:
            found.append(counts(gos, name, room))
    return found


def shown(name, numbers):
    return '| ' + ' | '.join([name, *(' to '.join(f'{it:,}' for it in field) for field in zip(*numbers))]) + ' |'


def main(words):
    parser = manners.Parser(__doc__)
    parser.add_argument('programs', metavar='GOS,GOS..', type=lambda word: word.split(','))
    parser.add_argument('names', metavar='NAME', nargs='*', default=[])
    asked = parser.parse_args(words)
    programs = [manners.program(name) for name in asked.programs]
    names = asked.names or sorted(build.parent.name for build in EXAMPLES.glob('*/b.txt'))
    print('| ' + ' | '.join(['example', *HEADS]) + ' |\n' + '|---' * (1 + len(HEADS)) + '|')
    sums = [[0] * len(HEADS) for _ in programs]
    for name in names:
        found = row(programs, name)
        sums = [[one + other for one, other in zip(*its)] for its in zip(sums, found)]
        print(shown(name, found), flush=True)
    print(shown(f'all {len(names)}', sums))
    for later in sums[1:]:
        print('| of the first | ' + ' | '.join(f'{it / first:.2f}' for it, first in zip(later, sums[0])) + ' |')


if __name__ == '__main__':
    sys.exit(manners.ended(main, sys.argv[1:]))
