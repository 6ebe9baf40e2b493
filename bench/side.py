#!/usr/bin/env python3
"""Measures `gos sim` of several programs side by side, such as those before and after a change.

    bench/side.py GOS,GOS.. [NAME]..

It prints a row for each circuit of bench/simulation.py that goes on changing, or for each of those named: the cycles that were
run, the time that each program takes for one cell in one cycle (for `quiet` and `ports` for the whole cycle), and how many
times that of the first program the others' are.

All programs are run one after another, and that 14 times, or ROUNDS times where the environment says so; the time of each is
the least of its runs. So what else goes on meanwhile is the same for all, and a difference of two in a hundred is seen.
"""

import os
import sys
import tempfile
from pathlib import Path

from simulation import LIMIT, circuit_name, cycle_time, gos_command, named, run

sys.path.append(str(Path(__file__).resolve().parent.parent / 'tools'))

import manners  # noqa: E402  (it stands in the folder of tools)

ROUNDS = int(os.environ.get('ROUNDS', '14'))
NAMES = ['active-300', 'active-20000', 'deep', 'part']


def least(commands, cycles, folder, rounds=ROUNDS, limit=LIMIT):
    """The least time that each command takes for so many cycles. They take turns."""
    spent = [[run(command(cycles), folder, limit=limit).seconds for command in commands] for _ in range(rounds)]
    return [min(times) for times in zip(*spent)]


def row(programs, name, folder):
    make, first, changing, _ = named(name)
    circuit = make()
    commands = [gos_command(program, circuit, folder) for program in programs]
    _, cycles = cycle_time(commands[0], first, folder)
    few, many = least(commands, first, folder), least(commands, cycles, folder)
    parts = (cycles - first) * (len(circuit.cells) if changing else 1)
    times = [(long - short) / parts for short, long in zip(few, many)]
    shown = [f'{1e9 * time:.3f} ns' for time in times] + [f'{time / times[0]:.3f}' for time in times[1:]]
    return [name, f'{cycles:,}', 'cell' if changing else 'cycle', *shown]


def main(words):
    parser = manners.Parser(__doc__)
    parser.add_argument('programs', metavar='GOS,GOS..', type=lambda word: word.split(','))
    parser.add_argument('names', metavar='NAME', type=circuit_name, nargs='*', default=[])
    asked = parser.parse_args(words)
    programs, names = [manners.program(name) for name in asked.programs], asked.names or NAMES
    heads = [f'program {number}' for number, _ in enumerate(programs, 1)] + [f'{number} to 1' for number, _ in enumerate(programs[1:], 2)]
    print('| ' + ' | '.join(['circuit', 'cycles', 'time of a', *heads]) + ' |\n' + '|---' * (3 + len(heads)) + '|')
    for name in names:
        with tempfile.TemporaryDirectory() as folder:
            print('| ' + ' | '.join(row(programs, name, Path(folder))) + ' |', flush=True)


if __name__ == '__main__':
    sys.exit(manners.ended(main, sys.argv[1:]))
