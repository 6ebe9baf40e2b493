#!/usr/bin/env python3
"""Measures how long `gos link` takes to read build files of many instances, and to look up their bind lines.

    bench/build_files.py GOS [INSTANCES]..

GOS is the program. Without further words there are 1,000, 2,000 and then 4,000 instances: more don't fit into a build file.
Two builds of each number are timed, in processor time, each the best of three runs: `read` has no bind lines and no objects,
so that it ends once the build file was read; `bound` has half as many instances, all of one module, in a chain in which each
serves the next one's import, and is refused since they are too heavy. It prints a line for each number.
"""

import os
import resource
import string
import subprocess
import sys
import tempfile
from pathlib import Path

sys.path.append(str(Path(__file__).resolve().parent.parent / 'tools'))

import manners  # noqa: E402  (it stands in the folder of tools)

SIZES = [1000, 2000, 4000]
RUNS = 3
LETTERS = string.ascii_lowercase + string.ascii_uppercase + string.digits
# So heavy that 200 of it are too heavy together.
MODULE = 'import n : com\nexport n' + ' ; skip' * 16 + ' : com\n'
REST = ['net n', 'verilog v', 'pulses p', 'trace t', '']


def names(first, count):
    """Names of three letters, of which the first is one of these."""
    all_names = (a + b + c for a in first for b in LETTERS for c in LETTERS)
    return [name for name, _ in zip(all_names, range(count))]


def write(folder, name, text):
    with open(os.path.join(folder, name), 'w') as file:
        file.write(text)


def build_file(count, bound):
    instances = names(string.ascii_lowercase, count)
    lines = [f'inst {name} s {object}' for name, object in zip(instances, names(string.ascii_uppercase, count))]
    binds = [f'bind {user} n {giver}' for user, giver in zip(instances, instances[1:])] if bound else []
    return '\n'.join(['gosbuild 1'] + lines + binds + [f'root {instances[0]}'] + REST)


def best(gos, folder, wanted):
    times = []
    for _ in range(RUNS):
        before = resource.getrusage(resource.RUSAGE_CHILDREN)
        run = subprocess.run([gos, 'link', 'b.txt'], cwd=folder, capture_output=True, text=True)
        after = resource.getrusage(resource.RUSAGE_CHILDREN)
        if run.returncode != wanted:
            sys.exit(f'status {run.returncode}: {run.stdout}{run.stderr}')
        times.append(after.ru_utime + after.ru_stime - before.ru_utime - before.ru_stime)
    return min(times)


def read(gos, count, folder):
    write(folder, 'b.txt', build_file(count, False))
    return best(gos, folder, 3)


def bound(gos, count, folder):
    write(folder, 's', MODULE)
    subprocess.run([gos, 'compile', 's', 'o'], cwd=folder, check=True, stdout=subprocess.DEVNULL, stderr=subprocess.DEVNULL)
    for name in names(string.ascii_uppercase, count):
        os.link(os.path.join(folder, 'o'), os.path.join(folder, name))
    write(folder, 'b.txt', build_file(count, True))
    return best(gos, folder, 2)


def main(words):
    parser = manners.Parser(__doc__)
    parser.add_argument('gos', metavar='GOS')
    parser.add_argument('sizes', metavar='INSTANCES', type=manners.count, nargs='*', default=[])
    asked = parser.parse_args(words)
    gos = manners.program(asked.gos)
    for count in asked.sizes or SIZES:
        with tempfile.TemporaryDirectory() as one, tempfile.TemporaryDirectory() as other:
            print(f'{count:5} instances read {read(gos, count, one):6.3f} s, {count // 2:5} bound {bound(gos, count // 2, other):6.3f} s')


if __name__ == '__main__':
    sys.exit(manners.ended(main, sys.argv[1:]))
