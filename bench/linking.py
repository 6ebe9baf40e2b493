#!/usr/bin/env python3
"""Measures `gos link` on generated modules, and Icarus Verilog beside it where it is installed.

    bench/linking.py GOS [MODULES WEIGHT]..

GOS is the program. Without further words there are 128 modules of which each weighs 256 at most, so 32,768 together.
The modules make a chain: each serves the next one's import. There are two sorts of them:

    narrow    each passes on a command, and runs it in a loop with a local variable
    wide      each passes on a function whose argument has 31 handshakes, and uses it and its argument twice, so that
              the parts that share them have up to 96 handshakes

The modules are compiled first. Then two builds are timed by the processor, each the best of five runs: `refused` is refused since the
last module serves none, after all objects were read, which is the time to read them; `linked` is the whole command, which reads,
links, lays out the circuit and writes the netlist and its Verilog text. Icarus Verilog reads and elaborates that text once, for
a minute at most. It prints a line for each sort.
"""

import os
import shutil
import subprocess
import sys
import tempfile
from pathlib import Path

from simulation import TooLong, run

sys.path.append(str(Path(__file__).resolve().parent.parent / 'tools'))

import manners  # noqa: E402  (it stands in the folder of tools)

SIZES = [(128, 256)]
RUNS = 5
# How long Icarus Verilog may take, in seconds.
LIMIT = 60
HANDSHAKES = 31


def product(part, count):
    """A product of so many of one, bracketed to the right."""
    return part if count == 1 else f'{part} * ({product(part, count - 1)})'


def pairs(part, count):
    return part if count == 1 else f'({part}, {pairs(part, count - 1)})'


def narrow(first, last, padding):
    """A module that runs `next` in a loop; the last of the chain runs nothing."""
    body = 'skip' if last else 'new n : 8 in (n := 0:8 ; while !n < 2:8 do (next ; n := !n + 1:8))'
    imports = '' if last else 'import next : com\n'
    return imports + 'export ' + ' ; '.join([body] + ['skip'] * padding) + ' : com\n'


def wide(first, last, padding):
    """A module that uses `next` and its argument twice; the last uses a part of its argument, the first gives one."""
    argument = product('com', HANDSHAKES)
    kind = f'{argument} -> com'
    imports = '' if last else f'import next : ({argument}) -> com\n'
    if first:
        body, kind = 'next ' + pairs('skip', HANDSHAKES), 'com'
        return imports + 'export ' + ' ; '.join([body] + ['skip'] * padding) + f' : {kind}\n'
    body = 'fst t' if last else 'next t ; next t'
    return imports + f'export fun t : {argument} . ' + ' ; '.join([body] + ['skip'] * padding) + f' : ({argument}) -> com\n'


def words(command, folder):
    return subprocess.run(command, cwd=folder, capture_output=True, text=True).stdout.split()


def write(folder, name, text):
    with open(os.path.join(folder, name), 'w') as file:
        file.write(text)


def weight_of(gos, text, folder):
    write(folder, 'try.gos', text)
    told = words([gos, 'check', 'try.gos'], folder)
    if told[:2] != ['ok', 'weight']:
        sys.exit(' '.join(told))
    return int(told[2])


def padded(gos, sort, first, last, weight, folder):
    """The longest module of this weight at most: a command more weighs ten."""
    bare = weight_of(gos, sort(first, last, 0), folder)
    return sort(first, last, max(0, (weight - bare) // 10))


def make(gos, sort, modules, weight, folder):
    """The objects of a chain, and a build file without its root line and the files."""
    first = padded(gos, sort, True, False, weight, folder)
    each = (modules * weight - weight_of(gos, first, folder)) // (modules - 1)
    texts = [first, padded(gos, sort, False, False, each, folder), padded(gos, sort, False, True, each, folder)]
    lines = ['gosbuild 1']
    for k in range(modules):
        write(folder, f'm{k}.gos', texts[0 if k == 0 else 2 if k == modules - 1 else 1])
        told = words([gos, 'compile', f'm{k}.gos', f'm{k}.obj'], folder)
        if told[:1] != ['ok']:
            sys.exit(' '.join(told))
        lines.append(f'inst m{k} m{k}.gos m{k}.obj')
    return lines + [f'bind m{k} next m{k + 1}' for k in range(modules - 1)]


def best(command, folder, status=0):
    """The least time of the processor of a command that ends with a status."""
    return min(run(command, folder, status).seconds for _ in range(RUNS))


def icarus(folder):
    try:
        return f'{run(["iverilog", "-t", "null", "out.v"], folder, limit=LIMIT).seconds:6.2f} s'
    except TooLong:
        return f'more than {LIMIT} s'


def measure(gos, sort, modules, weight, folder):
    lines = make(gos, sort, modules, weight, folder)
    files = ['net out.net', 'verilog out.v', 'pulses in.pls', 'trace out.trc', '']
    write(folder, 'b.txt', '\n'.join(lines + ['root m0'] + files))
    write(folder, 'refused.txt', '\n'.join(lines[:-1] + ['root m0'] + files))
    told = words([gos, 'link', 'b.txt'], folder)
    refused, linked = best([gos, 'link', 'refused.txt'], folder, 2), best([gos, 'link', 'b.txt'], folder)
    size = sum(os.path.getsize(os.path.join(folder, name)) for name in os.listdir(folder) if name.endswith('.obj'))
    with open(os.path.join(folder, 'out.net')) as net:
        cells = int(net.read(64).split()[3])
    line = f'{sort.__name__:7} {modules:4} modules {" ".join(told):16} {size / 1e6:6.2f} MB of objects {cells:8} cells'
    line += f' refused {refused:6.3f} s linked {linked:6.3f} s'
    if shutil.which('iverilog'):
        line += f' icarus {icarus(folder)}'
    print(line)


def main(words):
    parser = manners.Parser(__doc__)
    parser.add_argument('gos', metavar='GOS')
    parser.add_argument('numbers', metavar='MODULES WEIGHT', type=manners.count, nargs='*', default=[])
    asked = parser.parse_args(words)
    gos, numbers = manners.program(asked.gos), asked.numbers
    if len(numbers) % 2:
        parser.error(f'the {numbers[-1]} modules have no weight behind them')
    for modules, weight in list(zip(numbers[::2], numbers[1::2])) or SIZES:
        for sort in (narrow, wide):
            with tempfile.TemporaryDirectory() as folder:
                measure(gos, sort, modules, weight, folder)


if __name__ == '__main__':
    sys.exit(manners.ended(main, sys.argv[1:]))
