#!/usr/bin/env python3
"""Measures commands on inputs that are as large as gos takes them.

    bench/extremes.py GOS [NAME[/N]]..

GOS is the program. It prints a row of the table of docs/PERFORMANCE.md for each extreme, or for each of those named, or for an
Nth part of it:

    parts       `link` of an object of 16,384 parts `not`, each asking the next one
    shares      `link` of an object of 996 parts `share` of 64 handshakes: one more would pass the limit of a plan's size
    joined      `link` of such parts in a chain, 948 of them, in which each has all its 64 requests served by the next one
    ports       `sim` of a netlist with 65,536 ports
    chain       `sim` of a netlist of 5,000,000 cells, each but the first and the last turning the one before
    gates       `gates` of a netlist of 2,000,000 bits, of a chain of adders: one bit more would be too many
    bits        `gates` of a netlist of 5,000,000 cells, which is refused for its bits
    entries     `sim` under 100,000 `at` entries, the last cycle first, of 100,000
    cycles      `sim` of 1,000,000 cycles, in each tenth of which something happens
    names       `build` of 42 modules in a chain, whose names, imports and files have 255 bytes: no more fit into a build file
    open        `check` of a source of opening brackets, which is refused where 1,024 tokens are open
    heavy       `build` of a module of about the greatest weight, a sequence of 819 commands
    instances   `link` of 3,000 instances that serve nobody, which is refused once all objects were read
    linked      `link` of 2,400 instances in a chain: hardly more fit into a build file
    netlist     `sim` of a netlist file of 268,435,457 bytes, one too many, which is refused before all else
    pulses      `sim` under a pulse file of 16,777,216 bytes, all but the first line comments
    labels      `verify` of a trace of 1,000,000 labels of a loop, by five lines of moves for each two
    found       `explain` of that trace
    steps       `verify` of a file of moves that is as long as one may be, of steps of a loop

Each is run with a half of that too. Times are of the processor, and each is the least of three runs, or of one that takes ten
seconds or more. `growth` is how many times as long the whole takes as the half: 2 where the time is linear. `memory` is the most
that a run has, and `stack` the least of 128 kB, 256 kB, .. 8 MB with which the whole runs.
"""

import argparse
import os
import re
import resource
import subprocess
import sys
import tempfile
from itertools import product
from pathlib import Path
from string import ascii_letters, digits

import simulation

sys.path.append(str(Path(__file__).resolve().parent.parent / 'tools'))

import manners  # noqa: E402  (it stands in the folder of tools)

RUNS, LONG = 3, 10
# How long a run may take, in seconds.
LIMIT = 600
STACKS = [128 << n for n in range(7)]
RUN = b'next 0 main.run\n'
LATCH = 'gosnet 1\ncells 4\ninput 1\nor 1 0 2\nreg 1 1\nreg 1 1\nports 1\ngive main com 0 3\nend\n'
REST = ['net o.net', 'verilog o.v', 'pulses i.pls', 'trace o.trc']
SHARE = 'share ' + 'pair com ' * 63 + 'com'
# Words of the language, which are no names.
WORDS = ('do', 'if', 'in')
HEAD = ['extreme', 'of', 'file', 'time', 'growth', 'memory', 'stack']


def lines(*texts):
    return ''.join(f'{text}\n' for text in texts)


def put(folder, **files):
    """Writes files. In their names `__` stands for the dot."""
    for name, text in files.items():
        Path(folder, name.replace('__', '.')).write_text(text)


def linked(folder, parts, joints):
    put(folder, b__txt=lines('gosbuild 1', 'inst main m.gos m.obj', 'root main', *REST), m__obj=lines(
        'gosobj 1', 'weight 1', 'imports 0', 'result exp 1', f'parts {len(parts)}', *parts, f'joints {len(joints)}', *joints, 'end'))
    return ['link', 'b.txt'], 'm.obj'


def parts(folder, many):
    return linked(folder, ['not 1'] * many, ['r.0 p0.1', *[f'p{n}.0 p{n + 1}.1' for n in range(many - 1)]])


def shares(folder, many):
    return linked(folder, [SHARE] * many, [])


def joined(folder, many):
    return linked(folder, [SHARE] * many, [f'p{n}.{h} p{n + 1}.{64 + h}' for n in range(many - 1) for h in range(64)])


def simulated(folder, net, pulses):
    put(folder, a__net=net, i__pls=pulses)
    return ['sim', 'a.net', 'i.pls', 'o.trc'], 'a.net'


def ports(folder, many):
    cells = ['input 1', 'reg 1 0', *['reg 1 0', 'input 1'] * (many - 1)]
    taken = [f'take p{n} com {2 * n} {2 * n + 1}' for n in range(1, many)]
    net = lines('gosnet 1', f'cells {2 * many}', *cells, f'ports {many}', 'give main com 0 1', *taken, 'end')
    return simulated(folder, net, 'cycles 10\nnext 0 main.run\n' + 'next 0 p1.done\n' * (many > 1))


def chain(folder, many):
    cells = ['input 1', *[f'not 1 {n}' for n in range(many - 2)], f'reg 1 {many - 2}']
    net = lines('gosnet 1', f'cells {many}', *cells, 'ports 1', f'give main com 0 {many - 1}', 'end')
    return simulated(folder, net, 'cycles 10\nnext 0 main.run\n')


def lowered(folder, many):
    adders = (many - 35) // 96
    cells = ['input 1', 'reg 1 0', 'const 32 3', *[f'add 32 {n} {n}' for n in range(2, adders + 2)]]
    put(folder, a__net=lines('gosnet 1', f'cells {adders + 3}', *cells, 'ports 1', 'give main com 0 1', 'end'))
    return ['gates', 'a.net', 'o.aag'], 'a.net'


def not_lowered(folder, many):
    chain(folder, many)
    return ['gates', 'a.net', 'o.aag'], 'a.net'


def entries(folder, many):
    words, _ = simulated(folder, LATCH, lines(f'cycles {many}', *[f'at {n} main.run' for n in reversed(range(many))]))
    return words, 'i.pls'


def cycles(folder, many):
    words, _ = simulated(folder, LATCH, lines(f'cycles {many}', *['next 10 main.run'] * (many // 10)))
    return words, 'i.pls'


def long_netlist(folder, many):
    return simulated(folder, 'input 1\n' * (many // 8) + ' ' * (many % 8), 'cycles 9\n')


def long_pulses(folder, many):
    words, _ = simulated(folder, LATCH, 'cycles 9\n' + '# comment\n' * ((many - 9) // 10))
    return words, 'i.pls'


def labels(folder, many):
    rounds = (many - 1) // 2
    trace = ['0 main.run', *[f'{n} c.{event}' for n in range(rounds) for event in ('run', 'done')], f'cycles {rounds}']
    put(folder, b__txt=lines('gosbuild 1', 'inst main m.gos m.obj', 'root main', *REST), m__gos='import c : com export while 1:1 do c : com\n',
        o__trc=lines(*trace), m__txt=lines('gosmoves 1', f'lines {5 * rounds + 1}', 'r', *['s .', 's .', 'l 0', 'l 0', 's .'] * rounds, 'end'))
    return ['verify', 'b.txt', 'm.txt'], 'm.txt'


def found(folder, many):
    labels(folder, many)
    return ['explain', 'b.txt', 'f.txt'], 'o.trc'


def steps(folder, many):
    """A file of moves of so many bytes at most, of lines that take the most memory for a byte."""
    labels(folder, 3)
    count = (many - 32) // 4
    put(folder, m__gos='export (while 1:1 do skip) ; skip : com\n', o__trc=lines('0 main.run', 'cycles 1'))
    put(folder, m__txt=f'gosmoves 1\nlines {count + 1}\nr\n' + 's 0\n' * count + 'end\n')
    return ['verify', 'b.txt', 'm.txt'], 'm.txt'


def names(folder, many):
    long = [f'{n:03}'.rjust(254, 'n') for n in range(many)]
    put(folder, i__pls='cycles 9\n')
    said = ['gosbuild 1']
    for n, name in enumerate(long):
        import_, body = (f'import m{long[n + 1]} : com\n', f'm{long[n + 1]}') if n + 1 < many else ('', 'skip')
        put(folder, **{f's{name}': f'{import_}export {body} : com\n'})
        said.append(f'inst m{name} s{name} o{name}')
    said += [f'bind m{user} m{giver} m{giver}' for user, giver in zip(long, long[1:])]
    put(folder, b__txt=lines(*said, f'root m{long[0]}', *REST))
    return ['build', 'b.txt'], 'b.txt'


def open_brackets(folder, many):
    put(folder, m__gos='export ' + '(' * many)
    return ['check', 'm.gos'], 'm.gos'


def heavy(folder, many):
    """A sequence of so many commands, in brackets, of 10 each and 5 less together."""
    groups = ['(' + ' ; '.join(['skip'] * min(30, many - at)) + ')' for at in range(0, many, 30)]
    put(folder, b__txt=lines('gosbuild 1', 'inst main m.gos m.obj', 'root main', *REST), i__pls='cycles 9\nnext 0 main.run\n',
        m__gos=f'export {" ; ".join(groups)} : com\n')
    return ['build', 'b.txt'], 'm.gos'


def of_many(gos, folder, many, bound):
    """Instances of one module, in a chain or alone. Their names have two letters at most."""
    alphabet = [name for name in map(''.join, product(ascii_letters, ascii_letters + digits)) if name not in WORDS][:many]
    put(folder, m__gos='import n : com export n : com\n')
    subprocess.run([gos, 'compile', 'm.gos', 'm.obj'], cwd=folder, check=True, stdout=subprocess.DEVNULL, stderr=subprocess.DEVNULL)
    for name in alphabet:
        os.link(Path(folder, 'm.obj'), Path(folder, f'{name[::-1]}.'))
    binds = [f'bind {user} n {giver}' for user, giver in zip(alphabet, alphabet[1:])] if bound else []
    put(folder, b__txt=lines('gosbuild 1', *[f'inst {name} s {name[::-1]}.' for name in alphabet], *binds, f'root {alphabet[0]}', *REST))
    return ['link', 'b.txt'], 'b.txt'


def instances(gos, folder, many):
    return of_many(gos, folder, many, False)


def in_a_chain(gos, folder, many):
    return of_many(gos, folder, many, True)


# How each extreme is made, how large it is, its unit, and the status of the command.
EXTREMES = {
    'parts': (parts, 16_384, 'parts', 0), 'shares': (shares, 996, 'Shares', 0),
    'joined': (joined, 948, 'Shares', 0), 'ports': (ports, 65_536, 'ports', 0),
    'chain': (chain, 5_000_000, 'cells', 0), 'gates': (lowered, 2_000_000, 'bits', 0), 'bits': (not_lowered, 5_000_000, 'cells', 2),
    'entries': (entries, 100_000, 'entries', 0), 'cycles': (cycles, 1_000_000, 'cycles', 0),
    'names': (names, 42, 'modules', 0), 'open': (open_brackets, 1_024, 'brackets', 2), 'heavy': (heavy, 819, 'commands', 0),
    'instances': (instances, 3_000, 'instances', 2), 'linked': (in_a_chain, 2_400, 'instances', 0),
    'netlist': (long_netlist, 268_435_457, 'bytes', 2), 'pulses': (long_pulses, 16_777_216, 'bytes', 0),
    'labels': (labels, 1_000_000, 'labels', 0), 'found': (found, 1_000_000, 'labels', 0),
    'steps': (steps, 268_435_456, 'bytes', 0),
}
WITH_GOS = (instances, in_a_chain)


def spent(command, folder, wanted):
    """The least time, and the most memory."""
    found = [simulation.run(command, folder, wanted, LIMIT)]
    while found[0].seconds < LONG and len(found) < RUNS:
        found.append(simulation.run(command, folder, wanted, LIMIT))
    return min(one.seconds for one in found), max(one.memory for one in found)


def runs_in(stack, command, folder, wanted):
    def limit():
        resource.setrlimit(resource.RLIMIT_STACK, (stack * 1024, stack * 1024))
    ran = subprocess.run(command, cwd=folder, stdout=subprocess.DEVNULL, stderr=subprocess.DEVNULL, preexec_fn=limit)
    return ran.returncode == wanted


def least_stack(command, folder, wanted):
    """The least of the stacks, in kB, with which a command ends as it should."""
    low, high = 0, len(STACKS)
    while low < high:
        middle = (low + high) // 2
        if runs_in(STACKS[middle], command, folder, wanted):
            high = middle
        else:
            low = middle + 1
    return f'{STACKS[low]} kB' if low < len(STACKS) else 'more than 8 MB'


def measure(gos, name, size, wants_stack):
    """The time, the memory, the length of the file, and the stack of an extreme at a size."""
    make, _, _, wanted = EXTREMES[name]
    with tempfile.TemporaryDirectory() as folder:
        words, file = make(gos, folder, size) if make in WITH_GOS else make(folder, size)
        command, length = [gos, *words], os.path.getsize(Path(folder, file))
        return *spent(command, folder, wanted), length, least_stack(command, folder, wanted) if wants_stack else ''


def row(gos, chosen):
    name, _, part = chosen.partition('/')
    _, size, unit, _ = EXTREMES[name]
    size //= int(part or 1)
    half, *_ = measure(gos, name, size // 2, False)
    whole, memory, length, stack = measure(gos, name, size, True)
    growth = f'{whole / half:.1f}' if half > 0.02 else ''
    return [name, f'{size:,} {unit}', f'{length / 1e6:.2f} MB', f'{whole:.3g} s', growth, f'{memory / 1e6:.0f} MB', stack]


def extreme(word):
    """A word that names an extreme, or a part of one."""
    name, slash, part = word.partition('/')
    if name not in EXTREMES or slash and not re.fullmatch(r'[1-9]\d*', part):
        raise argparse.ArgumentTypeError(f'there is no extreme {word}, but {", ".join(EXTREMES)}, each also with /N behind it')
    return word


def main(words):
    parser = manners.Parser(__doc__)
    parser.add_argument('gos', metavar='GOS')
    parser.add_argument('names', metavar='NAME', type=extreme, nargs='*', default=[])
    asked = parser.parse_args(words)
    gos, chosen = manners.program(asked.gos), asked.names or list(EXTREMES)
    print('| ' + ' | '.join(HEAD) + ' |\n' + '|---' * len(HEAD) + '|')
    for name in chosen:
        print('| ' + ' | '.join(row(gos, name)) + ' |', flush=True)


if __name__ == '__main__':
    sys.exit(manners.ended(main, sys.argv[1:]))
