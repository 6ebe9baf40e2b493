#!/usr/bin/env python3
"""Measures `gos sim` on circuits of bench/circuits.py, and beside it Icarus Verilog's vvp and Verilator's compiled code.

    bench/simulation.py GOS [NAME]..

GOS is the program. It prints a row of the table of docs/PERFORMANCE.md for each circuit, or for each of those named:

    active-300, active-20000, active-1000000, or any other number
              some 20 levels, in all of which nets go on changing
    deep      20,000 cells in 850 levels
    part      22,500 cells, of which 1/64 go on changing
    quiet     20,000 cells, of which none changes after the first cycles
    ports     64 imports and 172 events, of which none happens

All times are of the processor, and each is the least of three runs. A run of few cycles is taken from one of many, so that
what is left is the time of cycles alone; it is divided by them, and by the cells where these go on changing. Behind each
peer's time stands how many times that of gos it is. A peer that isn't installed is named so, and so is one that takes
longer than a minute for the circuit or for a run of it. `read` is the netlist's text in a second of `gos sim` with one
cycle, which reads and accepts the netlist and makes the simulator before; `memory` is the most that this run has. Both are
left out for small netlists. Verilator leaves out cells that no output shows: 3 in 10 of these, and 4 of the smallest.
"""

import argparse
import os
import re
import shutil
import signal
import subprocess
import sys
import tempfile
import time
from dataclasses import dataclass
from pathlib import Path

import circuits

sys.path.append(str(Path(__file__).resolve().parent.parent / 'tools'))

import manners  # noqa: E402  (it stands in the folder of tools)

RUNS = 3
# How long a run may take, in seconds, and how much longer than one of few cycles one of many takes at least.
LIMIT, ENOUGH = 60, 0.3
MOST_CYCLES = 1_000_000
# How each circuit is made, the cycles after which it is measured, whether its cells go on changing, and what is aimed at.
CIRCUITS = {
    'active-300': (lambda: circuits.tiled(300), 10, True, '1.4 ns'),
    'active-20000': (lambda: circuits.tiled(20_000), 10, True, '1.3 ns'),
    'active-1000000': (lambda: circuits.tiled(1_000_000), 1, True, '2.2 ns, 150 MB/s, 50 B'),
    'deep': (lambda: circuits.tiled(20_000, layers=850, tiles=1), 10, True, '3.3 ns'),
    'part': (lambda: circuits.tiled(22_500, tiles=64, active=1), 1_000, True, '0.27 ns'),
    'quiet': (lambda: circuits.tiled(20_000, asked=False), 1_000, False, '100 ns'),
    'ports': (lambda: circuits.many_ports(64), 1_000, False, '100 ns'),
}
# Of netlists with fewer cells it isn't told how fast they are read, nor how much memory they take.
LARGE = 10_000
# Small functions, which a C++ compiler is done with in time.
VERILATOR = '--cc --exe --build -j 4 -O3 --output-split 3000 --output-split-cfuncs 300 -MAKEFLAGS OPT_FAST=-O2 -Wno-lint'.split()
HEAD = ['circuit', 'cells', 'cycles', 'time of a', 'gos', 'aim', 'vvp', 'Verilator', 'read', 'memory a cell']
BENCH = '''module bench;
  reg clk = 0, ask = {asked};
  integer cycles;
  circuit circuit(.clk(clk), .n0(ask){rest});
  initial begin
    if (!$value$plusargs("cycles=%d", cycles)) cycles = 1;
    repeat (cycles) begin #1 clk = 1; #1 clk = 0; ask = 0; end
    $finish(0);
  end
endmodule
'''
MAIN = '''#include "Vcircuit.h"
#include <cstdlib>
int main(int, char **words) {{
    Vcircuit circuit;
    circuit.n0 = {asked};
    for (long left = std::atol(words[1]); left > 0; left--) {{
        circuit.clk = 1;
        circuit.eval();
        circuit.clk = 0;
        circuit.eval();
        circuit.n0 = 0;
    }}
}}
'''


class TooLong(Exception):
    """A run took longer than the limit."""


@dataclass
class Spent:
    """What a run took: seconds of the processor, and bytes of memory at most."""
    seconds: float
    memory: int


def memory_of(number):
    """The most memory that a process has had so far, in bytes."""
    try:
        lines = Path(f'/proc/{number}/status').read_text().split('\n')
    except OSError:
        return 0
    return max([int(line.split()[1]) * 1024 for line in lines if line.startswith('VmHWM:')], default=0)


def run(words, folder, wanted=0, limit=LIMIT):
    """Runs a program to its end. Its memory is looked at from outside: what wait tells has this script's in it."""
    child = subprocess.Popen(words, cwd=folder, stdout=subprocess.DEVNULL, stderr=subprocess.DEVNULL, start_new_session=True)
    start, memory, ended = time.monotonic(), 0, 0
    while not ended:
        memory = max(memory, memory_of(child.pid))
        if time.monotonic() - start > limit:
            os.killpg(child.pid, signal.SIGKILL)
        time.sleep(0.0003)
        ended, status, used = os.wait4(child.pid, os.WNOHANG)
    child.returncode = os.waitstatus_to_exitcode(status)
    if child.returncode == -signal.SIGKILL:
        raise TooLong
    if child.returncode != wanted:
        raise subprocess.CalledProcessError(child.returncode, words)
    return Spent(used.ru_utime + used.ru_stime, memory)


def best(words, folder):
    """The least time of a few runs, and the most memory."""
    spent = [run(words, folder) for _ in range(RUNS)]
    return Spent(min(one.seconds for one in spent), max(one.memory for one in spent))


def cycle_time(command, first, folder):
    """The seconds of a cycle, behind the first ones, and how many cycles were run to find that."""
    start, cycles = run(command(first), folder).seconds, first + 10
    while cycles < MOST_CYCLES and run(command(cycles), folder).seconds < start + ENOUGH:
        cycles = min(4 * cycles, MOST_CYCLES)
    few, many = best(command(first), folder), best(command(cycles), folder)
    return max(many.seconds - few.seconds, 0) / (cycles - first), cycles


def gos_command(gos, circuit, folder):
    (folder / 'a.net').write_text(circuits.netlist(circuit))

    def command(cycles):
        (folder / f'{cycles}.pls').write_text(circuits.pulses(circuit, cycles))
        return [gos, 'sim', 'a.net', f'{cycles}.pls', 'a.trc']
    return command


def vvp_command(circuit, folder):
    rest = ''.join(f', .n{n}({width}\'d0)' for n, width in circuits.inputs(circuit)[1:])
    (folder / 'a.v').write_text(circuits.verilog(circuit) + BENCH.format(asked=int(circuit.asked), rest=rest))
    run(['iverilog', '-o', 'a.vvp', 'a.v'], folder)
    return lambda cycles: ['vvp', '-n', 'a.vvp', f'+cycles={cycles}']


def verilator_command(circuit, folder):
    (folder / 'circuit.v').write_text(circuits.verilog(circuit))
    (folder / 'main.cpp').write_text(MAIN.format(asked=int(circuit.asked)))
    run(['verilator', *VERILATOR, 'circuit.v', 'main.cpp'], folder)
    return lambda cycles: ['obj_dir/Vcircuit', str(cycles)]


def round_off(number):
    """A number with two digits, or as many as stand before its point."""
    return f'{number:,.0f}' if number >= 10 else f'{number:.2g}'


def peer(name, make, circuit, first, folder, time_of, ours):
    """What a row says of a peer."""
    if not shutil.which(name):
        return 'not installed'
    try:
        seconds, _ = cycle_time(make(circuit, folder), first, folder)
    except TooLong:
        return 'over a minute'
    except subprocess.CalledProcessError:
        return 'fails'
    return f'{time_of(seconds)} ({round_off(seconds / ours)} times)' if ours else time_of(seconds)


def named(name):
    """What stands in the table of circuits; an active one of any number of cells need not stand there."""
    return CIRCUITS.get(name) or (lambda: circuits.tiled(int(name.removeprefix('active-'))), 1, True, '')


def circuit_name(word):
    """A word that names a circuit."""
    if word not in CIRCUITS and not re.fullmatch(r'active-[1-9]\d*', word):
        raise argparse.ArgumentTypeError(f'there is no circuit {word}, but {", ".join(CIRCUITS)}, and active- with any number')
    return word


def row(gos, name, folder):
    make, first, changing, aim = named(name)
    circuit = make()
    cells = len(circuit.cells)

    def time_of(seconds):
        return f'{round_off(seconds * 1e9 / (cells if changing else 1))} ns'

    command = gos_command(gos, circuit, folder)
    size, once = (folder / 'a.net').stat().st_size, best(command(1), folder)
    ours, cycles = cycle_time(command, first, folder)
    vvp = peer('iverilog', vvp_command, circuit, first, folder, time_of, ours)
    verilator = peer('verilator', verilator_command, circuit, first, folder, time_of, ours)
    read, memory = f'{size / 1e6 / once.seconds:.0f} MB/s', f'{once.memory / cells:.0f} B'
    last = [read, memory] if cells >= LARGE else ['', '']
    return [name, f'{cells:,}', f'{cycles:,}', 'cell' if changing else 'cycle', time_of(ours), aim, vvp, verilator, *last]


def main(words):
    parser = manners.Parser(__doc__)
    parser.add_argument('gos', metavar='GOS')
    parser.add_argument('names', metavar='NAME', type=circuit_name, nargs='*', default=[])
    asked = parser.parse_args(words)
    gos, names = manners.program(asked.gos), asked.names or list(CIRCUITS)
    print('| ' + ' | '.join(HEAD) + ' |\n' + '|---' * len(HEAD) + '|')
    for name in names:
        with tempfile.TemporaryDirectory() as folder:
            print('| ' + ' | '.join(row(gos, name, Path(folder))) + ' |', flush=True)


if __name__ == '__main__':
    sys.exit(manners.ended(main, sys.argv[1:]))
