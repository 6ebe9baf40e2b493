#!/usr/bin/env python3
"""Measures how fast circuits are on an iCE40 HX8K, by several programs side by side, such as those before and after a change.

    bench/chips.py GOS,GOS.. [NAME]..

NAME is one of two_phase, gcd, crc8 and pwm, or any example; without names the four are taken. Each is built by each program. Its Verilog
text goes through yosys and nextpnr-ice40, which have to be installed, by the commands of docs/VERILOG.md. A row has the cells; the
logic cells; the greatest frequency of the clock; the cycles of the run in which the circuit's next output was awaited; and the time
that these take at this frequency. Each field has a number for each program. What nextpnr finds differs by a tenth where a cell is
placed otherwise.
"""

import re
import shutil
import subprocess
import sys
import tempfile
from pathlib import Path

import examples

sys.path.append(str(examples.TOP / 'tools'))

import builds  # noqa: E402  (it stands in the folder of tools, as the next one does)
import manners  # noqa: E402

BUILD = 'gosbuild 1\ninst main main.gos main.obj\nroot main\nnet out.net\nverilog out.v\npulses in.pls\ntrace out.trc\n'
GCD = """import x : exp 8 import y : exp 8
export
 new a : 8 in new b : 8 in
   (a := x ; b := y ;
    (while not (!a = !b) do if !a < !b then b := !b - !a else a := !a - !b) ;
    !a)
 : exp 8
"""
CRC = """import x : exp 8
export
 new c : 8 in new i : 4 in
   (c := x ;
    (while !i < 8:4 do
       ((if !c < 128:8 then c := !c + !c else c := (!c + !c) ^ 7:8) ;
        i := !i + 1:4)) ;
    !c)
 : exp 8
"""
PWM = """import tick : com import duty : exp 8 import pin : var 1
export
 new n : 8 in new d : 8 in
   (d := duty ;
    while 1:1 do (tick ; n := !n + 1:8 ; if !n < !d then pin := 1:1 else pin := 0:1))
 : com
"""
# Sources with their pulse files: the greatest common divisor of 255 and 3, a byte's checksum bit by bit, and 300 ticks of a dimmer.
SOURCES = {
    'gcd': (GCD, 'cycles 9000\nnext 0 main.ask\nnext 0 x.ans 255\nnext 0 y.ans 3\n'),
    'crc8': (CRC, 'cycles 2000\nnext 0 main.ask\nnext 0 x.ans 179\n'),
    'pwm': (PWM, 'cycles 20000\nnext 0 main.run\nnext 0 duty.ans 77\n' + 300 * 'next 0 tick.done\nnext 0 pin.done\n'),
}
NAMES = ['two_phase', *SOURCES]
HEADS = ['cells', 'logic cells', 'MHz', 'cycles', 'microseconds']
CELLS, CLOCK = re.compile(r'ICESTORM_LC:\s+(\d+)/'), re.compile(r'Max frequency for clock[^:]*: ([\d.]+) MHz')


def laid_out(name, folder):
    """Puts the files of a circuit into a folder."""
    if name not in SOURCES:
        shutil.copytree(examples.EXAMPLES / name, folder, dirs_exist_ok=True)
        return
    source, pulses = SOURCES[name]
    for file, text in (('b.txt', BUILD), ('main.gos', source), ('in.pls', pulses)):
        (folder / file).write_text(text)


def run(folder, *words):
    """What a command prints."""
    ran = subprocess.run(words, cwd=folder, check=True, stdout=subprocess.PIPE, stderr=subprocess.STDOUT, text=True)
    return ran.stdout


def counts(gos, name, folder):
    """The numbers of a circuit by a program."""
    laid_out(name, folder)
    files = builds.said_by((folder / 'b.txt').read_text()).files
    run(folder, gos, 'build', 'b.txt')
    run(folder, 'yosys', '-q', '-p', f'synth_ice40 -top gos_{files["root"]} -json top.json', files['verilog'])
    log = run(folder, 'nextpnr-ice40', '--hx8k', '--package', 'ct256', '--json', 'top.json', '--asc', 'top.asc')
    net, trace = (folder / files['net']).read_text(), (folder / files['trace']).read_text()
    clock, cycles = float(CLOCK.findall(log)[-1]), examples.awaited(net, trace)
    return [f'{examples.sizes(net)[0]:,}', CELLS.findall(log)[-1], f'{clock:.0f}', f'{cycles:,}', f'{cycles / clock:.2f}']


def main(words):
    parser = manners.Parser(__doc__)
    parser.add_argument('programs', metavar='GOS,GOS..', type=lambda word: word.split(','))
    parser.add_argument('names', metavar='NAME', nargs='*', default=[])
    asked = parser.parse_args(words)
    programs = [manners.program(name) for name in asked.programs]
    for tool in ('yosys', 'nextpnr-ice40'):
        if not shutil.which(tool):
            raise manners.Wrong(f"{tool} isn't installed")
    print('| ' + ' | '.join(['circuit', *HEADS]) + ' |\n' + '|---' * (1 + len(HEADS)) + '|')
    for name in asked.names or NAMES:
        found = []
        for gos in programs:
            with tempfile.TemporaryDirectory() as folder:
                found.append(counts(gos, name, Path(folder)))
        print('| ' + ' | '.join([name, *(' to '.join(field) for field in zip(*found))]) + ' |', flush=True)


if __name__ == '__main__':
    sys.exit(manners.ended(main, sys.argv[1:]))
