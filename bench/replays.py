"""Replays of a trace in simulators that others wrote: the circuit's Verilog text is given the inputs of the trace in their cycles,
and its outputs are compared with those of the trace.

Each has a program that says `agrees`, or the first cycle in which an output differs. It reads the cycles of the trace in which
something happens from a file, and runs as many cycles as it is told. Told so, it compares in each cycle that it runs, and else in
those of the file.
"""

import shutil
import struct
import subprocess
import sys
from collections.abc import Callable
from dataclasses import dataclass
from pathlib import Path

sys.path.append(str(Path(__file__).resolve().parent.parent / 'tools'))

import benches  # noqa: E402  (these stand in the folder of tools)
import builds  # noqa: E402
import manners  # noqa: E402

VERILATOR = '--cc --exe --build -j 4 -O3 -MAKEFLAGS OPT_FAST=-O2 -Wno-fatal -Wno-lint -Wno-style --prefix Vcircuit --top-module'.split()
# No cycle of a run: it stands behind the last one in which something happens.
NO_CYCLE = (1 << 32) - 1
MAIN = '''#include "Vcircuit.h"
#include <cstdint>
#include <cstdio>
#include <cstdlib>
#include <vector>

struct __attribute__((packed)) Move {{
    uint32_t cycle;
{fields}
}};

static void give(Vcircuit &circuit, const Move &move) {{
{gives}
}}

static bool shows(const Vcircuit &circuit, const Move &move) {{
    return {shows};
}}

static std::vector<Move> read() {{
    std::vector<Move> moves({count});
    FILE *file = std::fopen("moves.dat", "rb");
    if (!file || std::fread(moves.data(), sizeof(Move), moves.size(), file) != moves.size()) std::exit(2);
    std::fclose(file);
    return moves;
}}

static void tick(Vcircuit &circuit, int clk) {{
    circuit.clk = clk;
    circuit.eval();
}}

int main(int, char **words) {{
    const long cycles = std::atol(words[1]);
    const bool each = std::atol(words[2]);
    const std::vector<Move> moves = read();
    const Move quiet = {{}}, *next = moves.data();
    bool given = false;
    Vcircuit circuit;
    circuit.rst = 1;
    tick(circuit, 0);
    tick(circuit, 1);
    circuit.rst = 0;
    for (long cycle = 0; cycle < cycles; cycle++) {{
        const bool now = next->cycle == cycle;
        if (now || given) give(circuit, now ? *next : quiet);
        given = now;
        tick(circuit, 0);
        if ((now || each) && !shows(circuit, now ? *next : quiet)) {{
            std::printf("differs in cycle %ld\\n", cycle);
            return 0;
        }}
        next += now;
        tick(circuit, 1);
    }}
    std::printf("agrees\\n");
}}
'''


@dataclass
class Replay:
    """A circuit's Verilog text, in a folder, its pins, and the pulses of the trace, each as its cycle, its event and its value or none."""
    folder: Path
    verilog: str
    pins: list
    pulses: list

    def moves(self):
        """The cycles in which something happens, each with the values of its events, or none, by their names."""
        found = {}
        for cycle, event, value in self.pulses:
            found.setdefault(cycle, {})[event] = value
        return [*sorted(found.items()), (NO_CYCLE, {})]

    def sides(self):
        """The inputs, and the outputs."""
        return [pin for pin in self.pins if not pin.is_output], [pin for pin in self.pins if pin.is_output]


def called(words, folder):
    """What a command prints. It has to end with 0."""
    ran = subprocess.run(words, cwd=folder, capture_output=True, text=True, errors='replace')
    if ran.returncode:
        said = next(iter((ran.stdout + ran.stderr).strip().splitlines()), 'it says nothing')
        raise manners.Wrong(f'{" ".join(map(str, words[:3]))} ended with status {ran.returncode}: {said}', builds.RUN_IS_WRONG)
    return ran.stdout


def nets(pins):
    return [net for pin in pins for net, _ in benches.nets_of(pin)]


def wide(pins):
    """How many bits the nets of these pins have."""
    return sum(count for pin in pins for _, count in benches.nets_of(pin))


def vvp_bench(replay, count):
    """A test bench for a file of so many moves: of each its cycle, what is given and what is wanted then, as one number."""
    inputs, outputs = replay.sides()
    declared = [
        *(f'wire {benches.bits(width)}{net};' for pin in replay.pins for net, width in benches.nets_of(pin)),
        benches.instance(replay.pins[0].port, replay.pins),
        f'reg {benches.bits(wide(inputs))}given = 0, gives;',
        f'reg {benches.bits(wide(outputs))}wanted, wants;',
        f'wire {benches.bits(wide(outputs))}shown = {{{", ".join(nets(outputs))}}};',
        f'assign {{{", ".join(nets(inputs))}}} = given;',
        'integer cycles, at = 1;',
        'reg each;',
        'reg [31:0] when;',
        f'reg {benches.bits(32 + wide(replay.pins))}moves [0:{count - 1}];',
    ]
    prepared = ['if (!$value$plusargs("cycles=%d", cycles)) cycles = 1;', 'each = $test$plusargs("each");',
                '$readmemb("moves.txt", moves);', '{when, gives, wants} = moves[0];']
    taken = ['given = gives;', 'wanted = wants;', '{when, gives, wants} = moves[at];', 'at = at + 1;']
    compared = ['if (shown !== wanted) begin', '  $display("differs in cycle %0d", cycle);', '  $finish(0);', 'end']
    in_cycle = [
        'if (when == cycle) begin', *benches.indented([*taken, '#1;', *compared]),
        'end else begin', *benches.indented(['given = 0;', 'wanted = 0;', '#1;', 'if (each)', *benches.indented(compared)]),
        'end',
    ]
    return benches.framed(['Replays a trace.'], declared, prepared, 'cycles', in_cycle, ['$display("agrees");'])


def by_vvp(replay):
    """Makes the bench for Icarus Verilog, and gives its command for a number of cycles."""
    pins = sum(replay.sides(), [])
    moves = [f'{cycle:032b}{benches.digits(pins, now)}\n' for cycle, now in replay.moves()]
    (replay.folder / 'moves.txt').write_text(''.join(moves))
    (replay.folder / 'bench.v').write_text(vvp_bench(replay, len(moves)))
    called(['iverilog', '-g2005', '-o', 'bench.vvp', 'bench.v', replay.verilog], replay.folder)
    return lambda cycles, each=False: ['vvp', '-n', 'bench.vvp', f'+cycles={cycles}', *(['+each'] if each else [])]


def in_cpp(net):
    """What Verilator calls a net of a port."""
    return 'circuit.' + net.replace('__', '___05F')


def stored_as(width):
    """The type in C++ that has a net of so many bits, and its letter for Python's `struct`."""
    return next((f'uint{bits}_t', letter) for bits, letter in ((8, 'B'), (16, 'H'), (32, 'I'), (64, 'Q')) if width <= bits)


def verilator_main(replay, count):
    """A program around what Verilator makes of the circuit, for a file of so many moves: of each its cycle, and what each net is then."""
    inputs, outputs = map(nets, replay.sides())
    fields = '\n'.join(f'    {stored_as(width)[0]} {net};' for pin in replay.pins for net, width in benches.nets_of(pin))
    gives = '\n'.join(f'    {in_cpp(net)} = move.{net};' for net in inputs)
    shows = ' && '.join(f'{in_cpp(net)} == move.{net}' for net in outputs)
    return MAIN.format(fields=fields, gives=gives, shows=shows, count=count)


def numbers(pins, now):
    """What each net of these pins is in a cycle, by the values of its events."""
    for pin in pins:
        yield int(pin.name in now)
        if pin.bits:
            yield now.get(pin.name) or 0


def write_moves(replay, moves):
    """Writes the moves as the program reads them: without gaps, the least byte of each number first."""
    letters = ''.join(stored_as(width)[1] for pin in replay.pins for _, width in benches.nets_of(pin))
    packed = struct.Struct(f'<I{letters}').pack
    with (replay.folder / 'moves.dat').open('wb') as file:
        file.writelines(packed(cycle, *numbers(replay.pins, now)) for cycle, now in moves)


def by_verilator(replay):
    """Makes the program by Verilator, and gives its command for a number of cycles."""
    moves = replay.moves()
    write_moves(replay, moves)
    (replay.folder / 'main.cpp').write_text(verilator_main(replay, len(moves)))
    called(['verilator', *VERILATOR, f'gos_{replay.pins[0].port}', replay.verilog, 'main.cpp'], replay.folder)
    return lambda cycles, each=False: ['obj_dir/Vcircuit', str(cycles), str(int(each))]


@dataclass
class Simulator:
    """A simulator: the command that has to be installed, what makes its own one for a replay, and of how many cycles one is enough to
    measure it."""
    command: str
    made_by: Callable
    share: int

    def is_there(self):
        return shutil.which(self.command) is not None


SIMULATORS = {'vvp': Simulator('iverilog', by_vvp, 10), 'Verilator': Simulator('verilator', by_verilator, 1)}
