#!/usr/bin/env python3
"""Measures how fast Verilog texts are written and read.

    bench/verilog.py [CELLS]

It needs `rt`, and the crates below gos_verilog have to be proved. A program that reads a netlist, accepts it, writes its
Verilog text and reads that back is built in a copy of these crates, with an active circuit of bench/circuits.py of so many
cells, 1,000,000 without a word. It is run for each step and up to it, and prints the megabytes of Verilog text that are
written and read in a second of the processor's time; the best of three runs counts.
"""

import resource
import shutil
import subprocess
import sys
import tempfile
from pathlib import Path

import circuits

sys.path.append(str(Path(__file__).resolve().parent.parent / 'tools'))

import manners  # noqa: E402  (it stands in the folder of tools)

TOP = Path(__file__).resolve().parent.parent
CRATES = ['gos_types', 'gos_lex', 'gos_netlist', 'gos_netcheck', 'gos_verilog']
STEPS = ['accept', 'write', 'read']
MAIN = '''// Reads a netlist, accepts it, and as its word says writes its Verilog text and reads that back. It prints how many bytes
// were written.
#![tactic(auto)]

use gos_netcheck::accept;
use gos_netlist::read_net;
use gos_verilog::{read_verilog, write_verilog};
use std::alloc::Global;
use std::process::ExitCode;
use std::rt::HostRuntime;
use std::{env, fs};

fn main(rt: HostRuntime) -> ExitCode {
    let mut words = match env::args(&rt) {
        Ok(words) => words.skip(1),
        Err(_) => return ExitCode::from(2),
    };
    let steps = match words.next() {
        Some(word) if word.as_str() == "read" => 2,
        Some(word) if word.as_str() == "write" => 1,
        _ => 0,
    };
    let text = match fs::read(&rt, "bench.net") {
        Ok(text) => text,
        Err(_) => return ExitCode::from(3),
    };
    match run(rt.alloc(), &text, steps) {
        Some(written) => match println!(rt; "{written}") {
            Ok(()) => ExitCode::from(0),
            Err(_) => ExitCode::from(4),
        },
        None => ExitCode::from(5),
    }
}

// How many bytes were written; none where a step failed.
fn run(alloc: Global, text: &[u8], steps: u32) -> Option<usize> {
    let net = read_net(alloc, text).ok()?;
    let checked = accept(alloc, net).ok()?;
    if steps == 0 {
        return Some(0);
    }
    let verilog = write_verilog(alloc, &checked).ok()?;
    if steps == 2 {
        read_verilog(alloc, &verilog).ok()?;
    }
    Some(verilog.len())
}
'''


def build(folder):
    """The program, in a copy of the crates that it needs."""
    names = {line.split(':')[0]: line for line in (TOP / 'crates.txt').read_text().split('\n') if line.split(':')[0] in CRATES}
    for name in CRATES:
        shutil.copytree(TOP / 'crates' / name, folder / 'crates' / name)
    program = folder / 'crates' / 'verilog_bench'
    (program / 'src').mkdir(parents=True)
    (program / 'src' / 'main.rt').write_text(MAIN)
    lines = [*names.values(), 'verilog_bench: ' + ' '.join(sorted(CRATES))]
    (folder / 'crates.txt').write_text('\n'.join(lines) + '\n')
    subprocess.run(['rt', 'run', '--', 'none'], cwd=program, check=False)
    return program / 'out' / 'verilog_bench'


def spent():
    """The seconds that the processor has spent on programs that were run."""
    used = resource.getrusage(resource.RUSAGE_CHILDREN)
    return used.ru_utime + used.ru_stime


def run(program, folder, step):
    """The seconds that a step and those before it take, and how many bytes are written."""
    best = None
    for _ in range(3):
        start = spent()
        done = subprocess.run([program, step], cwd=folder, check=True, capture_output=True, text=True)
        took = spent() - start
        best = took if best is None else min(best, took)
    return best, int(done.stdout)


def main(words):
    parser = manners.Parser(__doc__)
    parser.add_argument('cells', metavar='CELLS', type=manners.count, nargs='?', default=1_000_000)
    cells = parser.parse_args(words).cells
    if not shutil.which('rt'):
        raise manners.Wrong("the toolchain's command rt is not found")
    with tempfile.TemporaryDirectory() as name:
        folder = Path(name)
        subprocess.run(['git', 'init', '-q', folder], check=True)
        program = build(folder)
        (folder / 'bench.net').write_text(circuits.netlist(circuits.tiled(cells)))
        (accepted, _), (written, size), (read, _) = (run(program, folder, step) for step in STEPS)
    megabytes = size / 1e6
    print(f'{cells} cells, {megabytes:.0f} MB: written {megabytes / (written - accepted):.0f}, read {megabytes / (read - written):.0f} MB a second')


if __name__ == '__main__':
    sys.exit(manners.ended(main, sys.argv[1:]))
