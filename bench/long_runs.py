#!/usr/bin/env python3
"""Measures `gos build` where the run is long: 1,000,000 cycles, of a program that runs its imports one after the other.

    bench/long_runs.py GOS

GOS is the program. Each line tells the imports, the entries of the pulse file, the pulses and the size of the trace, the time of
the processor, the least of three runs, and the most memory.
"""
import resource
import subprocess
import sys
import tempfile
from pathlib import Path

sys.path.insert(0, str(Path(__file__).resolve().parent.parent / "tools"))
import manners  # noqa: E402  (it stands in that folder)

# The imports, and the entries of the pulse file.
RUNS = [(2, 3), (2, 100_000), (64, 100_000)]
TIMES = 3
BUILD = "gosbuild 1\ninst main main.gos main.obj\nroot main\nnet out.net\nverilog out.v\npulses in.pls\ntrace out.trc\n"


def write(folder, imports, entries):
    """A build of so many imports, which are run again and again until the entries are used up."""
    names = [f"c{place}" for place in range(imports)]
    round_of_all = ["next 0 main.run", *(f"next 0 {name}.done" for name in names)]
    given = [round_of_all[place % len(round_of_all)] for place in range(entries)]
    source = "".join(f"import {name} : com\n" for name in names) + f"export {' ; '.join(names)} : com\n"
    for name, text in (("main.gos", source), ("b.txt", BUILD), ("in.pls", "\n".join(["cycles 1000000", *given, ""]))):
        (folder / name).write_text(text)


def seconds(gos, folder):
    """The processor's time of a build, and the line that it prints."""
    before = resource.getrusage(resource.RUSAGE_CHILDREN)
    ran = subprocess.run([gos, "build", "b.txt"], cwd=folder, capture_output=True, text=True)
    after = resource.getrusage(resource.RUSAGE_CHILDREN)
    if ran.returncode:
        sys.exit(f"{gos} build ended with {ran.returncode}: {ran.stdout}{ran.stderr}")
    return after.ru_utime + after.ru_stime - before.ru_utime - before.ru_stime, ran.stdout.split()


def measure(gos, imports, entries):
    """Prints the line of a run. The most memory is that of all runs so far, which need more and more."""
    with tempfile.TemporaryDirectory() as room:
        folder = Path(room)
        write(folder, imports, entries)
        took, told = min((seconds(gos, folder) for _ in range(TIMES)), key=lambda it: it[0])
        size, memory = (folder / "out.trc").stat().st_size, resource.getrusage(resource.RUSAGE_CHILDREN).ru_maxrss
    print(f"{imports} imports, {entries:,} entries: {told[6]} pulses, {size:,} bytes of trace, {took:.2f} s, {memory // 1024} MB", flush=True)


def main(words):
    parser = manners.Parser(__doc__)
    parser.add_argument("gos", metavar="GOS")
    gos = manners.program(parser.parse_args(words).gos)
    for counts in RUNS:
        measure(gos, *counts)


if __name__ == "__main__":
    sys.exit(manners.ended(main, sys.argv[1:]))
