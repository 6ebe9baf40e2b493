"""The record of a program, by which one tells of which sources it is, and that it is this one: what tools/prove and
tools/lib/preview write, and tools/lib/programs.bash compares."""
import subprocess
from pathlib import Path

RECORD = Path(__file__).resolve().parent / "record"
# The lines of a preview's record: of the sources, and of the program. That of a proved program has one of the proofs besides.
OF_PREVIEW, OF_PROVED = 2, 3


def record(*words):
    """What tools/lib/record prints, as its lines: that of the sources, with a program's path its own, and that of the proofs."""
    return subprocess.run([RECORD, *words], check=True, capture_output=True, text=True).stdout.splitlines()


def is_right(program, kept, lines):
    """Whether so many lines of the record that is kept in a file are those of now, where it and the program are there."""
    return program.exists() and kept.exists() and kept.read_text().splitlines()[:lines] == record(program)[:lines]


def keep(kept, lines, new):
    """Puts a record into its file, which has all of it or what it had before; `new` is a name that it has meanwhile."""
    new.write_text("\n".join(lines) + "\n")
    new.replace(kept)
