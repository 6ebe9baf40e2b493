"""Rooms: repositories made of parts of this one, in which rt works beside what it does here; and who may work in a crate."""
import contextlib
import fcntl
import os
import re
import shutil
import sys
from dataclasses import dataclass
from pathlib import Path

TOP = Path(__file__).resolve().parent.parent.parent
CRATES = TOP / "crates"
# The crates whose `main` is a program: the first one's is gos, the other's has the words `verilog` and `netlist`.
PROGRAMS = ("gos", "gos_flow_main")
PARTS = ("src", "specs", "proofs")
# What rt makes of a library in its folder out/: the library, and what it keeps for the next time.
MADE = ("rlib", "incremental")
# Where rooms are made: in git's folder, as what rt sets aside. Anywhere else in a repository `rt ci` refuses a second crates.txt.
PLACE = TOP / ".git" if (TOP / ".git").is_dir() else CRATES / "gos/out"


@dataclass
class Crate:
    name: str
    # Its line in crates.txt, and the crates of the repository that the line lists.
    line: str
    uses: list
    # How long its proof may take on one processor, and that of the longest chain from it up to the program.
    seconds: float = 0
    chain: float = 0
    memory: float = 0


def say(text, end="\n"):
    print(text, end=end, file=sys.stderr, flush=True)


def listed():
    """The crates of crates.txt by their names."""
    rows = [row.partition("#")[0].strip() for row in (TOP / "crates.txt").read_text().splitlines()]
    words = {row.split(":")[0].split()[0]: (row, re.findall(r"[\w-]+", row.partition(":")[2])) for row in rows if row}
    return {name: Crate(name, row, [it for it in uses if it in words]) for name, (row, uses) in words.items()}


def below(crates, name):
    """The libraries below a crate, each behind those that it uses."""
    found = []

    def add(name):
        for it in crates[name].uses:
            if it not in found:
                add(it)
                found.append(it)

    add(name)
    return found


def link_or_copy(one, other):
    """Gives a file that rt made a second name, or copies it: of what it keeps, rt may write into all but the modules that it proved."""
    try:
        if "incremental" in Path(one).parts and not one.endswith(".oantt"):
            raise OSError
        os.link(one, other)
    except OSError:
        shutil.copy2(one, other)


def furnish(room, crates, linked):
    """Puts crates into a room: their sources and lines, and as links what rt made of them, which parts of it for each name."""
    for it in crates:
        own, other = CRATES / it.name, room / "crates" / it.name
        for part in PARTS:
            if (own / part).is_dir():
                shutil.copytree(own / part, other / part)
        for part in linked.get(it.name, ()):
            shutil.copytree(own / "out" / part, other / "out" / part, copy_function=link_or_copy)
    (room / "crates.txt").write_text("".join(f"{it.line}\n" for it in crates))


def hold(file, name):
    """Keeps others out of an open file or folder until it is closed, once they are out."""
    try:
        fcntl.flock(file, fcntl.LOCK_EX | fcntl.LOCK_NB)
    except BlockingIOError:
        say(f"gos: waiting for {name} to end")
        fcntl.flock(file, fcntl.LOCK_EX)
    except OSError:
        # (some file systems have no locks)
        pass


@contextlib.contextmanager
def all_held(crates):
    """Keeps every rt out of the crates' folders meanwhile, as rt itself does."""
    with contextlib.ExitStack() as closes:
        for name in sorted(crates):
            folder = os.open(CRATES / name, os.O_RDONLY)
            closes.callback(os.close, folder)
            hold(folder, f"another run of rt in crates/{name}")
        yield
