"""yosys and abc as gos-formal runs them: under one clock, and with what they say taken for no more than it is."""
import os
import re
import shutil
import signal
import subprocess
import sys
import time
from dataclasses import dataclass
from pathlib import Path

import builds
import gates

PROVED = re.compile(r"^Property proved\.", re.M)
CHECKED = re.compile(r"^Verification of invariant with \d+ clauses was successful\.", re.M)
FAILED = re.compile(r"^Output 0 of miter \S+ was asserted in frame (\d+)\.", re.M)
SEARCHED = re.compile(r"^No output asserted in (\d+) frames\.", re.M)
SIZE = re.compile(r"i/o =\s*(\d+)/\s*(\d+)\s+lat =\s*(\d+)")
IS_OPEN = 4
# How often the line of progress is made anew, and when it is first made, in seconds.
PULSE, PATIENCE = 0.5, 2


class Clock:
    """The time that is left of so many seconds by the clock, and the line that tells on a terminal what is done meanwhile."""

    def __init__(self, seconds):
        self.seconds, self.begun = seconds, time.monotonic()
        self.tells = sys.stderr.isatty()
        self.told = False

    def gone(self):
        return time.monotonic() - self.begun

    def left(self):
        return self.seconds - self.gone()

    def tell(self, text):
        if self.tells and self.gone() > PATIENCE:
            line = f"{text}: {self.gone():.0f} of {self.seconds} s"
            print(f"\r\033[K{line[: shutil.get_terminal_size().columns - 1]}", end="", file=sys.stderr, flush=True)
            self.told = True

    def closes(self):
        """Takes the line away."""
        if self.told:
            print("\r\033[K", end="", file=sys.stderr, flush=True)
            self.told = False

    def run(self, words, folder, seconds, doing):
        """What a command prints, and its status, which is none where it took longer than so many seconds or than what is left."""
        ends = time.monotonic() + min(seconds, self.left())
        if ends <= time.monotonic():
            return "", None
        process = subprocess.Popen(words, cwd=folder, stdout=subprocess.PIPE, stderr=subprocess.STDOUT, stdin=subprocess.DEVNULL,
                                   text=True, errors="replace", start_new_session=True)
        try:
            while True:
                try:
                    said, _ = process.communicate(timeout=max(0.01, min(PULSE, ends - time.monotonic())))
                    return said, process.returncode
                except subprocess.TimeoutExpired:
                    self.tell(doing)
                    if time.monotonic() >= ends:
                        return "", None
        finally:
            if process.returncode is None:
                os.killpg(process.pid, signal.SIGKILL)
                process.communicate()


class NoTime(builds.Wrong):
    """That the time was over before anything was asked."""


@dataclass
class Answer:
    """What abc says of an output: that it is never 1, the inputs of a run in which it is, cycle by cycle; or neither, and then in
    how many cycles it isn't 1, that of reset among them."""

    is_never: bool = False
    rows: list = None
    searched: int = 0


def abc():
    return next(filter(None, map(shutil.which, ("berkeley-abc", "yosys-abc", "abc"))), None)


def asked(folder, made, command, seconds, clock, doing):
    """What abc says to a command, of a circuit with one output; nothing where it had no time, or took it for another circuit."""
    folder = Path(folder)
    (folder / "cone.aig").write_bytes(gates.binary(made))
    (folder / "cex.txt").unlink(missing_ok=True)
    script = f"read_aiger cone.aig; print_stats; strash; {command}; write_cex -a cex.txt"
    said, status = clock.run([abc(), "-s", "-c", script], folder, seconds, doing)
    size = SIZE.search(said)
    if status != 0 or not size or [int(it) for it in size.groups()] != [len(made.inputs), 1, len(made.nexts)]:
        return ""
    return "" if re.search(r"\berror\b|cannot|fail", said, re.I) else said


def rows_of(folder, made, frames):
    """The inputs of the run that abc left, cycle by cycle."""
    file = Path(folder) / "cex.txt"
    bits = re.sub(r"#.*|\s", "", file.read_text()) if file.exists() else ""
    width, first = len(made.inputs), len(made.nexts)
    if len(bits) != first + frames * width or bits.strip("01") or "1" in bits[:first]:
        return None
    return [[int(bit) for bit in bits[first + at * width : first + (at + 1) * width]] for at in range(frames)]


def judged(said, folder, made):
    """The answer of abc: a proof, of which it checked the invariant; a run that was tried here; or neither."""
    failed, searched = FAILED.search(said), SEARCHED.search(said)
    if failed:
        rows = rows_of(folder, made, int(failed[1]) + 1)
        literal = made.outputs[""]
        if rows and gates.value(gates.at_end(made, rows), literal):
            return Answer(rows=rows)
        return Answer()
    if PROVED.search(said) and CHECKED.search(said):
        return Answer(is_never=True)
    return Answer(searched=int(searched[1]) if searched else 0)


def prove(folder, made, seconds, clock, doing):
    """Searches for a proof that the output of a circuit is never 1."""
    if made.outputs[""] == 0:
        return Answer(is_never=True)
    return judged(asked(folder, made, "pdr", seconds, clock, doing), folder, made)


def search(folder, made, frames, seconds, clock, doing):
    """Searches for the shortest run of so many cycles in which the output of a circuit is 1: in more and more of them, since abc
    tells of cycles that it was done with only where it comes to its end."""
    if made.outputs[""] == 0:
        return Answer(searched=frames)
    ends, best, depth = clock.gone() + seconds, Answer(), 8
    while best.rows is None and best.searched < frames and clock.gone() < ends and clock.left() > 0:
        depth = min(depth, frames)
        said = asked(folder, made, f"bmc3 -F {depth}", ends - clock.gone(), clock, doing)
        found = judged(said, folder, made)
        if found.rows is None and found.searched < depth and "all reachable states" not in said:
            break
        best = Answer(rows=found.rows, searched=depth)
        depth *= 2
    return best


def yosys(commands, folder, clock):
    """What yosys prints of a script, and whether it came to its end."""
    said, status = clock.run(["yosys", "-q", "-p", "; ".join(commands)], folder, clock.left(), "yosys reads the circuit")
    if status is None:
        raise NoTime(f"open: yosys did not end in {clock.seconds} seconds", IS_OPEN)
    return said, status == 0
