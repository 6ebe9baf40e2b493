"""How each script of this repository begins and ends.

A script goes through `ended`, which runs its main function. Whatever happens then, a line of standard error says what, and no traceback
does. The statuses that all scripts have in common are

    70    something in the script itself went wrong; the line says where
    74    standard output is closed or can't be written, as where a disk is full
    129   the terminal is gone; 130 Ctrl-C; 143 another one ended the script
    141   who reads the output has gone, as `head` does; nothing is said then

The scripts want Python 3.10 or later, which is looked at here: this module, and the scripts themselves, are written in what older ones
can read, so that they come so far.
"""
import argparse
import contextlib
import errno
import io
import os
import shutil
import signal
import sys
import threading
import time
import traceback
from concurrent import futures
from pathlib import Path

LEAST = (3, 10)
if sys.version_info < LEAST:
    sys.exit("%s: this wants Python %d.%d or later, and is run by %d.%d" % (sys.argv[0], *LEAST, *sys.version_info[:2]))

TOOLS = Path(__file__).resolve().parent
WORDS_ARE_WRONG, FILE_IS_WRONG = 1, 2
SCRIPT_IS_WRONG, OUTPUT_IS_GONE, READER_IS_GONE = 70, 74, 141
# What the script is ended by, beside Ctrl-C.
ENDINGS = (signal.SIGTERM, signal.SIGHUP)


class Wrong(Exception):
    """What is wrong with a file or with a run, in a sentence, and the status that a script ends with."""

    def __init__(self, said, status=FILE_IS_WRONG):
        super().__init__(said)
        self.status = status


class Parser(argparse.ArgumentParser):
    """Words of a command: its help is the docstring of the script, and wrong words end with status 1."""

    def __init__(self, doc):
        super().__init__(description=doc, prog=name_of(sys.argv[0]), usage=argparse.SUPPRESS)

    def format_help(self):
        return f"{self.description.strip()}\n"

    def error(self, message):
        print(f"{self.prog}: {message}; {self.prog} --help says more", file=sys.stderr)
        raise SystemExit(WORDS_ARE_WRONG)


def name_of(script):
    """What a script is called: its name where it is one of the tools, else its path from the top of the repository."""
    path = Path(script).resolve()
    if path.parent == TOOLS or TOOLS.parent not in path.parents:
        return path.name
    return str(path.relative_to(TOOLS.parent))


def say(text):
    """Says a text on standard error, where that can be written."""
    with contextlib.suppress(OSError, ValueError, AttributeError):
        sys.stderr.write(f"{text}\n")
        sys.stderr.flush()


def count(word):
    """A number of things, from 1 on, that a word says."""
    if not word.isdecimal() or not int(word):
        raise argparse.ArgumentTypeError(f"{word} is no number from 1 on")
    return int(word)


def program(word):
    """The whole path of a program that a word names."""
    path = os.path.abspath(word)
    if not os.path.isfile(path):
        raise Wrong(f"{word} isn't there" if not os.path.exists(path) else f"{word} is no program")
    if not os.access(path, os.X_OK):
        raise Wrong(f"{word} may not be run")
    return path


class Output(io.FileIO):
    """Standard output: an error in writing it names it."""

    NAME = "standard output"

    def __init__(self):
        super().__init__(sys.__stdout__.fileno(), "w", closefd=False)

    def write(self, data):
        try:
            return super().write(data)
        except OSError as why:
            why.filename = self.NAME
            raise


def take_output():
    """Has what is printed go through `Output`."""
    if sys.stdout is None:
        raise OSError(errno.EBADF, "it is closed", Output.NAME)
    if sys.stdout is sys.__stdout__:
        how = {"encoding": sys.stdout.encoding, "errors": sys.stdout.errors, "line_buffering": sys.stdout.line_buffering}
        sys.stdout = io.TextIOWrapper(io.BufferedWriter(Output()), write_through=sys.stdout.write_through, **how)


def ended(main, words):
    """What a script ends with: the status of its main function, or that of what went wrong, which is said."""
    name = name_of(sys.argv[0])
    with ended_by_signals():
        try:
            take_output()
            if words[:1] in (["-h"], ["--help"]):
                print(main.__globals__["__doc__"].strip())
                status = 0
            else:
                status = main(words) or 0
            return flushed(name, status)
        except BaseException as why:  # whatever it is, it becomes a line and a status
            return why_ended(name, why)


def why_ended(name, why):
    """Says what a script was ended by, and gives the status for it."""
    if isinstance(why, SystemExit):
        return flushed(name, status_of_exit(why.code))
    if isinstance(why, Wrong):
        say(why)
        return flushed(name, why.status)
    if isinstance(why, KeyboardInterrupt):
        say(f"{name}: ended by Ctrl-C")
        return flushed(name, 128 + signal.SIGINT)
    if isinstance(why, OSError):
        return of_file(name, why)
    if isinstance(why, MemoryError):
        say(f"{name}: memory ran out")
        return flushed(name, SCRIPT_IS_WRONG)
    place = traceback.extract_tb(why.__traceback__)[-1]
    say(f"{name}: something in it went wrong, at {name_of(place.filename)}:{place.lineno}: {type(why).__name__}: {why}")
    return flushed(name, SCRIPT_IS_WRONG)


def of_file(name, why):
    """Says which file couldn't be read or written, and gives the status for that."""
    if why.filename != Output.NAME:
        say(": ".join(str(it) for it in (name, why.filename, why.strerror or why) if it is not None))
        return flushed(name, FILE_IS_WRONG)
    drop_output()
    if isinstance(why, BrokenPipeError):
        return READER_IS_GONE
    say(f"{name}: {why.filename} can't be written: {why.strerror}")
    return OUTPUT_IS_GONE


def status_of_exit(code):
    """The status of a script that ended itself by a number or a sentence."""
    if isinstance(code, str):
        say(code)
        return WORDS_ARE_WRONG
    return code or 0


def flushed(name, status):
    """The status, where all that was printed before can be written. Else it is that which tells of the failure, unless there is one."""
    try:
        if sys.stdout is not None:
            sys.stdout.flush()
    except OSError as why:
        gone = of_file(name, why)
        return status or gone
    return status


def drop_output():
    """Drops what is left to be printed: else it is tried once more at the end."""
    with contextlib.suppress(OSError, ValueError, AttributeError):
        os.dup2(os.open(os.devnull, os.O_WRONLY), sys.stdout.fileno())
        sys.stdout.flush()


@contextlib.contextmanager
def ended_by_signals():
    """Has the signals by which others end a script end it as it ends itself, so that what it keeps for a while is removed."""

    def end(number, _):
        raise SystemExit(128 + number)

    if threading.current_thread() is not threading.main_thread():
        yield
        return
    # (one that is passed over, as under nohup, stays so)
    before = {it: signal.signal(it, end) for it in ENDINGS if signal.getsignal(it) is signal.SIG_DFL}
    try:
        yield
    finally:
        for number, handler in before.items():
            signal.signal(number, handler)


def hush(kind, why, trace):
    """Says in a line that Ctrl-C came while a script's modules were read."""
    if kind is KeyboardInterrupt:
        say(f"{name_of(sys.argv[0])}: ended by Ctrl-C")
    else:
        sys.__excepthook__(kind, why, trace)


sys.excepthook = hush


def result_of(future):
    """What comes of a future. It isn't waited for without end, since a signal that comes just before a wait isn't seen during it."""
    while not future.done():
        futures.wait([future], 1)
    return future.result()


class Progress:
    """How far a run has come, on standard error: on a terminal a line that changes each second, elsewhere a line each half a minute.

    Nothing is said of what is over sooner than two seconds. In a `with`, `step` counts what is done, `now` says what is being done, and
    `print` prints a line of the run's own.
    """

    PATIENCE, SELDOM = 2, 30

    def __init__(self, things="", total=0):
        self.name, self.things, self.total = name_of(sys.argv[0]), things, total
        self.done, self.doing, self.begun, self.shown = 0, "", time.monotonic(), ""
        self.is_terminal = sys.stderr is not None and sys.stderr.isatty() and os.environ.get("TERM") != "dumb"
        self.over, self.lock = threading.Event(), threading.RLock()
        self.teller = threading.Thread(target=self.tell, daemon=True)

    def __enter__(self):
        self.teller.start()
        return self

    def __exit__(self, *_):
        self.over.set()
        self.teller.join()
        self.show("")

    def step(self, count=1):
        self.done += count

    def now(self, doing):
        self.doing = doing

    def print(self, line):
        """Prints a line, in the place of the one that changes."""
        with self.lock:
            self.show("")
            print(line, flush=True)

    def tell(self):
        """Says how far it is, again and again, until it is over."""
        wait = self.PATIENCE if self.is_terminal else self.SELDOM
        while not self.over.wait(wait):
            self.show(str(self))
            wait = 1 if self.is_terminal else self.SELDOM

    def __str__(self):
        counted = [f"{self.done} of {self.total} {self.things}"] if self.total else []
        doing = [self.doing] if self.doing else []
        return f"{self.name}: {', '.join([*counted, *doing, f'{time.monotonic() - self.begun:.0f} s'])}"

    def show(self, line):
        with self.lock, contextlib.suppress(OSError, ValueError):
            if self.is_terminal:
                line = line[:shutil.get_terminal_size().columns - 1]
                if line or self.shown:
                    sys.stderr.write(f"\r{line}\033[K")
                self.shown = line
            elif line:
                sys.stderr.write(f"{line}\n")
            sys.stderr.flush()
