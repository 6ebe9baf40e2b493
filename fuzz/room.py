"""A folder in which cases are run, one after the other, and what a run leaves in it."""

import multiprocessing
import os
import resource
import shutil
import signal
from pathlib import Path

from oracle import Run

# After so many seconds a run is ended.
PATIENCE = 300
FULL = '/dev/full'


class Watch:
    """Looks each second, while a program runs, whether it is one of those that have to be ended."""

    def __init__(self):
        self.parent, self.left = os.getppid(), 0
        signal.signal(signal.SIGALRM, self.look)

    def begin(self):
        self.left = PATIENCE
        signal.setitimer(signal.ITIMER_REAL, 1, 1)

    def look(self, *_):
        self.left -= 1
        if self.left <= 0 or self.is_alone():
            raise TimeoutError

    def is_alone(self):
        """Whether nobody is there any more who waits for an answer."""
        return os.getppid() != self.parent


class Room:
    """A folder of its own, which is the current one from then on, and the program."""

    def __init__(self, gos, folder):
        self.gos, self.folder = os.path.abspath(gos), folder
        inside = Path(folder, 'files')
        inside.mkdir(parents=True)
        os.chdir(inside)
        self.said = os.open(Path(folder, 'said'), os.O_RDWR | os.O_CREAT | os.O_APPEND)
        self.starter, theirs = multiprocessing.Pipe()
        fork = multiprocessing.get_context('fork')
        fork.Process(target=start, args=(theirs, self.starter, self.gos, self.said), daemon=True).start()
        theirs.close()

    def lay(self, case):
        """Empties the folder and puts the files of a case there."""
        for entry in list(os.scandir()):
            if entry.is_dir(follow_symlinks=False):
                shutil.rmtree(entry.name)
            else:
                os.unlink(entry.name)
        for name in case.folders:
            os.makedirs(name, exist_ok=True)
        for name, data in case.files.items():
            if '/' in name:
                os.makedirs(os.path.dirname(name), exist_ok=True)
            write(name, data)
        for name in case.full:
            os.symlink(FULL, name)

    def files(self):
        """The files that there are, by their names, and the names of folders. A device is none of both."""
        found, folders, left = {}, [], ['']
        while left:
            for entry in os.scandir(left.pop() or '.'):
                name = entry.path.removeprefix('./')
                if entry.is_dir(follow_symlinks=False):
                    folders.append(name)
                    left.append(name)
                elif not entry.is_symlink():
                    with open(name, 'rb') as file:
                        found[name] = file.read()
        return found, folders

    def run(self, words):
        """Runs the program to its end. What it says on standard error counts as part of its line: it says nothing there."""
        os.ftruncate(self.said, 0)
        self.starter.send(words)
        status, seconds, memory = self.starter.recv()
        line = os.pread(self.said, 1 << 26, 0).decode('latin-1')
        return Run(status, line, self.files()[0], seconds, memory)


def start(orders, other_end, gos, said):
    """Runs the program with each list of words that comes, and answers with its status, seconds and bytes of memory.

    This is the whole of a process that stays small: the system counts the memory of whoever starts a program as the program's.
    """
    other_end.close()
    nothing = os.open(os.devnull, os.O_RDONLY)
    ends = [(os.POSIX_SPAWN_DUP2, file, at) for at, file in enumerate((nothing, said, said))]
    signal.signal(signal.SIGINT, signal.SIG_IGN)
    watch = Watch()
    try:
        while not watch.is_alone():
            child = os.posix_spawn(gos, [gos, *orders.recv()], {}, file_actions=ends)
            status, used = end(child, watch)
            orders.send((os.waitstatus_to_exitcode(status), used.ru_utime + used.ru_stime, used.ru_maxrss * 1024))
    except (EOFError, BrokenPipeError):
        pass


def end(child, watch):
    """Waits for a program that was started, and ends it where it takes too long. Answers its status, and what it used."""
    watch.begin()
    try:
        _, status, used = os.wait4(child, 0)
    except TimeoutError:
        os.kill(child, signal.SIGKILL)
        _, status, used = os.wait4(child, 0)
    finally:
        signal.setitimer(signal.ITIMER_REAL, 0)
    return status, used


def write(name, data):
    file = os.open(name, os.O_WRONLY | os.O_CREAT | os.O_TRUNC)
    try:
        while data:
            data = data[os.write(file, data):]
    finally:
        os.close(file)


def take_stack():
    """Lets programs that are started have as much stack as the system gives: a preview wants it."""
    _, most = resource.getrlimit(resource.RLIMIT_STACK)
    resource.setrlimit(resource.RLIMIT_STACK, (most, most))
