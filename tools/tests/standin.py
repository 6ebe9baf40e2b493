"""A small repository with the scripts of this one and a command rt that proves nothing, for tests of the scripts.

Its crates are `gos` over `gos_top` over `gos_left` and `gos_right` over `gos_low`, the second program `gos_flow_main` over `gos_low`,
and `gos_tests`, which no program needs.
Each run of this rt is two lines of `journal`. It makes programs that do what the given lines of a shell say; `rt lib` fails where a
library below the crate isn't there, and where FAILS names the crate; `rt must-fail` says of each edit over which libraries it is
tried, and fails with FAILS. NO_TRY has `rt try` fail and say it, and REFUSED has it refuse the sources; MEET has `gos_left` and `gos_right`
wait for one another; KIT is what `rt version` prints. While there is a file `hold` each `rt lib` waits. No wait is longer than half
a minute.
"""
import os
import re
import shutil
import stat
import subprocess
import tempfile
import unittest
from pathlib import Path

TOP = Path(__file__).resolve().parent.parent.parent
CRATES = {
    "gos": "gos_top", "gos_flow_main": "gos_low", "gos_top": "gos_left gos_right", "gos_left": "gos_low thiserror", "gos_right": "gos_low",
    "gos_low": "", "gos_tests": "gos_top",
}
PROGRAM = """
case "$*" in "check none" | "verilog none other") exit 3 ;; esac
[ "$*" != "stack" ] || ulimit -S -s
echo "ok $*"
exit ${GOS_STATUS:-0}
"""
RT = """#!/bin/bash
# Waits until a command succeeds.
until_it() {
    for ((at = 0; at < 600; at++)); do
        if "$@"; then return; fi
        sleep 0.05
    done
}
has_second_name() { [ "$(stat -c %h "$1")" -gt 1 ]; }
is_gone() { [ ! -e "$1" ]; }
echo "said of $PWD: $*"
echo "begin $1 ${PWD##*/}" >>JOURNAL
case "$1" in
try)
    [ -z "$NO_TRY" ] || { echo "$NO_TRY"; exit 2; }
    if [ -n "$REFUSED" ]; then
        printf 'src/main.rt:1:2: error[unknown-name]: no x here\nrun=none proved=no\n'
        exit 1
    fi
    mkdir "$TMPDIR/rt-try"
    cp PROGRAM "$TMPDIR/rt-try/program"
    until_it has_second_name "$TMPDIR/rt-try/program"
    rm -r "$TMPDIR/rt-try"
    ;;
lib)
    until_it is_gone HOLD
    case "$MEET${PWD##*/}" in
    yesgos_left) until_it grep -q "begin lib gos_right" JOURNAL ;;
    yesgos_right) until_it grep -q "begin lib gos_left" JOURNAL ;;
    esac
    [ "$FAILS" != "${PWD##*/}" ] || exit 1
    for it in $(sed -n "s/^${PWD##*/}: \\(.*\\)/\\1/p" ../../crates.txt | tr ' ' '\\n' | grep gos); do
        [ -f ../$it/out/rlib/stamp ] || exit 1
    done
    mkdir -p out/rlib out/incremental
    cat src/lib.rt >out/rlib/stamp
    ;;
run)
    [ "$FAILS" != "${PWD##*/}" ] || exit 1
    mkdir -p out
    cp PROGRAM "out/${PWD##*/}"
    ;;
must-fail)
    for it in "${@:2}"; do
        for edit in crates/$it/must-fail/*; do
            echo "$it/${edit##*/}: refused, over $(echo crates/*/out/rlib/stamp)"
        done
    done
    [ -z "$FAILS" ] || exit 1
    ;;
ci)
    for it in gos gos_flow_main; do
        mkdir -p crates/$it/out
        cp PROGRAM crates/$it/out/$it
    done
    [ -z "$FAILS" ] || exit 1
    ;;
version)
    echo "$KIT"
    ;;
esac
echo "end $1 ${PWD##*/}" >>JOURNAL
"""


class Repository:
    def __init__(self, room, program=PROGRAM):
        self.top, self.bin, self.journal = Path(room) / "top", Path(room) / "bin", Path(room) / "journal"
        self.out, self.hold = self.top / "crates/gos/out", Path(room) / "hold"
        for name in ("tools", "docs", "lib", ".ci"):
            shutil.copytree(TOP / name, self.top / name, ignore=shutil.ignore_patterns("__pycache__"))
        for name in ("gos", "README.md", "HANDLES"):
            shutil.copy2(TOP / name, self.top / name)
        (self.top / "crates.txt").write_text("# All crates\n" + "".join(f"{name}: {uses}\n" for name, uses in CRATES.items()))
        for name in CRATES:
            (self.top / "crates" / name / "src").mkdir(parents=True)
            (self.top / "crates" / name / "src/lib.rt").write_text(f"// {name}\n")
            if name != "gos_right":
                (self.top / "crates" / name / "README.md").write_text(f"# {name}\n\nThe crate {name}. It is small.\n")
        self.bin.mkdir()
        self.write(self.bin / "program", f"#!/bin/bash\n{program}")
        places = {"JOURNAL": self.journal, "PROGRAM": self.bin / "program", "HOLD": self.hold}
        self.write(self.bin / "rt", re.sub("|".join(places), lambda found: str(places[found[0]]), RT))

    def write(self, path, text):
        path.write_text(text)
        path.chmod(stat.S_IRWXU)

    def environment(self, **more):
        """That of a shell with the line of the tutorial on PATH, where this rt is the toolchain's."""
        path = f"{self.top}:{self.top}/tools:{self.bin}:{os.environ['PATH']}"
        clean = {name: value for name, value in os.environ.items() if name not in ("GOS_PROVED", "GOS_QUIET", "RT_JOBS")}
        return {**clean, "PATH": path, "CI": "1", **more}

    def run(self, command, room, **more):
        """Runs a command of a shell in a folder."""
        how = {"cwd": room, "capture_output": True, "text": True, "env": self.environment(**more), "timeout": 900}
        return subprocess.run(["bash", "-c", command], **how)

    def stub(self, *names):
        """Has these scripts do nothing, and fail where FAILS is the path of one."""
        for name in names:
            (self.top / name).parent.mkdir(exist_ok=True)
            self.write(self.top / name, f'#!/bin/sh\n[ "$FAILS" != {name} ]\n')

    def runs(self, verb):
        """The crates in whose folders this rt was run so, in order of the beginnings."""
        lines = self.journal.read_text().splitlines() if self.journal.exists() else []
        return [line.split()[2] for line in lines if line.startswith(f"begin {verb} ")]


class Case(unittest.TestCase):
    """A test in a small repository, with a command rt that proves nothing."""

    def setUp(self):
        room = tempfile.TemporaryDirectory()
        self.addCleanup(room.cleanup)
        self.repository = Repository(room.name)
        self.top, self.out, self.room = self.repository.top, self.repository.out, Path(room.name) / "caller"
        self.room.mkdir()

    def do(self, command, **environment):
        return self.repository.run(command, self.room, **environment)
