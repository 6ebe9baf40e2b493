"""Build files, netlists and traces as files, and runs of the program gos: what the tools share, and how they end."""
import os
import subprocess
from dataclasses import dataclass, field
from pathlib import Path

import ports
from manners import FILE_IS_WRONG, WORDS_ARE_WRONG, Parser, Wrong, ended  # noqa: F401  (tools have them from here)

TOP = Path(__file__).resolve().parent.parent
# The status of a tool where a run is wrong, beside those of manners.
RUN_IS_WRONG = 3
MOST_CYCLES = 1_000_000
# The words of a build file's lines of which there is one each.
SINGLE = {"root", "net", "verilog", "pulses", "trace"}


@dataclass
class Instance:
    """A line `inst` of a build file."""

    name: str
    source: str
    object: str


@dataclass
class Build:
    """What a build file says: its instances, its `bind` lines as their words, and by their words its root and its other files."""

    instances: list = field(default_factory=list)
    binds: list = field(default_factory=list)
    files: dict = field(default_factory=dict)


def read_text(name):
    """The text of a file."""
    try:
        return Path(name).read_text(errors="replace")
    except OSError as error:
        raise Wrong(f"{name}: {error.strerror or error}") from error


def write_text(name, text):
    try:
        Path(name).write_text(text)
    except OSError as error:
        raise Wrong(f"{name}: {error.strerror or error}") from error


def statements(text):
    """The lines of a build file or a pulse file that say something, each with its number and its words."""
    for number, line in enumerate(text.split("\n"), 1):
        words = line.split()
        if words and not words[0].startswith("#"):
            yield number, words


def is_build(text):
    return next((words for _, words in statements(text)), None) == ["gosbuild", "1"]


def said_by(text):
    """The build that a text's lines say, whatever else stands there and whatever is missing."""
    build = Build()
    for _, (word, *said) in statements(text):
        if word == "inst" and len(said) == 3:
            build.instances.append(Instance(*said))
        elif word == "bind" and len(said) == 3:
            build.binds.append(said)
        elif word in SINGLE and len(said) == 1:
            build.files[word] = said[0]
    return build


def build_of(name, text):
    """The build of a build file's text; the program itself says what is wrong with one."""
    if not is_build(text):
        raise Wrong(f"{name}: this is no build file")
    build = said_by(text)
    missing = SINGLE - build.files.keys()
    if missing:
        raise Wrong(f"{name}: it has no line of {', '.join(sorted(missing))}")
    return build


def beside(build, name):
    """Where a file stands that isn't there by its name, but beside the build file that names it; nothing for others."""
    other = os.path.join(os.path.dirname(build), name)
    return other if os.path.exists(other) and not os.path.exists(name) else ""


def rule_of_names(build):
    return f"the names in {build} are paths from the folder that gos is called in"


def files_there(name, build, sorts, by="build"):
    """The files of these sorts that a build file names, each of which is there. All but a pulse file are written by gos."""
    for sort in sorts:
        if not Path(build.files[sort]).is_file():
            yet = "" if sort == "pulses" else f" yet: gos {by} {name} writes it"
            if other := beside(name, build.files[sort]):
                yet = f", but {other} is: {rule_of_names(name)}"
            raise Wrong(f"{build.files[sort]} isn't there{yet}")
    return [build.files[it] for it in sorts]


def files_of(words, parser, sorts):
    """The three files of these sorts that words name: each of them, or the build file that names them."""
    if len(words) == len(sorts):
        return words
    if len(words) != 1:
        parser.error("there is one file, BUILD, or there are three")
    return files_there(words[0], build_of(words[0], read_text(words[0])), sorts)


def read_ports(name, text=None):
    """The ports of the netlist in a file, or of a text that was read from it."""
    text = read_text(name) if text is None else text
    try:
        if not text.startswith("gosnet 1\n"):
            raise ValueError
        return ports.ports_of(text)
    except (ValueError, KeyError, IndexError, StopIteration) as error:
        raise Wrong(f"{name}: this is no netlist; gos sim says where it stops being one") from error


def read_trace(name, events):
    """The pulses of a trace of a netlist with these events, each as its cycle, its event and its value or none; and its cycles."""
    try:
        pulses, cycles = ports.pulses_of(read_text(name))
    except (ValueError, IndexError) as error:
        raise Wrong(f"{name}: this is no trace") from error
    unknown = {event for _, event, _ in pulses} - set(events)
    if unknown or not cycles:
        raise Wrong(f"{name}: this is no trace of this netlist" + (f", which has no event {min(unknown)}" if unknown else ""))
    return pulses, cycles


def read_run(net, trace):
    """The ports of a netlist, and the pulses and cycles of a trace of it, of which each pulse is in its turn and of its bits."""
    found = read_ports(net)
    bits = {event.name: event.bits for port in found for event in port.events}
    pulses, cycles = read_trace(trace, bits)
    if cycles > MOST_CYCLES:
        raise Wrong(f"{trace}: this is no trace: {cycles} cycles, and {MOST_CYCLES} are the most")
    before = 0
    for cycle, name, value in pulses:
        if not before <= cycle < cycles or (value is None) == (bits[name] > 0) or (value or 0) >> bits[name]:
            raise Wrong(f"{trace}: this is no trace of this netlist, with {name} in cycle {cycle}{'' if value is None else f' of {value}'}")
        before = cycle
    return found, pulses, cycles


def call(gos, *words):
    """Runs gos, and gives the line that it prints. Each other status than 0 is an error."""
    try:
        ran = subprocess.run([str(gos), *map(str, words)], stdout=subprocess.PIPE, text=True, check=False)
    except OSError as error:
        raise Wrong(f"{gos}: {error.strerror or error}", RUN_IS_WRONG) from error
    if ran.returncode:
        raise Wrong(ran.stdout.strip() or f"gos {' '.join(map(str, words))} ended with status {ran.returncode}", RUN_IS_WRONG)
    return ran.stdout.strip()


def link(gos, name, build):
    """Compiles each source of a build and links them: its netlist and its Verilog text are written."""
    for it in build.instances:
        call(gos, "compile", it.source, it.object)
    return call(gos, "link", name)
