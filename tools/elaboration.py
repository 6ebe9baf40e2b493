"""The gates of a module around a circuit, by yosys, once it is known that each net in it is what it seems to be."""
import re
from dataclasses import dataclass

import builds
import gates
import harness as harnesses
import provers
import rtlil

OWN, AROUND, CIRCUIT = "claims.sv", "formal.sv", "circuit.v"
UNKNOWN_NAME = re.compile(r"Identifier `\\(\S+)' is implicitly declared")
DECLARED_TWICE = re.compile(r"[Rr]e-?(?:declaration|definition) of \w+ `?\\([^\s.']+)")
NO_MODULE = re.compile(r"Module `\\(\S+)' referenced in module `\\claims'")
DECLARES = r"\b(?:wire|reg|logic|bit|integer|input|output|inout|parameter|localparam|genvar|function|task|tri|var|byte|int|real|enum)\b"
# Nothing is made smaller here: what yosys takes for any value or for none could become one that a claim likes.
GATES = ["setundef -anyseq", "techmap", "simplemap", "dffunmap", "setundef -anyseq", "opt_clean", "check -assert", "aigmap", "opt_clean",
         "select -assert-none t:* t:$_AND_ %d t:$_NOT_ %d t:$_DFF_P_ %d t:$anyseq %d",
         "write_aiger -zinit -ascii -symbols formal.aag"]


@dataclass
class Circuit:
    """The files of a circuit: its Verilog text, and its netlist."""

    verilog: str
    net: str


def reading(harness):
    """The commands for yosys that read all modules, and leave them as registers and operators."""
    commands = [f"read_verilog -noautowire {CIRCUIT}"] if harness.has_circuit else []
    return commands + [f"read_verilog -sv -noautowire -noassert -noassume {AROUND}", f"read_verilog -sv -formal -noautowire {OWN}",
                       "hierarchy -check -top formal", "cd claims", "write_rtlil -selected read.il", "cd ..", "proc -norom -noopt",
                       "write_rtlil plain.il"]


def making(harness):
    """The commands that make gates of them. Registers of the circuit are 0 before the cycle of reset, too, so that nothing happens in
    this cycle that lines of a user could see."""
    zeros = [f"cd {harness.root}", "techmap", "simplemap", "dffunmap", "zinit -all", "cd .."] if harness.has_circuit else []
    return ["read_rtlil plain.il", *zeros, "flatten", *GATES]


def line_of(own, word):
    """The line of a user that declares a name or gives it a value, as far as that is seen, or the first one that has it."""
    for pattern in (rf"{DECLARES}[^=;]*\b{word}\b", rf"\b{word}\b[^=;]*=(?!=)", rf"\b{word}\b"):
        for number, line in enumerate(own.lines, 1):
            if re.search(pattern, line):
                return number
    return 1


def complaint(own, said):
    """What yosys says of the lines of a user, an error or a warning, as an error that names the line."""
    for line in said.splitlines():
        place = re.search(rf"{re.escape(OWN)}:(\d+)", line)
        if not place or not re.search("warning|error", line, re.I):
            continue
        number = min(int(place[1]), max(1, len(own.lines)))
        text = re.sub(r"^.*?(?:ERROR|Warning): ", "", line).replace("\\", "").replace(OWN, own.file)
        unknown, twice = UNKNOWN_NAME.search(line), DECLARED_TWICE.search(line)
        if unknown:
            return own.wrong(number, f"nothing is called `{unknown[1]}`")
        if twice:
            return own.wrong(line_of(own, twice[1]), f"`{twice[1]}` is declared twice")
        if "Replacing memory" in line:
            return own.wrong(number, rtlil.NO_MEMORIES)
        return own.wrong(number, f"yosys: {text}")
    missing = NO_MODULE.search(said)
    return own.wrong(line_of(own, missing[1]), f"there is no module `{missing[1]}`") if missing else None


def place_of(own, place):
    """The line of a user in a place of yosys."""
    found = re.search(rf"{re.escape(OWN)}:(\d+)", place)
    return min(int(found[1]), max(1, len(own.lines))) if found else 1


def line_in(own, place, name):
    """The first line of a user in a place of yosys that has a name, or else its first line."""
    first, ends = place_of(own, place), re.search(r"-(\d+)\.", place)
    last = min(int(ends[1]), len(own.lines)) if ends else first
    has_it = re.compile(rf"\b{re.escape(name)}\b")
    return next((number for number in range(first, last + 1) if has_it.search(own.lines[number - 1])), first)


def refuse_own(harness, module, before):
    """Refuses lines of a user that don't mean what a simulator would make of them, or that meddle with what they are given; `before`
    is their module with processes."""
    for place, said in [*rtlil.faults(module, "\\clk"), *rtlil.without_first_value(module)]:
        name = said.split("`")[1] if said.startswith("`") else ""
        is_given = name == "started" or name in harness.visible
        raise harness.own.wrong(line_of(harness.own, name) if is_given else place_of(harness.own, place), said)
    for place, said in rtlil.early_reads(before):
        raise harness.own.wrong(line_in(harness.own, place, said.split("`")[1]), said)
    for net in rtlil.misread(module, ["started", *harness.visible]):
        raise harness.own.wrong(line_of(harness.own, net), f"`{net}` is another thing here than the net of this name")


def refuse_circuit(harness, module, circuit):
    """Refuses a Verilog text that isn't of the netlist's ports, or has what no text of gos has."""
    wanted = {"\\clk": (1, "input"), "\\rst": (1, "input")}
    for pin in harness.pins:
        nets = {f"\\{pin.verilog}": 1, **({f"\\{pin.verilog}value": pin.bits} if pin.bits else {})}
        wanted.update({net: (count, "output" if pin.is_output else "input") for net, count in nets.items()})
    if wanted != {name: (wire.width, wire.side) for name, wire in module.wires.items() if wire.side}:
        raise builds.Wrong(f"{circuit.verilog}: its ports are not those of {circuit.net}")
    for _, said in rtlil.faults(module, "\\clk"):
        raise builds.Wrong(f"{circuit.verilog}: this is no Verilog text that gos writes: {said}")


def refuse_other_reset(made, circuit):
    """Refuses a circuit of which some register isn't 0 behind the cycle of reset, whatever it was before and whatever comes in."""
    names = {literal: [name for name in made.names.get(literal, "circuit.").split() if name.startswith("circuit.")] for literal in made.nexts}
    latches = {literal: gates.UNKNOWN if inside else 0 for literal, inside in names.items()}
    values = gates.settled(made, dict.fromkeys(made.inputs, gates.UNKNOWN), latches)
    for literal, inside in names.items():
        if inside and gates.value(values, made.nexts[literal]) != 0:
            name = min(inside, key=len).removeprefix("circuit.") or "a register"
            raise builds.Wrong(f"{circuit.verilog}: a reset does not set {name} to 0")


def by_yosys(commands, room, clock, own, circuit):
    """Runs commands of yosys, of which each complaint about lines of a user, and each error, is one here."""
    said, is_done = provers.yosys(commands, room, clock)
    wrong = complaint(own, said)
    if wrong:
        raise wrong
    if not is_done:
        last = next((line for line in reversed(said.splitlines()) if line.strip()), "it ended")
        raise builds.Wrong(f"yosys: {last.replace(CIRCUIT, circuit.verilog if circuit else CIRCUIT)}")


def elaborate(harness, circuit, room, clock):
    """The gates of a module around a circuit; and the nets that each claim of a user reads."""
    own, texts = harness.own, {AROUND: harnesses.formal(harness), OWN: harnesses.claims(harness)}
    if harness.has_circuit:
        texts[CIRCUIT] = builds.read_text(circuit.verilog)
    for name, text in texts.items():
        builds.write_text(room / name, text)
    by_yosys(reading(harness), room, clock, own, circuit)
    modules = rtlil.modules_of(builds.read_text(room / "plain.il"))
    refuse_own(harness, modules["\\claims"], rtlil.modules_of(builds.read_text(room / "read.il"))["\\claims"])
    if harness.has_circuit:
        refuse_circuit(harness, modules[f"\\{harness.root}"], circuit)
    by_yosys(making(harness), room, clock, own, circuit)
    try:
        made = gates.read(builds.read_text(room / "formal.aag"))
    except ValueError as error:
        raise builds.Wrong(f"{own.file or circuit.verilog}: nets drive one another in a ring without a register") from error
    if harness.has_circuit:
        refuse_other_reset(made, circuit)
    return made, {claim.name: rtlil.inputs_below(modules["\\claims"], f"\\assert:{claim.name}") for claim in own.asserted}
