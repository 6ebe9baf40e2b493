"""Descriptions of a circuit's place on a board (docs/BOARD.md has the grammar), and the module around it that comes of one."""
import re
from dataclasses import dataclass, field

import circuits
from builds import Wrong
from descriptions import Line

HERTZ = {"Hz": 1, "kHz": 1_000, "MHz": 1_000_000}
PARTS_OF_SECOND = {"s": 1, "ms": 1_000, "us": 1_000_000}
MOST, MOST_PLACES = 2**31 - 1, 16
# The least cycles of the reset after power on, and its least part of a second, in which memories of some chips aren't filled yet.
LEAST_RESET, RESETS_IN_SECOND = 64, 100_000
# The bits of a register of a bus, and how many there may be of them.
BUS_BITS, MOST_REGISTERS = 32, 256
FILE_NAME = re.compile(r"[\w./-]+", re.A)
# How far a serial line's bit may be from the time that its baud wants, as a part of it.
MOST_SKEW = 0.02
# What a line of a port may say first, by what stands there.
SAYINGS = {
    "give": ["{} runs once", "{} runs for ever"],
    "com": ["{} beats every 1 ms", "{} takes 5 ms", "{} answers"],
    "exp": ["{} is pin 3", "{} is 5", "{} receives 115200 baud at pin 3", "{} tells OTHER", "{} is stream"],
    "var": ["{} is pin 3",
            "{} is register", "{} is register 0 of wishbone", "{} sends 115200 baud at pin 3", "{} feeds OTHER of 16", "{} is stream", "WORD is ram at {}"],
}


@dataclass
class Board:
    """A board: what its chip is called for nextpnr, its clock, and the tools that take a file of pins."""

    family: str
    words: str
    clock: str
    hertz: int


BOARDS = {
    "icestick": Board("ice40", "--hx1k --package tq144", "21", 12_000_000),
    "hx8k": Board("ice40", "--hx8k --package ct256", "J3", 12_000_000),
    "ulx3s": Board("ecp5", "--85k --package CABGA381", "G2", 25_000_000),
    "none": Board("", "", "", 0),
}


@dataclass
class Bus:
    """A bus: the module of its slave, and the slave's ports there, each with its bits beside those of a register's place."""

    module: str
    inputs: dict
    outputs: dict


# (a name with `+` has the bits of a place, too)
BUSES = {
    "wishbone": Bus("rtl_wishbone", {"cyc": 1, "stb": 1, "we": 1, "adr+": 0, "sel": 4, "dat_w": 32}, {"ack": 1, "dat_r": 32}),
    "axi": Bus("rtl_axi_lite", {"awvalid": 1, "awaddr+": 2, "wvalid": 1, "wdata": 32, "wstrb": 4, "bready": 1, "arvalid": 1, "araddr+": 2, "rready": 1},
               {"awready": 1, "wready": 1, "bvalid": 1, "bresp": 2, "arready": 1, "rvalid": 1, "rdata": 32, "rresp": 2}),
}


@dataclass
class Circuit:
    """A circuit: the file of its Verilog text, and its ports."""

    verilog: str
    ports: list

    @property
    def root(self):
        """The port that is given, by which the module is named."""
        return next(it.name for it in self.ports if it.side == "give")


@dataclass
class Part:
    """An instance in the module: of which one, its name, its parameters and what its ports are connected to."""

    module: str
    name: str
    parameters: dict
    nets: dict


@dataclass
class Pins:
    """A port of the whole: its side, its bits, and the pins, the lowest bit first; none where there is no board."""

    side: str
    name: str
    bits: int
    places: list


@dataclass
class Place:
    """A port of a circuit, with the line that says what stands at it."""

    circuit: Circuit
    port: object
    line: object = None
    served: bool = False

    @property
    def kind(self):
        return "give" if self.port.side == "give" else self.port.ty.split(" ")[0]

    @property
    def bits(self):
        return max(it.bits for it in self.port.events)

    @property
    def name(self):
        return f"{self.circuit.root}_{self.port.name}"

    def said(self):
        return f"of `{self.port.ty}`" if self.port.side == "take" else f"the root, of `{self.port.ty}`"

    def nets(self, prefix=""):
        """What each port of a part is connected to that stands here."""
        found = {}
        for pin in circuits.pins_of(self.port):
            found[f"{prefix}{pin.event}"] = f"{self.circuit.root}__{pin.verilog}"
            if pin.bits:
                found[f"{prefix}{pin.event}value"] = f"{self.circuit.root}__{pin.verilog}value"
        return found


@dataclass
class Top:
    """What a description says: the board, the clock, the circuits, and what is made for each line."""

    board: Board = None
    hertz: int = 0
    clock: str = ""
    reset: str = "1'b0"
    circuits: list = field(default_factory=list)
    places: list = field(default_factory=list)
    parts: list = field(default_factory=list)
    pins: list = field(default_factory=list)
    assigns: list = field(default_factory=list)
    wires: list = field(default_factory=list)
    taken: dict = field(default_factory=dict)
    # by a bus's name the ports at its registers, by their numbers
    buses: dict = field(default_factory=dict)

    @property
    def resets(self):
        """The cycles of the reset after power on."""
        return max(LEAST_RESET, -(-self.hertz // RESETS_IN_SECOND))

    def place_of(self, line):
        """The port that a line names here: by its name, or as ROOT.PORT where circuits have several of it."""
        word = line.tokens[line.at][1]
        root, _, name = word.rpartition(".")
        found = [it for it in self.places if it.port.name == (name or word) and root in ("", it.circuit.root)]
        line.tried += [it.port.name for it in self.places]
        if len(found) > 1:
            raise line.wrong(f"`{word}` is a port of several circuits: `{found[0].circuit.root}.{word}` says which")
        if not found:
            raise line.misfit()
        line.step()
        return found[0]

    def add(self, module, place, nets, **parameters):
        clocked = {"clk": "clock", "rst": "rst"} if module != "rtl_pins" else {"clk": "clock"}
        self.parts.append(Part(module, place.name, parameters, {**clocked, **nets}))

    def wire(self, name, bits=1):
        self.wires.append((name, bits))
        return name

    def port(self, line, side, name, bits, places):
        """A port of the whole, at pins that nothing else has."""
        for place in places:
            if place in self.taken:
                raise line.wrong(f"pin {place} is taken by {self.taken[place]}", 0)
            self.taken[place] = f"line {line.place}"
        if any(it.name == name for it in self.pins):
            raise line.wrong(f"two ports of the whole would be called `{name}`", 0)
        self.pins.append(Pins(side, name, bits, places))
        return name


def pin(line):
    """A pin: a number, or a name such as J3."""
    if line.kind not in ("number", "word"):
        line.tried.append("a pin")
        raise line.misfit()
    return line.step()


def read_pins(top, line, place, side):
    """The port of the whole for a port of a circuit, whose bits are at the pins that follow; none are named where there is no board."""
    places = []
    if top.board is not BOARDS["none"]:
        while line.kind in ("number", "word") and line.tokens[line.at][1] not in ("from", "low"):
            places.append(pin(line))
        if len(places) != place.bits:
            raise line.wrong(f"`{place.port.name}` is {place.said()}, so it has {place.bits} pins, and here are {len(places)}", 0)
    return top.port(line, side, f"{place.port.name}_pin", place.bits, places)


def one_pin(top, line, side, name):
    """A port of one bit of the whole, at the pin that follows."""
    places = []
    if top.board is not BOARDS["none"]:
        line.want("at")
        line.want("pin")
        places.append(pin(line))
    return top.port(line, side, name, 1, places)


def cycles_of(top, line):
    """So many cycles of the clock: `1 ms`, `20 us`, `2 s`, or `12 cycles`."""
    count = line.number(1, MOST, "a time")
    if line.may("cycles") or line.may("cycle"):
        return count
    unit = next((it for it in PARTS_OF_SECOND if line.may(it)), None)
    if unit is None:
        raise line.misfit()
    cycles, rest = divmod(count * top.hertz, PARTS_OF_SECOND[unit])
    if rest or not 1 <= cycles <= MOST:
        raise line.wrong(f"{count} {unit} are {count * top.hertz / PARTS_OF_SECOND[unit]:g} cycles of the clock, and 1 or more whole ones "
                         "are wanted: `12 cycles` says how many", line.at - 2)
    return cycles


def baud_of(top, line, least):
    """The cycles of a bit of a serial line."""
    baud = line.number(1, MOST, "a number of baud")
    line.want("baud")
    cycles = round(top.hertz / baud)
    if cycles < least or abs(cycles * baud / top.hertz - 1) > MOST_SKEW:
        raise line.wrong(f"a bit is {top.hertz / baud:.4g} cycles at {baud} baud, and {least} or more are wanted, whole ones but for "
                         f"{MOST_SKEW:.0%}", line.at - 2)
    return cycles


def root(top, line, place):
    line.want("runs")
    first, last = list(place.nets().items())[:2]
    if line.may("once"):
        top.assigns.append((first[1], "start"))
    else:
        line.want("for", "ever")
        top.assigns.append((first[1], f"start | {last[1]}"))


def command(top, line, place):
    nets = place.nets()
    if line.may("answers"):
        top.assigns.append((nets["done"], nets["run"]))
    elif line.may("takes"):
        top.add("rtl_delay", place, nets, CYCLES=cycles_of(top, line))
    else:
        line.want("beats")
        line.want("every")
        cycles, restart = cycles_of(top, line), "1'b0"
        if line.may("from"):
            restart = restarting(top, line, place.circuit)
        told = {"missed_ask": "1'b0", "missed_ans": "", "missed_ansvalue": ""}
        top.add("rtl_timer", place, {"restart": restart, **nets, **told}, CYCLES=cycles, KEEP=int(not line.may("unkept")))


def restarting(top, line, circuit):
    """The net of an event of a port, such as `half.done`: of the same circuit, or else of the one other that has it."""
    port, _, event = line.tokens[line.at][1].rpartition(".")
    found = [it for it in top.places if it.port.name == port and event in it.nets() and not event.endswith("value")]
    found = [it for it in found if it.circuit is circuit] or found
    if len(found) != 1:
        line.tried.append("an event of a port")
        raise line.misfit()
    line.step()
    return found[0].nets()[event]


def expression(top, line, place):
    nets = place.nets()
    if line.may("receives"):
        cycles = baud_of(top, line, 4)
        same_bits(line, place, 8)
        told = {"has_ask": "1'b0", "has_ans": "", "has_ansvalue": ""}
        top.add("rtl_uart_receive", place, {"pin": one_pin(top, line, "input", f"{place.port.name}_pin"), **nets, **told}, CYCLES=cycles)
    elif line.may("tells"):
        tells(top, line, place, nets)
    else:
        line.want("is")
        if line.may("pin") or line.may("pins"):
            pins = read_pins(top, line, place, "input")
            top.add("rtl_pins", place, {"pins": pins, "levels": "", **nets}, WIDTH=place.bits)
        elif line.may("stream"):
            top.add("rtl_stream_in", place, {**stream(top, line, place, "input"), **nets}, WIDTH=place.bits)
        elif line.may("rom"):
            memory(top, line, place, "rtl_rom", file(line))
        else:
            number = line.value(place.bits)
            top.assigns += [(nets["ans"], nets["ask"]), (nets["ansvalue"], f"{nets['ask']} ? {place.bits}'d{number} : {place.bits}'d0")]


def tells(top, line, place, nets):
    """An expression that tells of another port: how many beats were missed, or whether there is a byte or a number."""
    of = top.place_of(line)
    part = next((it for it in top.parts if of.name in (it.name, it.parameters.get("reader"))), None)
    prefix = {"rtl_timer": "missed", "rtl_uart_receive": "has", "rtl_fifo": "has"}.get(part.module) if part else None
    if not prefix or part.nets[f"{prefix}_ans"]:
        raise line.wrong(f"`{of.port.name}` has nothing to tell: a line before says that it beats, receives, or is fed, and no other tells it")
    if prefix == "missed":
        part.parameters["MISSED"] = place.bits
    else:
        same_bits(line, place, 1)
    part.nets.update({f"{prefix}_{event}": net for event, net in nets.items()})


def same_bits(line, place, bits):
    if place.bits != bits:
        raise line.wrong(f"`{place.port.name}` is {place.said()}, and {bits} bits are wanted", 0)


def stream(top, line, place, side):
    """The ports of the whole for a stream; they are of no board."""
    if top.board is not BOARDS["none"]:
        raise line.wrong("a stream has no pins: it wants `board none`")
    other, name = ("output" if side == "input" else "input"), place.port.name
    return {"valid": top.port(line, side, f"{name}_valid", 1, []), "ready": top.port(line, other, f"{name}_ready", 1, []),
            "data": top.port(line, side, f"{name}_data", place.bits, [])}


def variable(top, line, place):
    nets = place.nets()
    if line.may("sends"):
        cycles = baud_of(top, line, 2)
        same_bits(line, place, 8)
        top.add("rtl_uart_send", place, {"pin": one_pin(top, line, "output", f"{place.port.name}_pin"), **nets}, CYCLES=cycles)
    elif line.may("feeds"):
        feeds(top, line, place, nets)
    else:
        line.want("is")
        if line.may("pin") or line.may("pins"):
            top.add("rtl_register", place, {"value": read_pins(top, line, place, "output"), **nets}, WIDTH=place.bits, FIRST=first(line, place))
        elif line.may("stream"):
            top.add("rtl_stream_out", place, {**stream(top, line, place, "output"), **nets}, WIDTH=place.bits)
        elif line.may("ram"):
            memory(top, line, place, "rtl_ram", file(line) if line.kind == "text" else '""')
        else:
            line.want("register")
            if line.kind == "number":
                on_bus(top, line, place)
            else:
                top.add("rtl_register", place, {"value": "", **nets}, WIDTH=place.bits, FIRST=first(line, place))


def on_bus(top, line, place):
    """Takes a register of a bus for a port."""
    number = line.number(0, MOST_REGISTERS - 1, "a register's number")
    line.want("of")
    bus = next((it for it in BUSES if line.may(it)), None)
    if bus is None:
        raise line.misfit()
    if top.board is not BOARDS["none"]:
        raise line.wrong("a bus has no pins: it wants `board none`")
    if place.bits > BUS_BITS:
        raise line.wrong(f"`{place.port.name}` is {place.said()}, and a register of a bus has {BUS_BITS} bits", 0)
    registers = top.buses.setdefault(bus, {})
    if number in registers:
        raise line.wrong(f"register {number} of {bus} is taken by line {registers[number].line.place}", 0)
    registers[number] = place


def add_bus(top, name, registers):
    """The slave of a bus, and what connects its registers to their ports. Registers below the highest one that has no port have none."""
    bus, address = BUSES[name], max(1, max(registers).bit_length())
    count, line = 1 << address, next(iter(registers.values())).line
    nets = {}
    for side, ports in (("input", bus.inputs), ("output", bus.outputs)):
        for port, bits in ports.items():
            own = port.rstrip("+")
            nets[own] = top.port(line, side, f"{name}_{own}", bits + address * (own != port), [])
    from_ports = {number: place.nets() for number, place in registers.items()}
    for event, bits in (("read", 1), ("write", 1), ("writevalue", BUS_BITS)):
        nets[event] = concatenated([widened(from_ports[it][event], registers[it].bits if bits > 1 else 1, bits) if it in registers else f"{bits}'d0"
                                    for it in range(count)])
    for event, bits in (("ans", 1), ("ansvalue", BUS_BITS), ("done", 1)):
        nets[event] = top.wire(f"{name}_{event}", bits * count)
        top.assigns += [(own[event], f"{nets[event]}[{bits * it} +: {registers[it].bits if bits > 1 else 1}]") for it, own in from_ports.items()]
    top.parts.append(Part(bus.module, name, {"ADDRESS": address, "WIDTH": BUS_BITS}, {"clk": "clock", "rst": "rst", **nets}))


def widened(net, bits, wanted):
    return net if bits == wanted else f"{{{wanted - bits}'d0, {net}}}"


def concatenated(nets):
    """Nets side by side, the first one lowest."""
    return f"{{{', '.join(reversed(nets))}}}"


def first(line, place):
    """The first value of a register."""
    return f"{place.bits}'d{line.value(place.bits) if line.may('from') else 0}"


def file(line):
    """The name of a file of words, in its \"\"."""
    if line.kind != "text":
        line.tried.append("a file's name in \"\"")
        raise line.misfit()
    return f'"{made_name(line)}"'


def made_name(line):
    """A file's name, in \"\" or not, which make takes as one word."""
    name = line.step().strip('"')
    if not FILE_NAME.fullmatch(name):
        raise line.wrong("a file's name has letters, digits and `_.-/`, since a Makefile has it", line.at - 1)
    return name


def memory(top, line, place, module, words):
    """A memory, whose place another port has."""
    line.want("at")
    at = top.place_of(line)
    if at.kind != "var":
        raise line.wrong(f"`{at.port.name}` is {at.said()}, and the place in a memory is a variable", line.at - 1)
    if at.bits > MOST_PLACES:
        raise line.wrong(f"`{at.port.name}` is {at.said()}, and a place has {MOST_PLACES} bits or fewer", line.at - 1)
    serve(line, at, line.at - 1)
    top.add(module, place, {**at.nets("place_"), **place.nets("word_")}, ADDRESS=at.bits, WIDTH=place.bits, FILE=words)


def feeds(top, line, place, nets):
    """What is written here is got at a port of another circuit, by way of so many places."""
    reader = top.place_of(line)
    if reader.kind != "exp" or reader.bits != place.bits or reader.circuit is place.circuit:
        raise line.wrong(f"`{reader.port.name}` is {reader.said()}, and an `exp {place.bits}` of another circuit is wanted", line.at - 1)
    serve(line, reader, line.at - 1)
    line.want("of")
    room = line.number(2, 65_536, "how many numbers have room")
    if room & (room - 1):
        raise line.wrong("how many numbers have room is 2, 4, 8 or so on", line.at - 1)
    told = {"has_ask": "1'b0", "has_ans": "", "has_ansvalue": ""}
    nets = {**place.nets("put_"), **reader.nets("get_"), **told}
    top.add("rtl_fifo", place, nets, WIDTH=place.bits, DEPTH=room.bit_length() - 1)
    top.parts[-1].parameters["reader"] = reader.name


def serve(line, place, at):
    """Takes a port for a line; it has none yet."""
    if place.served or place.line:
        raise line.wrong(f"something is said of `{place.port.name}` already", at)
    place.served = True


KINDS = {"give": root, "com": command, "exp": expression, "var": variable}


def read_board(top, line):
    """A line of the whole: which board, which clock, which button resets."""
    if line.may("board"):
        name = next((it for it in BOARDS if line.may(it)), None)
        if name is None:
            raise line.misfit()
        top.board = BOARDS[name]
        top.hertz, top.clock = top.board.hertz, top.board.clock
    elif line.may("clock"):
        count = line.number(1, MOST, "a frequency")
        unit = next((it for it in HERTZ if line.may(it)), None)
        if unit is None:
            raise line.misfit()
        top.hertz = count * HERTZ[unit]
        if top.board is not BOARDS["none"] and (top.hertz != top.board.hertz or line.kind != "end"):
            line.want("at")
            line.want("pin")
            top.clock = pin(line)
    else:
        line.want("reset")
        name, low = one_pin(top, line, "input", "reset_pin"), line.may("low")
        nets = {"clk": "clock", "pins": f"!{name}" if low else name, "levels": top.wire("reset_now"), "ask": "1'b0", "ans": "", "ansvalue": ""}
        top.parts.append(Part("rtl_pins", "reset", {}, nets))
        top.reset = "reset_now"
    line.end()


def file_name(line):
    """A file's name: as it is, or in \"\" where it has other signs than letters, digits and one dot."""
    if line.kind not in ("text", "event", "word"):
        line.tried.append("a file's name")
        raise line.misfit()
    return made_name(line)


def read(file, text, ports_of):
    """What the text of a description says; `ports_of` gives the ports of the netlist in a file."""
    top, own, begun = Top(), {"board", "clock", "reset", "circuit"}, []
    for number, said in enumerate(text.split("\n"), 1):
        line = Line(file, number, said)
        if line.kind == "end":
            continue
        if line.tokens[0][1] == "circuit" and line.may("circuit"):
            add_circuit(top, line, ports_of)
        elif line.tokens[0][1] in own:
            if top.board is None and line.tokens[0][1] != "board":
                raise line.wrong("the first line says which board")
            read_board(top, line)
        else:
            line.tried += sorted(own)
            begin(top, line, begun)
    finish(top, file, begun)
    return top


def add_circuit(top, line, ports_of):
    """A line `circuit NET VERILOG`."""
    net = file_name(line)
    circuit = Circuit(file_name(line), ports_of(net))
    line.end()
    if any(it.root == circuit.root for it in top.circuits):
        raise line.wrong(f"two circuits would be called `gos_{circuit.root}`", 0)
    top.circuits.append(circuit)
    top.places += [Place(circuit, port) for port in circuit.ports]


def begin(top, line, begun):
    """Takes a line for the port that it names."""
    if top.board is None or not top.circuits:
        raise line.wrong("lines `board BOARD` and `circuit NET VERILOG` stand before those of ports")
    place = top.place_of(line)
    if place.line or place.served:
        raise line.wrong(f"something is said of `{place.port.name}` already", 0)
    place.line = line
    begun.append(place)


def finish(top, file, begun):
    """Makes the part of each port, those that tell of others last, and refuses ports of which nothing is said."""
    if not top.circuits:
        raise Wrong(f"{file}: it has no line `circuit NET VERILOG`")
    if not top.hertz:
        raise Wrong(f"{file}: it has no line `clock 12 MHz`, and `board none` has no clock of its own")
    if top.board is not BOARDS["none"]:
        if top.clock in top.taken:
            raise Wrong(f"{file}: pin {top.clock} is the clock's, and is taken by {top.taken[top.clock]}")
        top.taken[top.clock] = "the clock"
    tell_last = sorted(begun, key=lambda it: it.line.tokens[it.line.at][1] == "tells")
    for place in tell_last:
        if place.served:
            raise place.line.wrong(f"something is said of `{place.port.name}` already", 0)
        KINDS[place.kind](top, place.line, place)
        place.line.end()
    for name, registers in top.buses.items():
        add_bus(top, name, registers)
    for place in top.places:
        if not place.line and not place.served:
            such = "\n".join(f"    {it.format(place.port.name)}" for it in SAYINGS[place.kind])
            raise Wrong(f"{file}: nothing is said of the port `{place.port.name}`, {place.said()}. For example\n{such}")
