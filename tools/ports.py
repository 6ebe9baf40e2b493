"""The ports of a netlist's text, their pins, and the pulses of a trace (docs/FORMATS.md)."""
from dataclasses import dataclass

# The events of each type: their names, and whether they have a value.
EVENTS = {
    "com": [("run", False), ("done", False)],
    "exp": [("ask", False), ("ans", True)],
    "var": [("read", False), ("ans", True), ("write", True), ("done", False)],
}


@dataclass
class Event:
    """An event of a port: `PORT.EVENT`, whether it is an output of the circuit, and the bits of its value, 0 where it has none."""

    name: str
    is_output: bool
    bits: int


@dataclass
class Port:
    """A port: `give` or `take`, its name, its type in words, its nets in order, and its events."""

    side: str
    name: str
    ty: str
    nets: list
    events: list


def port_of(line):
    """The port of a line such as `take v var 8 3 4 5 6 7 8`."""
    side, name, sort, *rest = line.split(" ")
    bits = int(rest.pop(0)) if sort != "com" else 0
    events = []
    for at, (event, has_value) in enumerate(EVENTS[sort]):
        # requests and answers take turns; who gives a port answers there, and who takes one asks
        events.append(Event(f"{name}.{event}", (at % 2 == 1) == (side == "give"), bits if has_value else 0))
    return Port(side, name, f"{sort} {bits}" if bits else sort, [int(it) for it in rest], events)


def ports_of(text):
    """The ports of a netlist's text, in order."""
    lines = text.split("\n")
    at = next(at for at, line in enumerate(lines) if line.startswith("ports "))
    return [port_of(line) for line in lines[at + 1 : at + 1 + int(lines[at].split(" ")[1])]]


@dataclass
class Pin:
    """An event of a port with its nets: that of its pulse, and that of its value or none."""

    port: str
    event: str
    is_output: bool
    bits: int
    net: int
    value_net: int

    def __post_init__(self):
        self.name = f"{self.port}.{self.event}"
        # what the net of the pulse is called in Verilog; that of the value has `value` behind it
        self.verilog = f"{self.port}__{self.event}"


def pins_of(port):
    """The events of a port with their nets, in order."""
    nets = iter(port.nets)
    for event in port.events:
        net = next(nets)
        yield Pin(port.name, event.name.rsplit(".", 1)[1], event.is_output, event.bits, net, next(nets) if event.bits else -1)


def handshakes_of(port):
    """The handshakes of a port, each as the pins of its request and of its answer."""
    pins = list(pins_of(port))
    return list(zip(pins[::2], pins[1::2]))


def pulses_of(text):
    """The pulses of a trace, each as its cycle, `PORT.EVENT` and its value or none; and the number of cycles."""
    pulses, cycles = [], 0
    for line in text.split("\n"):
        first, *rest = line.split(" ")
        if first == "cycles":
            cycles = int(rest[0])
        elif first:
            pulses.append((int(first), rest[0], int(rest[1]) if len(rest) > 1 else None))
    return pulses, cycles
