"""The Verilog module around a circuit that gos-formal asks about: what the circuit is given, and what is claimed of it.

It has two modules. `formal` holds the circuit, its environment, and what the ports have to do. `claims` holds the lines of a file of
properties, each of them in the same line as there. It is given the nets of the ports, and nothing else goes in; so no line of it can
change what the circuit is given, or a name of the other module.
"""
from dataclasses import dataclass

import benches
import circuits
import properties

RESERVED = ("clk", "rst", "started", "circuit", "formal", "claims", "own", "kept", "broken", "cycle")


@dataclass
class Harness:
    """A circuit's ports, the claims of a user, and how many cycles are searched. Without the circuit its nets are anything at all."""

    ports: list
    own: properties.Properties
    steps: int
    has_circuit: bool = True

    def __post_init__(self):
        self.pins = [pin for port in self.ports for pin in circuits.pins_of(port)]
        self.root = f"gos_{self.pins[0].port}"
        self.nets = {net: count for pin in self.pins for net, count in benches.nets_of(pin)}
        self.opens = [f"{request.verilog}__open" for port in self.ports for request, _ in circuits.handshakes_of(port)]
        self.visible = {**self.nets, **dict.fromkeys(self.opens, 1)}
        self.of_ports = [claim for port in self.ports for claim in claims_of(port) if self.has_circuit]


def conditions(request, answer):
    """When a request may come, and when its answer may, by the nets of the two and by whether the handshake was open before."""
    was = f"{request.verilog}__was_open"
    # an answer of the circuit comes before the next request of the same cycle, one of the environment after its own
    if answer.is_output:
        return f"~{was} | {answer.verilog}", was
    return f"~{was}", f"{was} | {request.verilog}"


def claims_of(port):
    """What the circuit has to do at a port, as claims: each output in its turn, and each value with its pulse alone."""
    for request, answer in circuits.handshakes_of(port):
        for pin, condition in zip((request, answer), conditions(request, answer)):
            if pin.is_output:
                yield properties.Claim(f"{pin.verilog}__in_turn", f"~{pin.verilog} | {condition}")
                if pin.bits:
                    yield properties.Claim(f"{pin.verilog}value__is_0_else", f"{pin.verilog} | {pin.verilog}value == 0")


def names_taken(ports):
    """The names that no claim of a user may have."""
    made = Harness(ports, properties.Properties(), 1)
    was = [f"{name.removesuffix('__open')}__was_open" for name in made.opens]
    return {*RESERVED, *made.visible, *was, *(claim.name for claim in made.of_ports)}


def declared(sort, name, count):
    return f"{sort} {benches.bits(count)}{name}"


def environment(port):
    """The handshakes of a port: whether each is open; and the inputs, of which only what is in its turn is let in."""
    for request, answer in circuits.handshakes_of(port):
        asks, answers = request.verilog, answer.verilog
        was = f"{asks}__was_open"
        stays = f"{asks} | {was} & ~{answers}" if answer.is_output else f"({asks} | {was}) & ~{answers}"
        yield f"reg {was} = 0;"
        yield f"assign {asks}__open = {asks} | {was};"
        yield f"always @(posedge clk) {was} <= started & ({stays});"
        for pin, condition in zip((request, answer), conditions(request, answer)):
            if not pin.is_output:
                yield f"assign {pin.verilog} = {pin.verilog}__given & started & ({condition});"
                if pin.bits:
                    yield f"assign {pin.verilog}value = {pin.verilog}value__given & {{{pin.bits}{{{pin.verilog}}}}};"


def own_outputs(own):
    """The outputs of `claims`, each in a space of names that no line of a user can name."""
    return [f"\\{sort}:{claim.name} " for sort, claims in (("assume", own.assumed), ("assert", own.asserted)) for claim in claims]


def judged(harness):
    """What is kept, what fails, and what others than gos-formal read: statements to assume and to assert."""
    own = harness.own
    kept = " & ".join(["started", "~broken", *(f"\\assume:{claim.name} " for claim in own.assumed)])
    yield "reg broken = 0;"
    yield f"assign kept = {kept};"
    yield "always @(posedge clk) broken <= started & ~kept;"
    last = harness.steps - 1
    yield f"reg {benches.bits(harness.steps.bit_length())}cycle = 0;"
    yield f"always @(posedge clk) if (started & cycle != {last}) cycle <= cycle + 1;"
    yield f"assign \\kept:long = kept & cycle == {last};"
    for claim in harness.of_ports:
        yield f"assign \\fails:{claim.name} = kept & ~({claim.expression});"
    for claim in own.asserted:
        yield f"assign \\fails:{claim.name} = kept & ~\\assert:{claim.name} ;"
    yield "always @* if (started) begin"
    yield from (f"  assume (\\assume:{claim.name} );" for claim in own.assumed)
    yield from (f"  assert ({claim.expression});" for claim in harness.of_ports)
    yield from (f"  assert (\\assert:{claim.name} );" for claim in own.asserted)
    yield "end"


def own_instance(harness):
    nets = ["clk", "started", *harness.visible, *own_outputs(harness.own)]
    return f"claims own({', '.join(f'.{net}({net})' for net in nets)});"


def circuit_lines(harness):
    """What gives the nets of the ports, and the inputs that this takes, each with its bits."""
    if harness.has_circuit:
        given = {net: count for pin in harness.pins if not pin.is_output for net, count in benches.nets_of(pin)}
        lines = [line for port in harness.ports for line in environment(port)]
        return given, [*lines, benches.instance(harness.pins[0].port, harness.pins)]
    lines = [f"assign {net} = {net}__given;" for net in harness.nets]
    return harness.visible, lines + [f"assign {net} = {net.removesuffix('__open')} | {net}__given;" for net in harness.opens]


def formal(harness):
    """The module around the circuit. Its first cycle is that of reset."""
    given, lines = circuit_lines(harness)
    ends = [
        "input clk",
        *(declared("input", f"{net}__given", count) for net, count in given.items()),
        *(declared("output", net, count) for net, count in harness.visible.items()),
        *("output kept", "output \\kept:long "),
        *(f"output \\fails:{claim.name} " for claim in harness.of_ports + harness.own.asserted),
    ]
    return "\n".join([
        f"module formal({', '.join(ends)});",
        *benches.indented(["reg started = 0;", "always @(posedge clk) started <= 1;", "wire rst = ~started;"]),
        *benches.indented([f"wire {net};" for net in own_outputs(harness.own)]),
        *benches.indented([*lines, own_instance(harness), *judged(harness)]),
        "endmodule",
        "",
    ])


def claims(harness):
    """The module of a user's lines. The outputs `read:NET` are the nets as these lines name them."""
    own, bodies = harness.own, {}
    for sort, some in (("assume", own.assumed), ("assert", own.asserted)):
        # (the expression stands alone in a reduction, so that its width is its own)
        bodies.update((claim.line, f"assign \\{sort}:{claim.name} = |({claim.expression});") for claim in some)
    ends = ["input clk", "input started", *(declared("input", net, count) for net, count in harness.visible.items()),
            *(f"output {net}" for net in own_outputs(own)),
            *(declared("output", f"\\read:{net} ", count) for net, count in {"started": 1, **harness.visible}.items())]
    lines = [bodies.get(number, line) for number, line in enumerate(own.lines, 1)] or [""]
    lines[0] = f"module claims({', '.join(ends)}); {lines[0]}"
    return "\n".join([*lines, *(f"assign \\read:{net} = {net};" for net in ("started", *harness.visible)), "endmodule", ""])


def text(harness):
    """Both modules, for other tools."""
    return f"// What {harness.root} is given, and what it has to do then. By gos-formal.\n{formal(harness)}{claims(harness)}"
