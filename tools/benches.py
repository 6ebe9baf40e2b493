"""Testbenches in Verilog for the module of a circuit (docs/VERILOG.md): what tools/gos-play, tools/gos-bench and tools/gos-formal write.

A bench prints lines, and ends. A cycle of a run is from one rising edge of `clk` to the next: inputs are given behind the first,
and outputs are seen before the second.
"""
import environments


def bits(count):
    return f"[{count - 1}:0] "


def nets_of(pin):
    """The nets of an event in Verilog, each with its number of bits: its pulse, and then its value where it has one."""
    yield pin.verilog, 1
    if pin.bits:
        yield f"{pin.verilog}value", pin.bits


def instance(root, pins):
    """The circuit as a part of a bench."""
    nets = [net for pin in pins for net, _ in nets_of(pin)]
    return f"gos_{root} circuit(.clk(clk), .rst(rst), {', '.join(f'.{net}({net})' for net in nets)});"


def indented(lines, depth=1):
    return [("  " * depth + line).rstrip() for line in lines]


def framed(head, declared, prepared, cycles, in_cycle, at_end):
    """A module that holds reset for one cycle, does some lines in each of so many cycles, and then some last ones."""
    return "\n".join([
        *(f"// {line}" for line in head),
        "module bench;",
        "  reg clk = 0, rst = 1;",
        "  integer cycle;",
        *indented(declared),
        "  initial begin",
        *indented(prepared, 2),
        "    #1 clk = 1; #1 clk = 0;",
        "    rst = 0;",
        f"    for (cycle = 0; cycle < {cycles}; cycle = cycle + 1) begin",
        "      #1;",
        *indented(in_cycle, 3),
        "      clk = 1; #1 clk = 0;",
        "    end",
        *indented(at_end, 2),
        "    $finish(0);",
        "  end",
        "endmodule",
        "",
    ])


def printed(pin):
    value = (" %0d", f", {pin.verilog}value") if pin.bits else ("", "")
    return f'if ({pin.verilog}) $display("%0d {pin.name}{value[0]}", cycle{value[1]});'


def reacting(head, pins, around, cycles):
    """A bench that does what some environment does, and prints the trace (docs/FORMATS.md) of so many cycles."""
    inputs = [net for pin in pins if not pin.is_output for net in nets_of(pin)]
    outputs = [net for pin in pins if pin.is_output for net in nets_of(pin)]
    shakes = [it.verilog() for it in around.handshakes]
    bounds = [it.verilog() for it in around.bounds]
    throws = any("stirred" in line for parts in shakes for part in parts for line in part)
    throws = throws or any("stirred" in line for it in around.sources for line in [*it.noted(), *it.gives("")])
    declared = [
        *(f"reg {bits(count)}{net} = 0;" for net, count in inputs),
        *(f"wire {bits(count)}{net};" for net, count in outputs),
        instance(pins[0].port, pins),
        *(line for it in around.dice if throws for line in it.declared()),
        *(line for parts in shakes + bounds for line in parts[0]),
        *(line for it in around.sources for line in it.declared()),
        *(environments.Dice.FUNCTION if throws else []),
    ]
    in_cycle = [
        *(f"{net} = 0;" for net, _ in inputs),
        *(line for parts in shakes + bounds for line in parts[1]),
        *(line for it in around.sources for line in it.moved()),
        *(line for parts in shakes for line in parts[2]),
        *(line for parts in bounds for line in parts[2]),
        *(line for parts in shakes for line in parts[3]),
        *(line for it in around.sources for line in it.noted()),
        *(printed(pin) for pin in sorted(pins, key=lambda it: not it.is_output)),
        "#1;",
    ]
    prepared = [line for it in around.sources for line in it.prepared()]
    return framed(head, declared, prepared, cycles, in_cycle, [f'$display("cycles {cycles}");'])


def digits(pins, pulses):
    """What the nets of these pins show in a cycle, by the pulses of the cycle: in binary, net after net."""
    found = ""
    for pin in pins:
        found += str(int(pin.name in pulses))
        if pin.bits:
            found += f"{pulses.get(pin.name) or 0:0{pin.bits}b}"
    return found


def word(pins, pulses):
    """The same as one number in Verilog."""
    found = digits(pins, pulses)
    return f"{len(found)}'b{found}"


def replaying(head, pins, pulses, cycles):
    """A bench that gives the inputs of a trace, and looks for its outputs and no others. It prints one line: `agrees`, or
    `differs in cycle T: NETS and not NETS`, with what the nets of all outputs are and what they should be, in binary."""
    inputs, outputs = [it for it in pins if not it.is_output], [it for it in pins if it.is_output]
    by_cycle = {}
    for cycle, name, value in pulses:
        by_cycle.setdefault(cycle, {})[name] = value
    wide = {side: sum(count for pin in side_pins for _, count in nets_of(pin)) for side, side_pins in (("in", inputs), ("out", outputs))}
    most = max(1, len(by_cycle)) - 1
    declared = [
        *(f"wire {bits(count)}{net};" for pin in pins for net, count in nets_of(pin)),
        instance(pins[0].port, pins),
        f"reg {bits(wide['in'])}given = 0;",
        f"reg {bits(wide['out'])}wanted = 0;",
        f"wire {bits(wide['out'])}shown = {{{', '.join(net for pin in outputs for net, _ in nets_of(pin))}}};",
        f"assign {{{', '.join(net for pin in inputs for net, _ in nets_of(pin))}}} = given;",
        "// the cycles in which something happens, with what is given and what is wanted then",
        f"integer at = 0, when [0:{most}];",
        f"reg {bits(wide['in'])}gives [0:{most}];",
        f"reg {bits(wide['out'])}wants [0:{most}];",
    ]
    prepared = [f"when[{at}] = {cycle}; gives[{at}] = {word(inputs, now)}; wants[{at}] = {word(outputs, now)};"
                for at, (cycle, now) in enumerate(sorted(by_cycle.items()))]
    in_cycle = [
        "given = 0;",
        "wanted = 0;",
        f"if (at < {len(by_cycle)} && when[at] == cycle) begin",
        "  given = gives[at];",
        "  wanted = wants[at];",
        "  at = at + 1;",
        "end",
        "#1 if (shown !== wanted) begin",
        '  $display("differs in cycle %0d: %b and not %b", cycle, shown, wanted);',
        "  $finish(0);",
        "end",
    ]
    return framed(head, declared, prepared or ["when[0] = -1;"], cycles, in_cycle, ['$display("agrees");'])
