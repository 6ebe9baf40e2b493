"""The Verilog text of a netlist, as gos writes it (docs/FORMATS.md, "Verilog text"): one line for each cell, in the netlist's order.
By it tools/gos-formal knows whether a Verilog text and a netlist are one circuit.
"""
from itertools import zip_longest

import builds
import circuits

SIGNS = {"and": "&", "or": "|", "xor": "^", "add": "+", "sub": "-", "eq": "==", "less": "<"}


def nets_of(ports):
    """The nets of ports, in order: the name of each, its bits, whether it is an output, and its cell."""
    for pin in (pin for port in ports for pin in circuits.pins_of(port)):
        yield pin.verilog, 1, pin.is_output, pin.net
        if pin.bits:
            yield f"{pin.verilog}value", pin.bits, pin.is_output, pin.value_net


def line_of(number, cell, inputs):
    """The line of a cell; `inputs` has the nets of the ports by the cells that they are."""
    word, width, numbers = cell
    a, b, c = (*(f"n{it}" for it in numbers), "", "", "")[:3]
    if word == "reg":
        return f"always @(posedge clk) if (rst) n{number} <= {width}'d0; else n{number} <= {a};"
    said = {"input": inputs.get(number), "const": f"{width}'d{numbers[0] if numbers else 0}", "not": f"~{a}", "mux": f"{a} ? {b} : {c}",
            "gate": f"{a} ? {b} : {width}'d0"}.get(word) or f"{a} {SIGNS[word]} {b}"
    return f"assign n{number} = {said};"


def lines_of(cells, ports):
    """The lines of a netlist's module."""
    nets = list(nets_of(ports))
    inputs = {cell: name for name, _, is_output, cell in nets if not is_output}
    yield f"module gos_{ports[0].name}(clk, rst, {', '.join(name for name, *_ in nets)});"
    yield from ("  input clk;", "  input rst;")
    yield from (f"  {'output' if is_output else 'input'} [{width - 1}:0] {name};" for name, width, is_output, _ in nets)
    yield from (f"  {'reg' if word == 'reg' else 'wire'} [{width - 1}:0] n{number};" for number, (word, width, _) in enumerate(cells))
    yield from (f"  {line_of(number, cell, inputs)}" for number, cell in enumerate(cells))
    yield from (f"  assign {name} = n{cell};" for name, _, is_output, cell in nets if is_output)
    yield "endmodule"


def refuse_other(net, verilog):
    """Refuses the Verilog text of a file where it isn't that of the netlist in another one."""
    cells = circuits.cells_of(net, builds.read_text(net))
    lines = [*lines_of(cells, builds.read_ports(net)), ""]
    for number, (line, wanted) in enumerate(zip_longest(builds.read_text(verilog).split("\n"), lines), 1):
        if line != wanted:
            raise builds.Wrong(f"{verilog}:{number}: this is not the Verilog text of {net}")
