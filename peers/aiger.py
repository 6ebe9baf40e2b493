"""Circuits of two-input gates and latches, read from ASCII AIGER 1.0 (Biere 2007) and written as binary AIGER, which abc takes."""
from dataclasses import dataclass


@dataclass
class Circuit:
    # literals: of inputs; of latches with the next one of each; of outputs; of gates with both of each
    inputs: list
    latches: list
    outputs: list
    gates: list
    # names of inputs and outputs, where the text has symbols
    named_inputs: list
    named_outputs: list


def read_ascii(text):
    lines = text.splitlines()
    _, _, inputs, latches, outputs, gates = (word if word == "aag" else int(word) for word in lines[0].split())
    rows = [[int(word) for word in line.split()] for line in lines[1 : 1 + inputs + latches + outputs + gates]]
    names = {"i": {}, "o": {}}
    for line in lines[1 + len(rows) :]:
        if line == "c":
            break
        kind, number, name = line[0], *line[1:].split(" ", 1)
        if kind in names:
            names[kind][int(number)] = name
    ends = [inputs, inputs + latches, inputs + latches + outputs]
    return Circuit(
        [row[0] for row in rows[: ends[0]]], [row[:2] for row in rows[ends[0] : ends[1]]],
        [row[0] for row in rows[ends[1] : ends[2]]], rows[ends[2] :],
        [names["i"].get(at) for at in range(inputs)], [names["o"].get(at) for at in range(outputs)],
    )


def with_ports(circuit, inputs, outputs):
    """The circuit with its inputs and outputs in the order of these names."""
    places = {name: at for at, name in enumerate(circuit.named_inputs)}
    out_places = {name: at for at, name in enumerate(circuit.named_outputs)}
    circuit.inputs = [circuit.inputs[places[name]] for name in inputs]
    circuit.outputs = [circuit.outputs[out_places[name]] for name in outputs]
    return circuit


def in_order(circuit):
    """The gates, each behind those that it names."""
    by_variable = {gate[0] // 2: gate for gate in circuit.gates}
    done, order = set(), []
    for first in by_variable:
        stack = [first]
        while stack:
            variable = stack[-1]
            if variable in done:
                stack.pop()
                continue
            waiting = [it // 2 for it in by_variable[variable][1:] if it // 2 in by_variable and it // 2 not in done]
            if waiting:
                stack += waiting
            else:
                done.add(variable)
                order.append(by_variable[variable])
                stack.pop()
    return order


def delta(number):
    """A number in seven bits a byte, as binary AIGER has them."""
    while number > 127:
        yield number % 128 + 128
        number //= 128
    yield number


def binary(circuit):
    """The bytes of the circuit in binary AIGER: variables are numbered anew, inputs first, then latches, then gates."""
    gates = in_order(circuit)
    own = circuit.inputs + [row[0] for row in circuit.latches] + [gate[0] for gate in gates]
    number = {literal // 2: at + 1 for at, literal in enumerate(own)}
    number[0] = 0

    def renamed(literal):
        return 2 * number[literal // 2] + literal % 2

    head = f"aig {len(own)} {len(circuit.inputs)} {len(circuit.latches)} {len(circuit.outputs)} {len(gates)}\n"
    lines = [renamed(row[1]) for row in circuit.latches] + [renamed(literal) for literal in circuit.outputs]
    text = bytearray((head + "".join(f"{literal}\n" for literal in lines)).encode())
    for gate in gates:
        left = renamed(gate[0])
        greater, lesser = sorted(map(renamed, gate[1:]), reverse=True)
        text += bytes([*delta(left - greater), *delta(greater - lesser)])
    return bytes(text)
