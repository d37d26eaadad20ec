"""Circuits in the AIGER format, in the ASCII form and in the binary form, as any tool writes them."""
import re
from typing import NamedTuple

from texts import Fault

MOST_INPUTS = 1 << 20  # the binary form has no line for an input
MOST_BYTES = 10  # that a number of the binary form can have


class Circuit(NamedTuple):
    inputs: list  # literals; so are all others
    latches: list  # (latch, the literal that it takes over)
    outputs: list
    gates: list  # (gate, greater operand, lesser operand), each after those that it uses
    names: dict  # by `i0`, `i1`, .. and `l0`, .. and `o0`, ..


def numbers_of(line, count, number):
    """The numbers of a line, which must have `count` of them."""
    words = line.split(b" ")
    if len(words) != count or not all(re.fullmatch(rb"\d{1,10}", word) for word in words):
        raise Fault(f"line {number} is damaged")
    return tuple(map(int, words))


def names_of(symbols):
    """The names that the lines after a circuit give, up to its comments."""
    lines = symbols[:symbols.index(b"c")] if b"c" in symbols else symbols
    return dict(line.decode("utf-8", "surrogateescape").split(" ", 1) for line in lines if b" " in line)


def read_ascii(text):
    lines = text.split(b"\n")
    greatest, *counts = numbers_of(lines[0][4:], 5, 1)
    if len(lines) < 1 + sum(counts):
        raise Fault("it ends too early")
    first = 1 + counts[0]
    lines[first:first + counts[1]] = [line.removesuffix(b" 0") if line.count(b" ") == 2 else line for line in lines[first:first + counts[1]]]
    widths = [width for width, count in zip((1, 2, 1, 3), counts) for _ in range(count)]
    rows = iter([numbers_of(line, width, number) for number, (line, width) in enumerate(zip(lines[1:], widths), 2)])
    inputs, latches, outputs, gates = ([next(rows) for _ in range(count)] for count in counts)
    return numbered(Circuit([it for it, in inputs], latches, [it for it, in outputs], gates, names_of(lines[1 + len(widths):])))


def in_order(gates, known):
    """The gates, each after those that it uses, if these literals are known before."""
    made, order, by = {*known}, [], {gate: (left, right) for gate, left, right in gates}
    if len(by) < len(gates) or made & {*by}:
        raise Fault("it defines a variable twice")
    for gate in by:
        stack = [gate]
        while stack:
            here = stack[-1]
            waits = [it & -2 for it in by[here] if it & -2 not in made]
            if here in made or not waits:
                stack.pop()
                if here not in made:
                    made.add(here)
                    order.append((here, *by[here]))
            elif len(stack) > len(by) or waits[0] not in by:
                raise Fault("its gates have a cycle, or use a variable that nothing defines")
            else:
                stack.append(waits[0])
    return order


def numbered(circuit):
    """The same circuit with its variables in order: inputs, latches, gates, each after those that it uses."""
    sources = [0, *circuit.inputs, *(it for it, _ in circuit.latches)]
    gates = in_order(circuit.gates, sources)
    if len({*sources}) < len(sources) or any(it & 1 for it in [*sources, *(it for it, _, _ in gates)]):
        raise Fault("it defines a variable twice, or a negation")
    places = {it: 2 * place for place, it in enumerate([*sources, *(it for it, _, _ in gates)])}
    if any(it & -2 not in places for it in [*circuit.outputs, *(after for _, after in circuit.latches)]):
        raise Fault("it uses a variable that nothing defines")

    def put(literal):
        return places[literal & -2] | literal & 1

    return Circuit([put(it) for it in circuit.inputs], [(put(it), put(after)) for it, after in circuit.latches],
                   [put(it) for it in circuit.outputs], [(put(it), *sorted((put(left), put(right)), reverse=True)) for it, left, right in gates],
                   circuit.names)


def read_binary(text):
    greatest, inputs, latches, outputs, gates = numbers_of(text.partition(b"\n")[0][4:], 5, 1)
    if greatest != inputs + latches + gates or inputs > MOST_INPUTS:
        raise Fault("line 1 is damaged")
    *lines, rest = text.split(b"\n", 1 + latches + outputs)
    if len(lines) < 1 + latches + outputs:
        raise Fault("it ends too early")
    lines[1:1 + latches] = [line.removesuffix(b" 0") for line in lines[1:1 + latches]]
    literals = [numbers_of(line, 1, number)[0] for number, line in enumerate(lines[1:], 2)]
    place = 0

    def difference():
        nonlocal place
        begin = place
        while rest[place:place + 1] > b"\x7f" and place < begin + MOST_BYTES:
            place += 1
        place += 1
        if place > begin + MOST_BYTES:
            raise Fault(f"a number of a gate has more than {MOST_BYTES} bytes")
        if place > len(rest):
            raise Fault("it ends too early")
        return sum((byte & 127) << 7 * step for step, byte in enumerate(rest[begin:place]))

    made = []
    for gate in range(inputs + latches + 1, inputs + latches + gates + 1):
        left = 2 * gate - difference()
        made.append((2 * gate, left, left - difference()))
    first = [2 * (inputs + number) for number in range(1, latches + 1)]
    return Circuit([2 * number for number in range(1, inputs + 1)], list(zip(first, literals)), literals[latches:], made,
                   names_of(rest[place:].split(b"\n")))


def read_circuit(text):
    """A circuit in either form; its variables are put in order: inputs, latches, gates, each after those that it uses."""
    if text == b"UNREALIZABLE\n":
        raise Fault("it says UNREALIZABLE, and no circuit follows; synth --counter prints one")
    text = text[text.index(b"\n") + 1:] if text.startswith((b"REALIZABLE\n", b"UNREALIZABLE\n")) else text
    if not text.startswith((b"aag ", b"aig ")):
        raise Fault("it begins neither with aag nor with aig")
    circuit = read_ascii(text) if text.startswith(b"aag ") else read_binary(text)
    greatest = len(circuit.inputs) + len(circuit.latches) + len(circuit.gates)
    if any(not gate > left >= right >= 0 for gate, left, right in circuit.gates) \
            or any(it > 2 * greatest + 1 for it in [*circuit.outputs, *(after for _, after in circuit.latches)]):
        raise Fault("a literal isn't of a variable before it")
    return circuit


def numbers_in(circuit):
    """The numbers of the first line, joined."""
    counts = [len(it) for it in (circuit.inputs, circuit.latches, circuit.outputs, circuit.gates)]
    return " ".join(map(str, [sum(counts) - counts[2], *counts]))


def symbols_of(circuit):
    return "".join(f"{place} {name}\n" for place, name in circuit.names.items()).encode("utf-8", "surrogateescape")


def ascii_of(circuit):
    """The circuit in the ASCII form, as `synth` prints one."""
    rows = [(it,) for it in circuit.inputs] + circuit.latches + [(it,) for it in circuit.outputs] + circuit.gates
    lines = [f"aag {numbers_in(circuit)}", *(" ".join(map(str, row)) for row in rows)]
    return "".join(f"{line}\n" for line in lines).encode() + symbols_of(circuit)


def varied(number):
    """A number in groups of seven bits, the lowest first; all but the last byte have the highest bit."""
    made = bytearray()
    while number > 127:
        made.append(number & 127 | 128)
        number >>= 7
    return bytes([*made, number])


def binary_of(circuit):
    """The circuit in the binary form."""
    lines = [f"aig {numbers_in(circuit)}", *(after for _, after in circuit.latches), *circuit.outputs]
    gates = b"".join(varied(gate - left) + varied(left - right) for gate, left, right in circuit.gates)
    return "".join(f"{line}\n" for line in lines).encode() + gates + symbols_of(circuit)
