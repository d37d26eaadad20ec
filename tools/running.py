"""Runs of circuits, and of automata beside them: the steps, the loops that are closed, and waves in the VCD format."""
import bisect
import re
from typing import NamedTuple

from texts import Fault

MOST_KNOWN = 1 << 16
MARKS = "".join(map(chr, range(33, 127)))  # of which the short names of VCD are made


def names_in(circuit, kind, count):
    """The names of the inputs (`i`), outputs (`o`) or latches (`l`), in their order."""
    return [circuit.names.get(f"{kind}{place}", f"{kind}{place}") for place in range(count)]


class Simulation:
    """A run of a circuit: its latches, and the names of its inputs and outputs. The result of each step is kept, since most recur."""

    def __init__(self, circuit):
        self.circuit, self.known = circuit, {}
        self.inputs, self.outputs = names_in(circuit, "i", len(circuit.inputs)), names_in(circuit, "o", len(circuit.outputs))
        self.latches, self.registers = (0,) * len(circuit.latches), names_in(circuit, "l", len(circuit.latches))

    def step(self, held):
        """Makes the step in which the inputs of these names hold; answers the names of the outputs that do."""
        self.latches, outputs = self.after(held)
        return outputs

    def after(self, held):
        """The latches after that step, and the outputs that hold in it; the run stays where it is."""
        key = self.latches, *sorted(held)
        if key not in self.known:
            if len(self.known) == MOST_KNOWN:
                self.known.clear()
            self.known[key] = self.computed({*held})
        return self.known[key]

    def computed(self, held):
        """The latches after a step, and the outputs that hold in it."""
        values = [0, 1]  # of each literal
        for bit in [*(int(name in held) for name in self.inputs), *self.latches]:
            values += (bit, 1 - bit)
        for _, left, right in self.circuit.gates:
            both = values[left] & values[right]
            values += (both, 1 - both)
        outputs = [name for name, literal in zip(self.outputs, self.circuit.outputs) if values[literal]]
        return tuple(values[after] for _, after in self.circuit.latches), outputs


class Step(NamedTuple):
    """A step of a run: the names of the inputs and outputs that hold, the latches in the step, and the text about the automaton, if there is
    one."""
    inputs: list
    outputs: list
    latches: tuple
    told: list


class Loops:
    """The loops that a run closes: the steps after which it was at each place, and the sets that count in the steps since. The foremost
    set comes first, and each has the last step that met it. A set counts in no loop if one before it was met after it."""

    def __init__(self, shape, place):
        self.shape, self.steps, self.visits, self.sets = shape, 0, {place: [0]}, []

    def step(self, sets, place, accepted=False):
        """Takes a step that meets these sets and leads to a place. Answers the latest step that begins a loop which ends here and is
        accepted, or rejected if `accepted` is False; None if there is none."""
        counting = self.shape.counting(sets)
        if counting is not None:
            while self.sets and self.shape.counting({self.sets[-1][0], counting}) == counting:
                self.sets.pop()
            self.sets.append((counting, self.steps))
        self.steps += 1
        visits = self.visits.setdefault(place, [])
        found = self.latest(visits, accepted) if visits else None
        visits.append(self.steps)
        return found

    def latest(self, visits, accepted):
        """The last of these steps from which on the set that counts is accepted, or rejected if `accepted` is False."""
        inner, end = None, self.steps
        for counting, step in [*reversed(self.sets), (None, -1)]:
            # from the steps after this one on, and up to `end`, the inner set counts
            if self.shape.accepts(inner) == accepted:
                at = bisect.bisect_left(visits, end)
                if at and visits[at - 1] > step:
                    return visits[at - 1]
            inner, end = counting, step + 1
        return None


class Run:
    """The run of an automaton beside something that answers it."""

    def __init__(self, automaton, place, known):
        self.automaton, self.state, self.known = automaton, automaton.start, {}
        self.names = automaton.names()
        for name in self.names:
            if name not in known:
                raise Fault(f"proposition {name} is neither an input nor an output of the circuit")
        self.loops = Loops(automaton.shape, (self.state, place))

    def next(self, held):
        """The state and the sets of the step in which the propositions of these names hold, or None."""
        letter = sum(1 << place for place, name in enumerate(self.names) if name in held)
        key = self.state, letter
        if key not in self.known:
            self.known[key] = self.automaton.step(*key)
        return self.known[key]

    def step(self, held, place, accepted=False):
        """Takes that step; `place` says where the other side is then. Answers the text to print, which names a loop that is rejected, or
        accepted."""
        if self.state is None:
            return "ended"
        made = self.next(held)
        self.state, sets = made or (None, ())
        if made is None:
            return "no edge"
        first = self.loops.step(sets, (self.state, place), accepted)
        told = f"{self.state} {{{' '.join(map(str, sorted(sets)))}}}"
        kind = "accepting" if accepted else "rejecting"
        return told + ("" if first is None else f" | {kind} loop: steps {first} to {self.loops.steps - 1}")


class Waves:
    """A run, step by step, written to a file in the VCD format: the clock, inputs and outputs, and the latches in a scope of their own. A step
    takes 10 ns. It begins when the clock rises, and the clock falls in the middle of it."""

    def __init__(self, file, signals, latches):
        self.file, self.steps, self.held, self.names = file, 0, None, [*signals, *latches]
        clock = "clock"
        while clock in signals:
            clock += "_"
        print("$timescale 1 ns $end\n$scope module circuit $end", file=file)
        for number, name in enumerate([clock, *self.names]):
            if number == 1 + len(signals):
                print("$scope module latches $end", file=file)
            print(f"$var wire 1 {self.mark(number)} {re.sub(r'[^!-~]', '_', name)} $end", file=file)
        print("$upscope $end\n" * (1 + (len(latches) > 0)) + "$enddefinitions $end", file=file)

    def mark(self, number):
        made = MARKS[number % len(MARKS)]
        return made if number < len(MARKS) else self.mark(number // len(MARKS) - 1) + made

    def step(self, held):
        """Writes what changes in the step, which has a bit for each signal and each latch."""
        print(f"#{10 * self.steps}\n1{self.mark(0)}", file=self.file)
        for number, bit in enumerate(held):
            if self.held is None or bit != self.held[number]:
                print(f"{bit}{self.mark(1 + number)}", file=self.file)
        print(f"#{10 * self.steps + 5}\n0{self.mark(0)}", file=self.file)
        self.steps, self.held = self.steps + 1, held

    def end(self):
        print(f"#{10 * self.steps}", file=self.file, flush=True)
