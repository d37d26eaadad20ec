"""Compares `verify --ltl` with a plain evaluator of formulas on lassos. Random circuits are judged as by all short lassos of inputs, and each
counterexample is run. Controllers of specifications are accepted, and with one literal changed they are judged as `verify` judges them beside the
formula's automaton. Circuits of the environment refute. Names, spare inputs, large circuits and faults are tried by hand."""
import itertools
import random
import subprocess
import sys
import tempfile

import case
import formulas
import verifying
from case import TOP

sys.path.insert(0, str(TOP / "tools"))
from aiger import read_circuit  # noqa: E402

LOOP = "loop"


def asked(program, formula, circuit, *words):
    """The answer of `verify --ltl` on the texts of two files: (status, output, error stream)."""
    with tempfile.TemporaryDirectory() as folder:
        for name, text in (("formula", formula), ("circuit", circuit)):
            with open(f"{folder}/{name}", "wb") as file:
                file.write(text.encode())
        ran = subprocess.run([program, "verify", "--ltl", *words, f"{folder}/formula", f"{folder}/circuit"], capture_output=True, timeout=120)
    return ran.returncode, ran.stdout.decode(), ran.stderr.decode()


def value(values, literal):
    return values[literal & -2] ^ literal & 1


def ran_on(circuit, letters, back):
    """The word of the circuit's run on a lasso of inputs, as the names that hold in each step, and the place to which its end leads back. A
    letter has a value for each input."""
    names = [(circuit.names[f"{kind}{place}"], literal) for kind, literals in
             (("i", circuit.inputs), ("l", [latch for latch, _ in circuit.latches]), ("o", circuit.outputs))
             for place, literal in enumerate(literals) if f"{kind}{place}" in circuit.names]
    bits, place, word, seen = (0,) * len(circuit.latches), 0, [], {}
    while (bits, place) not in seen:
        seen[bits, place] = len(word)
        values = {0: 0, **dict(zip(circuit.inputs, letters[place])), **{latch: bit for (latch, _), bit in zip(circuit.latches, bits)}}
        for gate, left, right in circuit.gates:
            values[gate] = value(values, left) & value(values, right)
        word.append({name for name, literal in names if value(values, literal)})
        bits = tuple(value(values, after) for _, after in circuit.latches)
        place = place + 1 if place + 1 < len(letters) else back
    return word, seen[bits, place]


def letters_in(lines):
    """The letters that the lines of a counterexample spell, and the place to which its end leads back."""
    return [[int(bit) for bit in line] for line in lines if line != LOOP], lines.index(LOOP)


def short_lassos(inputs, longest):
    """All lassos of inputs up to this length."""
    for length in range(1, longest + 1):
        for letters in itertools.product(itertools.product((0, 1), repeat=inputs), repeat=length):
            for back in range(length):
                yield letters, back


def why_misjudged(program, formula, text, longest, *words):
    """Why the verdict on a circuit, by its text, isn't that of its runs, or None. With `--environment` each run has to satisfy the negation."""
    circuit = read_circuit(text.encode())
    wanted = ("!", formula) if words else formula
    yes, no = ("REFUTES", "FAILS") if words else ("ACCEPTED", "REJECTED")
    status, said, errors = asked(program, formulas.spelt(formula), text, *words)
    where = f"{formulas.spelt(formula)}, {text!r}: status {status}, {said!r}, {errors!r}"
    if status or errors or not said.endswith("\n"):
        return where
    kind, *lines = said.splitlines()
    if kind == yes and not lines:
        wrong = next((it for it in short_lassos(len(circuit.inputs), longest) if not formulas.satisfies(wanted, *ran_on(circuit, *it))), None)
        return wrong and f"{where}, but not on {wrong}"
    if kind != no or any(len(line) != len(circuit.inputs) for line in lines if line != LOOP) or LOOP not in lines:
        return where
    letters, back = letters_in(lines)
    return where if back == len(letters) or formulas.satisfies(wanted, *ran_on(circuit, letters, back)) else None


def random_circuit(dice, inputs, latches, outputs):
    """The text of a circuit whose inputs are named i0, .., whose latches l0, .. and whose outputs o0, .."""
    count = dice.randint(0, 6)
    first = inputs + latches + 1
    literals = [2 * place + dice.randrange(2) for place in range(first)]
    gates = []
    for gate in range(first, first + count):
        gates.append((2 * gate, dice.choice(literals), dice.choice(literals)))
        literals.append(2 * gate + dice.randrange(2))
    lines = [f"aag {first + count - 1} {inputs} {latches} {outputs} {count}", *(str(2 * it) for it in range(1, inputs + 1)),
             *(f"{2 * (inputs + 1 + it)} {dice.choice(literals)}" for it in range(latches)), *(str(dice.choice(literals)) for _ in range(outputs)),
             *(" ".join(map(str, gate)) for gate in gates),
             *(f"{kind}{place} {kind}{place}" for kind, many in (("i", inputs), ("l", latches), ("o", outputs)) for place in range(many))]
    return "\n".join(lines) + "\n"


def random_verdicts(program):
    """Random circuits and formulas over names of their inputs, latches and outputs."""
    dice = random.Random(11)
    for words in ((), ("--environment",)):
        why, kinds = None, {}
        for _ in range(250):
            inputs, latches, outputs = dice.randint(1, 2), dice.randint(0, 3), dice.randint(1, 2)
            text = random_circuit(dice, inputs, latches, outputs)
            names = [f"{kind}{place}" for kind, many in (("i", inputs), ("l", latches), ("o", outputs)) for place in range(many)]
            formula = formulas.random_formula(dice, dice.randint(1, 4), names)
            why = why or why_misjudged(program, formula, text, 4 if inputs == 1 else 3, *words)
            kind = asked(program, formulas.spelt(formula), text, *words)[1].partition("\n")[0]
            kinds[kind] = kinds.get(kind, 0) + 1
        yield f"random circuits {words}", why
        yield f"some of each verdict {words}", min(kinds.values()) > 20 and len(kinds) == 2, True


def controllers_of_specifications(program):
    """The circuit that `synth` prints for the automaton of a formula is accepted. With one literal changed it is judged as by `verify`."""
    dice = random.Random(12)
    for formula, (outs, is_realizable) in formulas.SPECIFICATIONS.items():
        automaton = formulas.translated(program, formula, "--outs", outs).stdout
        words = ("synth", "--small") if is_realizable else ("synth", "--counter")
        answer = subprocess.run([program, *words], input=automaton, capture_output=True, timeout=60).stdout.decode()
        line, _, text = answer.partition("\n")
        yield f"{formula}: the answer", line, "REALIZABLE" if is_realizable else "UNREALIZABLE"
        wanted = ("ACCEPTED\n", ()) if is_realizable else ("REFUTES\n", ("--environment",))
        yield f"{formula}: the circuit", asked(program, formula, text, *wanted[1]), (0, wanted[0], "")
        for _ in range(4 if is_realizable and text.count("\n") > 4 else 0):
            other = verifying.changed(dice, text)
            judged = verifying.asked(program, automaton, other.encode())[1].decode()
            kind = "ACCEPTED" if judged.startswith("ACCEPTED") else "REJECTED"
            yield f"{formula}: {other!r}", asked(program, formula, other)[1].partition("\n")[0], kind


WIRE = "aag 1 1 0 1 0\n2\n2\ni0 r\no0 g\n"
DELAY = "aag 2 1 1 1 0\n2\n4 2\n4\ni0 r\nl0 held\no0 g\n"
# formulas whose verdict on the wire from r to g, and on the delay, can be worked out by hand
BY_HAND = [
    ("G (r <-> g)", WIRE, "ACCEPTED\n"), ("G (r <-> g)", DELAY, None), ("G (X g <-> r)", DELAY, "ACCEPTED\n"), ("!g", DELAY, "ACCEPTED\n"),
    ("G (held <-> g)", DELAY, "ACCEPTED\n"), ("G F r", WIRE, None), ("G F g -> G F r", DELAY, "ACCEPTED\n"), ("1", WIRE, "ACCEPTED\n"),
    ("X 1", WIRE, "ACCEPTED\n"), ("X X 1", DELAY, "ACCEPTED\n"), ("G X 1", WIRE, "ACCEPTED\n"), ("!(X 0)", WIRE, "ACCEPTED\n"), ("r -> X 1", WIRE, "ACCEPTED\n"),
    ("0", WIRE, None), ("F 0", WIRE, None), ("G (r -> F g)", WIRE, "ACCEPTED\n"), ("r", DELAY, None), ("X g <-> r; !g;", DELAY, "ACCEPTED\n"),
    ("(G F r -> G F g) & (G F !r -> G F !g)", DELAY, "ACCEPTED\n"), ("r U g", WIRE, None), ("r W (g | !g)", WIRE, "ACCEPTED\n"),
    ("g M r | G !r | F (r & g)", WIRE, "ACCEPTED\n"), ("!r R (!g | r)", WIRE, "ACCEPTED\n"),
]


def by_hand(program):
    for formula, circuit, wanted in BY_HAND:
        status, said, errors = asked(program, formula, circuit)
        yield f"{formula}: {circuit!r}", (status, said if wanted else said.partition("\n")[0], errors), (0, wanted or "REJECTED", "")
    yield "status", [asked(program, text, WIRE, "--status")[0] for text in ("G (r <-> g)", "G F r")], [0, 10]
    joined = subprocess.run([program, "verify", "--ltl"], input=f"G (r <-> g)\n--\n{WIRE}".encode(), capture_output=True, timeout=60)
    yield "one input with a line --", (joined.returncode, joined.stdout, joined.stderr), (0, b"ACCEPTED\n", b"")


def wide_circuits(program):
    """Circuits with more inputs than letters can be listed, and formulas with more than 16 names."""
    many = 60
    wires = [f"aag {many} {many} 0 {many} 0", *(str(2 * it) for it in range(1, many + 1)), *(str(2 * it) for it in range(1, many + 1)),
             *(f"i{it} r{it}" for it in range(many)), *(f"o{it} g{it}" for it in range(many))]
    text = "\n".join(wires) + "\n"
    yield "60 wires", asked(program, " & ".join(f"G (r{it} <-> g{it})" for it in range(many)), text), (0, "ACCEPTED\n", "")
    yield "60 answers", asked(program, " & ".join(f"G (r{it} -> F g{it})" for it in range(many)), text), (0, "ACCEPTED\n", "")
    status, said, errors = asked(program, " & ".join(f"G (r{it} -> X g{it})" for it in range(many)), text)
    yield "60 wires late", (status, said.partition("\n")[0], errors), (0, "REJECTED", "")
    length = 50_000
    gates = [f"{2 * (it + 4)} {2 * (it + 3)} {2 if it % 2 else 4}" for it in range(length)]
    large = [f"aag {length + 3} 2 1 2 {length}", "2", "4", f"6 {2 * (length + 3)}", "6", "3", *gates, "i0 a", "i1 b", "o0 late", "o1 off"]
    yield "a small cone of a large circuit", asked(program, "G (off <-> !a)", "\n".join(large) + "\n"), (0, "ACCEPTED\n", "")
    yield "a large cone", asked(program, "G (late -> F 1)", "\n".join(large) + "\n"), (0, "ACCEPTED\n", "")


NAMED = [
    ("no such name", "G (grant -> r)", WIRE, "the circuit has no input, output or latch named grant; it has r, g"),
    ("the first such name", "b & a", WIRE, "the circuit has no input, output or latch named b; it has r, g"),
    ("no names", "a", "aag 1 1 0 1 0\n2\n2\n",
     "the circuit has no input, output or latch named a, since its inputs, outputs and latches have no names"),
    ("two of one name", "g", "aag 2 2 0 1 0\n2\n4\n2\ni0 g\ni1 g\no0 x\n", "two signals of the circuit are named g"),
    ("the formula is refused before the circuit", "a U", "aag", "syntax error at byte 3"),
    ("the circuit is refused before a name", "a", "aag 1 1 0 1\n", "syntax error at byte 4"),
    ("a name is refused before a cycle", "a", "aag 2 1 0 1 1\n2\n4\n4 4 2\ni0 r\no0 g\n", "the circuit has no input, output or latch named a; it has r, g"),
    ("a cycle", "r", "aag 2 1 0 1 1\n2\n4\n4 4 2\ni0 r\no0 g\n", "the gate of variable 2 stands in a cycle"),
]


def names(program):
    """What names mean, and what is refused."""
    for name, formula, circuit, told in NAMED:
        status, said, errors = asked(program, formula, circuit)
        yield name, (status, said, case.without_notes(errors.encode()).decode()), (1, "", f"parsolve: {told}\n")
    both = "aag 2 1 1 1 0\n2\n4 2\n5\ni0 r\nl0 g\no0 g\n"
    yield "an output before a latch of its name", asked(program, "G (X g <-> !r)", both), (0, "ACCEPTED\n", "")
    alike = "aag 2 1 1 1 0\n2\n4 2\n4\ni0 r\nl0 g\no0 g\n"
    yield "an output and a latch that are the same", asked(program, "G (X g <-> r)", alike), (0, "ACCEPTED\n", "")
    yield "--by-place is not for formulas", asked(program, "G r", WIRE, "--by-place")[0], 2
    yield "nor is --outs", asked(program, "G r", WIRE, "--outs", "g")[0], 2


Tests = case.tests(__name__, random_verdicts, controllers_of_specifications, by_hand, wide_circuits, names)
