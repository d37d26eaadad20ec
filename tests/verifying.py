"""Compares `verify` with a plain product: circuits of `synth`, as they are printed and with one literal changed, are judged as by a search for a
run that ends or is rejected, and each counterexample is run. Circuits of ABC, in other forms and with other names are read, and
what isn't a circuit for the automaton is refused by name. The circuits of `synth --small` are accepted, and no larger. With
`--environment` random circuits are judged as by a search for a run that is accepted."""
import itertools
import random
import re
import subprocess
import sys
import tempfile

import case
import controllers
import rows
from case import TOP

sys.path.insert(0, str(TOP / "tools"))
from aiger import binary_of, read_circuit  # noqa: E402
from automata import read_automaton  # noqa: E402

LOOP = "loop"
AUTOMATON = (b'HOA: v1\nStart: 0\nAP: 2 "r" "g"\ncontrollable-AP: 1\nAcceptance: 1 Inf(0)\n--BODY--\nState: 0\n'
             b"[!0&!1] 0 {0}\n[0&1] 0 {0}\n[0&!1] 0\n--END--\n")
WIRE = b"aag 1 1 0 1 0\n2\n2\ni0 r\no0 g\n"


def asked(program, automaton, circuit, *words):
    """The answer of `verify` on the texts of two files: (status, output, error stream)."""
    with tempfile.TemporaryDirectory() as folder:
        for name, text in (("automaton", automaton), ("circuit", circuit)):
            with open(f"{folder}/{name}", "wb") as file:
                file.write(text)
        ran = subprocess.run([program, "verify", *words, f"{folder}/automaton", f"{folder}/circuit"], capture_output=True, timeout=120)
    return ran.returncode, ran.stdout, ran.stderr


def refused(program, automaton, circuit):
    """The same without the notes after a fault."""
    status, output, errors = asked(program, automaton, circuit)
    return status, output, case.without_notes(errors)


def letter_of(line):
    return sum(1 << place for place, bit in enumerate(line) if bit == "1")


def word_of(lines):
    """The letters of the stem and of the loop."""
    stem, loop = (lines[:lines.index(LOOP)], lines[lines.index(LOOP) + 1:]) if LOOP in lines else (lines, [])
    return [letter_of(line) for line in stem], [letter_of(line) for line in loop]


def after(a, circuit, place, letters, is_environment=False):
    """Where the circuit and the automaton are after these input letters, and the sets that were met; None if the run has ended. The inputs
    of a circuit that plays the environment are the controller's propositions."""
    met = set()
    for letter in letters:
        bits, state = place
        outputs, bits = circuit.step(bits, letter)
        both = (outputs, letter) if is_environment else (letter, outputs)
        step = a.steps.get((state, controllers.joined(a.controllable, *both)))
        if step is None:
            return None
        place, met = (bits, step[0]), met | {*step[1]}
    return place, met


def recurring(a, circuit, stem, loop, is_environment=False):
    """The sets that recur if the loop follows the stem again and again; None if the run ends."""
    begun = after(a, circuit, (0, 0), stem, is_environment)
    if begun is None:
        return None
    places, sets = [begun[0]], []
    while places[-1] not in places[:-1]:
        made = after(a, circuit, places[-1], loop, is_environment)
        if made is None:
            return None
        places, sets = [*places, made[0]], [*sets, made[1]]
    return set().union(*sets[places.index(places[-1]):])


def is_accepting(a, sets):
    return controllers.holds(controllers.condition(a.shape, a.sets), sets)


def refutes(a, circuit, verdict):
    """Whether the run on the inputs of a counterexample is as it says."""
    kind, *lines = verdict.decode().splitlines()
    stem, loop = word_of(lines)
    if any(len(line) != len(circuit.inputs) for line in lines if line != LOOP):
        return False
    if kind == "STUCK":
        return not loop and bool(stem) and after(a, circuit, (0, 0), stem) is None and after(a, circuit, (0, 0), stem[:-1]) is not None
    sets = recurring(a, circuit, stem, loop) if kind == "REJECTED" and loop else None
    return sets is not None and not is_accepting(a, sets)


def changed(dice, text):
    """The text of a circuit with one literal that is used changed."""
    lines = text.split("\n")
    greatest, inputs, latches, outputs, gates = map(int, lines[0].split()[1:])
    row = dice.choice([*range(1 + inputs, 1 + inputs + latches + outputs + gates)])
    numbers = lines[row].split()
    place = len(numbers) - 1 if row < 1 + inputs + latches + outputs else dice.choice((1, 2))
    most = int(numbers[0]) - 1 if len(numbers) == 3 else 2 * greatest + 1
    numbers[place] = str(int(numbers[place]) ^ 1 if dice.random() < 0.5 else dice.randint(0, most))
    lines[row] = " ".join(numbers)
    return "\n".join(lines)


def why_misjudged(program, a, text):
    """Why the verdict on a circuit, by its text, isn't that of the plain product, or None."""
    circuit = controllers.Circuit(text)
    status, verdict, errors = asked(program, controllers.automaton_text(a).encode(), text.encode())
    why = controllers.why_rejected(a, circuit)
    if status != 0 or errors:
        return f"{text!r}: status {status}, {errors!r}"
    if why is None or verdict == b"ACCEPTED\n":
        return None if (why is None) == (verdict == b"ACCEPTED\n") else f"{a!r}, {text!r}: {verdict!r}, and {why}"
    return None if refutes(a, circuit, verdict) else f"{a!r}, {text!r}: {verdict!r} refutes nothing"


def random_circuits(program, count=60):
    """(automaton, text of the circuit that `synth` prints for it) for random automata, each with an input, an output or a latch."""
    dice = random.Random(5)
    while count:
        a = controllers.random_automaton(dice)
        ran = subprocess.run([program, "synth"], input=controllers.automaton_text(a).encode(), capture_output=True, timeout=60)
        line, _, text = ran.stdout.decode().partition("\n")
        if line == "REALIZABLE":
            count -= 1
            yield dice, a, text


def printed_circuits(program):
    """A circuit that `synth` prints is accepted, and with one literal changed it is judged as by the plain product."""
    why = None
    for dice, a, text in random_circuits(program):
        why = why or why_misjudged(program, a, text)
        if text.split("\n")[0].split()[3:] != ["0", "0", "0"]:
            for _ in range(4):
                why = why or why_misjudged(program, a, changed(dice, text))
    yield "random automata", why


def parts_of(text):
    """How many latches and gates a circuit has, by its text."""
    numbers = text.split("\n")[0].split()
    return int(numbers[3]) + int(numbers[5])


def small(program, automaton):
    """The answer of `synth --small`: the first line, and the text of the circuit."""
    ran = subprocess.run([program, "synth", "--small"], input=automaton, capture_output=True, timeout=120)
    line, _, text = ran.stdout.decode().partition("\n")
    return line, text


def plain_of(text):
    """The automaton that a text spells, for a search for a run: its start is state 0."""
    read = read_automaton(text)
    number = {read.start: 0, 0: read.start}
    controllable = [a in (read.controllable or ()) for a in range(len(read.propositions))]
    foremost, parity, accepts_none = read.shape
    shape = f"{foremost.__name__} {('even', 'odd')[parity]}" if foremost else "always" if accepts_none else "never"
    steps = {}
    for state, letter in itertools.product(read.states, range(2 ** len(controllable))):
        step = read.step(state, letter)
        if step is not None:
            steps[number.get(state, state), letter] = (number.get(step[0], step[0]), sorted(step[1]))
    return controllers.Automaton(read.count, controllable, read.sets, shape, steps)


def why_not_small(program, a, automaton, plain):
    """Why the answer of `synth --small` is wrong for an automaton for which `synth` prints a circuit, or None; and the text of its circuit."""
    line, text = small(program, automaton)
    if line != "REALIZABLE":
        return f"{automaton!r}: {line}", text
    verdict = asked(program, automaton, text.encode())
    rejected = controllers.why_rejected(a, controllers.Circuit(text))
    if verdict != (0, b"ACCEPTED\n", b"") or rejected:
        return f"{automaton!r}: {text!r}: {verdict}, {rejected}", text
    return (f"{automaton!r}: {text!r} is larger than {plain!r}" if parts_of(text) > parts_of(plain) else None), text


def kept_automata():
    """The automata of the examples and of the rows of `synth` that name the controller's propositions, each with its name. Those that the
    tools don't read are left out."""
    found = [(path.name, path.read_bytes()) for path in sorted((TOP / "examples").glob("*.hoa"))]
    for row in case.rows_in("synth.toml")["row"]:
        if row.get("args") == ["synth"] and row.get("status", 0) == 0:
            found.append((row["name"], rows.input_of(row)))
    return [(name, text) for name, text in found if b"\ncontrollable-AP:" in text and b"spot-state-player" not in text]


def small_circuits(program):
    """`synth --small` answers what `synth` does. Its circuits have no more latches and gates, and are accepted: by `verify`, and by a
    search for a run that ends or is rejected. So are circuits of the environment by `verify --environment`."""
    why, plain_parts, small_parts = None, 0, 0
    for _, a, plain in random_circuits(program, 300):
        found, text = why_not_small(program, a, controllers.automaton_text(a).encode(), plain)
        why = why or found
        plain_parts, small_parts = plain_parts + parts_of(plain), small_parts + parts_of(text)
    yield "random automata", why
    yield "fewer latches and gates in all", small_parts < plain_parts, True
    for name, automaton in kept_automata():
        ran = subprocess.run([program, "synth", "--counter"], input=automaton, capture_output=True, timeout=60)
        line, _, plain = ran.stdout.decode().partition("\n")
        if line == "REALIZABLE":
            yield name, why_not_small(program, plain_of(automaton), automaton, plain)[0]
        elif line == "UNREALIZABLE":
            yield f"{name}: the answer", small(program, automaton), ("UNREALIZABLE", "")
            yield f"{name}: the environment", asked(program, automaton, plain.encode(), "--environment"), (0, b"REFUTES\n", b"")


def forms(program):
    """Circuits in the binary form, with gates in another order, after the line `REALIZABLE`, with carriage returns, and with the ends that other
    tools write are read as well."""
    for name in ("arbiter", "lift", "traffic-light", "delay", "request-grant"):
        automaton = (TOP / f"examples/{name}.hoa").read_bytes()
        answer = subprocess.run([program, "synth"], input=automaton, capture_output=True, timeout=60).stdout
        lines = answer.partition(b"\n")[2].split(b"\n")
        inputs, latches, outputs, gates = map(int, lines[0].split()[2:])
        first = 1 + inputs + latches + outputs
        turned = b"\n".join([*lines[:first], *reversed(lines[first:first + gates]), *lines[first + gates:]])
        binary = binary_of(read_circuit(answer))
        for form, circuit in (("as it is printed", answer), ("binary", binary), ("gates turned round", turned),
                              ("with a comment", answer + b"c\nanything\n"), ("with a comment in the line c", binary + b"cn" + name.encode()),
                              ("a line c that doesn't end", answer + b"c"), ("empty lines at the end", answer + b"\n\r\n\n"),
                              ("carriage returns", answer.replace(b"\n", b"\r\n"))):
            yield f"{name}, {form}", asked(program, automaton, circuit), (0, b"ACCEPTED\n", b"")


def names(program):
    """Inputs and outputs are taken by their names, whatever their order, and by their places only if that is asked for."""
    two = AUTOMATON.replace(b'AP: 2 "r" "g"', b'AP: 3 "r" "g" "s"')
    crossed = b"aag 2 2 0 1 0\n2\n4\n4\ni0 s\ni1 r\no0 g\n"
    yield "names in another order", asked(program, two, crossed), (0, b"ACCEPTED\n", b"")
    yield "the order of places", asked(program, two, crossed, "--by-place")[1].split(b"\n")[0], b"STUCK"
    yield "no names, by place", asked(program, AUTOMATON, b"aag 1 1 0 1 0\n2\n2\n", "--by-place"), (0, b"ACCEPTED\n", b"")
    yield "inputs in the circuit's order", asked(program, two, b"aag 2 2 0 1 0\n2\n4\n5\ni0 s\ni1 r\no0 g\n")[1].split(b"\n")[0], b"STUCK"


def random_environment(dice, a):
    """The text of a circuit that plays the environment of the automaton: two latches, and no output that depends on an input."""
    ins = [i for i, own in enumerate(a.controllable) if own]
    outs = [i for i, own in enumerate(a.controllable) if not own]
    first = 1 + len(ins)  # the variable of the first latch
    latches, gates = [first, first + 1], range(first + 2, first + 6)
    known = [0, *latches]  # what outputs can depend on
    rows = []
    for place, gate in enumerate(gates):
        among = known if place < 2 else [*range(gate)]
        rows.append((2 * gate, *sorted((2 * dice.choice(among) + dice.randrange(2) for _ in range(2)), reverse=True)))
        known = [*known, gate] if place < 2 else known
    nexts = [(2 * latch, dice.randrange(2 * gates[-1] + 2)) for latch in latches]
    outputs = [(2 * dice.choice(known) + dice.randrange(2),) for _ in outs]
    table = [("aag", gates[-1], len(ins), 2, len(outs), 4), *((2 * (1 + j),) for j in range(len(ins))), *nexts, *outputs, *rows]
    symbols = [f"i{j} p{i}" for j, i in enumerate(ins)] + [f"o{j} p{i}" for j, i in enumerate(outs)]
    return "".join(line + "\n" for line in [*(" ".join(map(str, row)) for row in table), *symbols])


def is_answered(a, circuit):
    """Whether the automaton accepts a run of a circuit that plays the environment: whether some cycle is accepted, whatever sets it meets."""
    edges, waiting, seen = [], [(0, 0)], set()
    while waiting:
        here = waiting.pop()
        if here in seen:
            continue
        seen.add(here)
        for letter in range(2 ** len(circuit.inputs)):
            made = after(a, circuit, here, [letter], True)
            if made is not None:
                edges.append((here, made[0], frozenset(made[1])))
                waiting.append(made[0])
    for size in range(a.sets + 1):
        for allowed in itertools.combinations(range(a.sets), size):
            left = [edge for edge in edges if edge[2] <= {*allowed}]
            for part in controllers.components(seen, left):
                inner = [sets for v, w, sets in left if v in part and w in part]
                if inner and is_accepting(a, frozenset().union(*inner)):
                    return True
    return False


def environments(program):
    """A circuit that plays the environment refutes exactly if no run of it is accepted; otherwise the controller's letters make one that is."""
    dice, why, answered, refuted = random.Random(8), None, 0, 0
    for _ in range(200):
        a = controllers.random_automaton(dice)
        text = random_environment(dice, a)
        circuit = controllers.Circuit(text)
        status, said, errors = asked(program, controllers.automaton_text(a).encode(), text.encode(), "--environment")
        kind, *lines = said.decode().splitlines() or [""]
        if is_answered(a, circuit):
            answered += 1
            stem, loop = word_of(lines)
            is_wide = all(len(line) == len(circuit.inputs) for line in lines if line != LOOP)
            sets = recurring(a, circuit, stem, loop, True) if kind == "FAILS" and loop and is_wide else None
            is_right = sets is not None and is_accepting(a, sets)
        else:
            refuted += 1
            is_right = said == b"REFUTES\n"
        if status != 0 or errors or not is_right:
            why = why or f"{a!r}, {text!r}: status {status}, {said!r}, {errors!r}"
    yield "random automata and circuits", why
    yield "some refute and some don't", min(answered, refuted) > 20, True


def hears(circuit):
    """Whether an output depends on an input of the same step."""
    heard = {it // 2 for it in circuit.inputs}
    for gate, operands in circuit.gates.items():
        if heard.intersection(it // 2 for it in operands):
            heard.add(gate // 2)
    return any(it // 2 in heard for it in circuit.outputs)


def counters(program):
    """If there is no controller, `synth --counter` prints a circuit that plays the environment: no output depends on an input of the same
    step, and no run of it is accepted, by a search for one and by `verify --environment`. Otherwise it prints what `synth` does."""
    dice, why, refuted = random.Random(9), None, 0
    for _ in range(150):
        a = controllers.random_automaton(dice)
        automaton = controllers.automaton_text(a).encode()
        plain, counter = (subprocess.run([program, "synth", *words], input=automaton, capture_output=True, timeout=120) for words in ((), ("--counter",)))
        line, _, text = counter.stdout.decode().partition("\n")
        if line != "UNREALIZABLE":
            why = why or (None if counter.stdout == plain.stdout else f"{a!r}: {counter!r}")
            continue
        refuted += 1
        circuit = controllers.Circuit(text)
        verdict = asked(program, automaton, text.encode(), "--environment")
        if plain.stdout != b"UNREALIZABLE\n" or hears(circuit) or is_answered(a, circuit) or verdict != (0, b"REFUTES\n", b""):
            why = why or f"{a!r}: {text!r}: {verdict!r}"
    yield "random automata", why
    yield "some have no controller", refuted > 20, True


REFUSED = {
    "no names": (b"aag 1 1 0 1 0\n2\n2\n", "the inputs and outputs have no names; --by-place takes them in order"),
    "an input that isn't there": (b"aag 0 0 0 1 0\n0\no0 g\n", "the circuit has no input named r"),
    "an output that isn't there": (b"aag 1 1 0 0 0\n2\ni0 r\n", "the circuit has no output named g"),
    "an input more": (b"aag 2 2 0 1 0\n2\n4\n2\ni0 r\ni1 tick\no0 g\n", "input 1 is named tick, but the automaton has no such input"),
    "an output more": (b"aag 1 1 0 2 0\n2\n2\n3\ni0 r\no0 g\no1 h\n", "output 1 is named h, but the automaton has no such output"),
    "a second name": (b"aag 1 1 0 1 0\n2\n2\ni0 r\ni0 spare\no0 g\n", "input 0 is named spare, but the automaton has no such input"),
    "a second name of an output": (b"aag 1 1 0 1 0\n2\n2\no0 spare\ni0 r\no0 g\n", "output 0 is named spare, but the automaton has no such output"),
    "the name of an output at an input": (b"aag 1 1 0 1 0\n2\n2\ni0 r\ni0 g\no0 g\n", "input 0 is named g, but the automaton has no such input"),
    "an input without a name": (b"aag 2 2 0 1 0\n2\n4\n2\ni0 r\no0 g\n", "input 1 has no symbol"),
    "a name that isn't UTF-8": (b"aag 2 2 0 1 0\n2\n4\n2\ni0 r\ni1 gr\xf6\\e\no0 g\n", "input 1 is named gr\\xf6\\\\e, but the automaton has no such input"),
    "a name in UTF-8": (b"aag 2 2 0 1 0\n2\n4\n2\ni0 r\ni1 \xc3\xb6\xe2\x82\xac\no0 g\n", "input 1 is named \u00f6\u20ac, but the automaton has no such input"),
    "a name that turns the direction of writing": (b"aag 2 2 0 1 0\n2\n4\n2\ni0 r\ni1 a\xe2\x80\xaeb\no0 g\n",
                                                   "input 1 is named a\\xe2\\x80\\xaeb, but the automaton has no such input"),
    "a circuit with nothing in it": (b"aag 0 0 0 0 0\n", "the circuit has no input named r"),
    "a name twice": (b"aag 2 2 0 1 0\n2\n4\n2\ni0 r\ni1 r\no0 g\n", "two inputs are named r"),
    "a latch that starts at 1": (b"aag 2 1 1 1 0\n2\n4 2 1\n4\ni0 r\no0 g\n", "latch 0 does not start at 0"),
    "a variable that nothing defines": (b"aag 3 1 0 1 0\n2\n6\ni0 r\no0 g\n", "variable 3 of the circuit is used and not defined"),
    "a variable that is defined twice": (b"aag 3 1 0 1 2\n2\n4\n4 2 2\n4 3 2\ni0 r\no0 g\n", "variable 2 of the circuit is defined twice"),
    "a literal that is negated": (b"aag 1 1 0 1 0\n3\n2\ni0 r\no0 g\n", "literal 3 of the circuit defines no variable"),
    "a bad state": (b"aag 1 1 0 1 0 1\n2\n2\n2\ni0 r\no0 g\n", "the circuit has bad-state properties, which are not read"),
    "no circuit": (b"module\n", "syntax error at byte 0"),
    "a variable too few": (b"aag 1 1 0 1 1\n2\n4\n4 2 2\ni0 r\no0 g\n", "the header's M is less than I + L + A"),
    "a variable too many in the binary form": (b"aig 2 1 0 1 0\n2\ni0 r\no0 g\n", "the header's M is not I + L + A"),
    "a carriage return alone": (b"aag 1 1 0 1 0\r2\n2\ni0 r\no0 g\n", "syntax error at byte 13"),
    "two carriage returns": (b"aag 1 1 0 1 0\n2\r\r\n2\ni0 r\no0 g\n", "syntax error at byte 15"),
    "a carriage return at the end": (b"aag 1 1 0 1 0\n2\n2\ni0 r\no0 g\n\r", "syntax error at byte 28"),
    "a symbol after an empty line": (b"aag 1 1 0 1 0\n2\n2\n\ni0 r\no0 g\n", "syntax error at byte 18"),
}


def counter(modulus, bits=16):
    """The text of a circuit without inputs whose latches count the steps up to a modulus, and whose output is low."""
    gates = []

    def both(x, y):
        gates.append((2 * (1 + bits + len(gates)), x, y))
        return gates[-1][0]

    latches, carry, last, sums = [2 * (1 + i) for i in range(bits)], 1, 1, []
    for i, latch in enumerate(latches):
        last = both(last, latch ^ (1 ^ (modulus - 1) >> i & 1))
        sums.append(both(both(latch, carry) ^ 1, both(latch ^ 1, carry ^ 1) ^ 1))
        carry = both(latch, carry)
    nexts = [both(it, last ^ 1) for it in sums]
    rows = [("aag", bits + len(gates), 0, bits, 1, len(gates)), *zip(latches, nexts), (0,), *gates]
    return "".join(" ".join(map(str, row)) + "\n" for row in rows) + "o0 g\n"


def limits(program):
    """A circuit that reaches 65,535 states is judged, and one that reaches a state more is too large; that it might doesn't matter."""
    automaton = b'HOA: v1\nStart: 0\nAP: 1 "g"\ncontrollable-AP: 0\nAcceptance: 0 t\n--BODY--\nState: 0\n[t] 0\n--END--\n'
    yield "65,535 states", asked(program, automaton, counter(65_535).encode()), (0, b"ACCEPTED\n", b"")
    yield "65,536 states", refused(program, automaton, counter(65_536).encode()), (1, b"", b"parsolve: circuit and automaton too large together\n")
    yield "1,000 states of 40 latches", asked(program, automaton, counter(1_000, bits=40).encode()), (0, b"ACCEPTED\n", b"")


def refusals(program):
    """What isn't a circuit for the automaton is refused with one line, with status 1 and no output."""
    for name, (circuit, told) in REFUSED.items():
        yield name, refused(program, AUTOMATON, circuit), (1, b"", f"parsolve: {told}\n".encode())
    status, output, errors = asked(program, AUTOMATON, b"aag 3 1 0 1 2\n2\n4\n4 6 2\n6 4 2\ni0 r\no0 g\n")
    is_told = re.fullmatch(rb"parsolve: the gate of variable [23] stands in a cycle\n", errors)
    yield "a cycle", None if (status, output) == (1, b"") and is_told else f"status {status}, {output!r}, {errors!r}"
    yield "an automaton that is none", asked(program, b"HOA: v2\n", WIRE)[:2], (1, b"")
    yield "one input without a line --", case.without_notes(subprocess.run([program, "verify"], input=AUTOMATON, capture_output=True).stderr), \
        b"parsolve: no line -- between the two texts\n"
    yield "one input", subprocess.run([program, "verify"], input=AUTOMATON + b"--\n" + WIRE, capture_output=True).stdout, b"ACCEPTED\n"


Tests = case.tests(__name__, printed_circuits, small_circuits, environments, counters, forms, names, limits, refusals)
