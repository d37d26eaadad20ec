"""Makes printed circuits small with ABC, as docs/commands.md shows, and checks that each small circuit does the same.

ABC compares the two circuits, and a plain reader runs both on random inputs; ABC must also notice that
a circuit with a negated output differs."""
import pathlib
import random
import subprocess
import sys
import tempfile

import case
import controllers
from case import TOP

EXAMPLES = ["arbiter", "request-grant", "owl-arbiter", "delay"]
STEPS = 500


def printed(program, name):
    """The circuit that is printed for an example, as text."""
    ran = subprocess.run([program, "synth"], stdin=open(TOP / f"examples/{name}.hoa", "rb"), capture_output=True, text=True, timeout=120)
    line, _, circuit = ran.stdout.partition("\n")
    if line != "REALIZABLE":
        raise ValueError(f"synth printed {line!r} {ran.stderr!r}")
    return circuit


def call(folder, *words):
    """The output of a tool; a fault of the tool is raised."""
    ran = subprocess.run(words, cwd=folder, stdout=subprocess.PIPE, stderr=subprocess.STDOUT, text=True, timeout=120)
    if ran.returncode != 0:
        raise ValueError(f"{' '.join(words)}: {ran.stdout!r}")
    return ran.stdout


def turn(folder, form, name, made):
    """Writes a circuit in another form, with tools/circuit."""
    (folder / made).write_bytes(subprocess.run([sys.executable, TOP / "tools/circuit", form, folder / name], check=True, timeout=120,
                                               stdout=subprocess.PIPE).stdout)


def make_small(folder):
    """Makes printed.aig of printed.aag, and small.aig and small.aag, which are small."""
    turn(folder, "binary", "printed.aag", "printed.aig")
    call(folder, "berkeley-abc", "-q", "read printed.aig; strash; scorr; dc2; dc2; write_aiger -s small.aig")
    turn(folder, "ascii", "small.aig", "small.aag")


def is_equivalent(folder, name, latches):
    """Whether ABC says that a circuit does what the printed one does, which has `latches` latches; `dsec` needs at least one."""
    command = "dsec" if latches else "cec"
    return "Networks are equivalent" in call(folder, "berkeley-abc", "-q", f"{command} printed.aig {name}")


def names(circuit, kind):
    """The names of the inputs (`i`) or outputs (`o`), in their order."""
    symbols = circuit.symbols[:circuit.symbols.index("c")] if "c" in circuit.symbols else circuit.symbols
    return [line.partition(" ")[2] for line in symbols if line.startswith(kind)]


def run_of(circuit, words):
    """The outputs by name in each step, for inputs by name in each step."""
    bits, found = 0, []
    for word in words:
        letter = sum(word[name] << place for place, name in enumerate(names(circuit, "i")))
        outputs, bits = circuit.step(bits, letter)
        found.append({name: outputs >> place & 1 for place, name in enumerate(names(circuit, "o"))})
    return found


def negated(text):
    """The circuit with its first output negated."""
    lines = text.split("\n")
    place = 1 + sum(map(int, lines[0].split()[2:4]))
    lines[place] = str(int(lines[place]) ^ 1)
    return "\n".join(lines)


def why_wrong(program, name):
    """Why the small circuit of an example isn't as it should be, or None."""
    with tempfile.TemporaryDirectory() as made:
        folder, text = pathlib.Path(made), printed(program, name)
        (folder / "printed.aag").write_text(text)
        make_small(folder)
        first, second = controllers.Circuit(text), controllers.Circuit((folder / "small.aag").read_text())
        if not is_equivalent(folder, "small.aig", len(first.latches)):
            return "ABC says that it does something else"
        dice = random.Random(1)
        words = [{it: dice.randint(0, 1) for it in names(first, "i")} for _ in range(STEPS)]
        if run_of(first, words) != run_of(second, words):
            return "it answers differently to some inputs"
        if len(second.gates) > len(first.gates):
            return f"it has {len(second.gates)} gates, the printed one {len(first.gates)}"
        (folder / "other.aag").write_text(negated(text))
        turn(folder, "binary", "other.aag", "other.aig")
        return "ABC doesn't notice a different circuit" if is_equivalent(folder, "other.aig", len(first.latches)) else None


def small(program):
    """The parts of the test, for each example."""
    sys.setrecursionlimit(100_000)  # the plain reader goes down a chain of gates
    for name in EXAMPLES:
        yield name, case.lacking("berkeley-abc") or why_wrong(program, name)


Tests = case.tests(__name__, small)
