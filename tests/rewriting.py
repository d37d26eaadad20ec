"""Checks what tools/hoa makes of automata that `parsolve` doesn't read: the steps of the examples, letter by letter, as they were worked
out by hand; random labels and automata, labels as Python evaluates them; and what it refuses."""
import random
import re
import subprocess
import sys

import case
import controllers
from case import TOP


# For each example: the header that lists the controller's propositions, the condition, and the step of each state by letters 0, 1, 2, ..:
# a target and a set, or only a target, or None if there is no step. Then the verdict of `synth`.
EXAMPLES = {
    "spot-implicit": ("1", "2 Fin(1) & Inf(0)", [[(0, 0), (1, 0), (0, 0), (1, 0)], [(0, 1), (1, 1), (0, 0), (1, 0)]], "REALIZABLE"),
    "spot-state-labels": ("0", "0 t", [[1, None], [None, 0]], "REALIZABLE"),
    "spot-aliases": ("1", "0 t", [[0, 1, 0, 0], [None, None, 0, 0]], "REALIZABLE"),
    "spot-1.1": ("1", "2 Fin(0) | Inf(1)", [[0, (1, 0), (0, 1), (1, 1)], [0, (1, 0), None, None]], "UNREALIZABLE"),
    "owl-delay": ("1", "1 Fin(0)", [[0, 1, None, None], [None, None, 0, 1], [0, 1, 0, 1]], "REALIZABLE"),
}
HEAD = b'HOA: v1 Start: 0 AP: 2 "a" "b c" Acceptance: 2 Inf(1) | Fin(0) '
REFUSED = {
    b"": "syntax error at byte 0",
    b"HOA: v2": "syntax error at byte 5",
    b"HOA: v1 Start: 0 --BODY-- --END--": "missing header Acceptance at byte 17",
    HEAD + b"Start: 1": "a second Start:, at byte 63, isn't read",
    HEAD + b"spot-state-player: 0": "a split game (spot-state-player), at byte 63, isn't read",
    HEAD + b"spot.state-player: 0": "a split game (spot.state-player), at byte 63, isn't read",
    HEAD + b"Fairness: 0": "header Fairness, at byte 63, isn't read",
    HEAD + b"Alias: @x @y --BODY-- --END--": "alias @y at byte 73 isn't defined before",
    HEAD + b"Alias: @x 0 1 --BODY-- --END--": "syntax error at byte 75",
    HEAD + b"controllable-AP: 2 --BODY-- --END--": "the headers name proposition 2, and there are 2",
    HEAD + b"--BODY-- State: 0 [0] 0&1 --END--": "universal branching, at byte 86, isn't read",
    HEAD + b"--BODY-- State: 0 [0] 0 1 --END--": "state 0 has edges with labels and edges without",
    HEAD + b"--BODY-- State: [0] 0 [1] 1 --END--": "state 0 has edges with labels and edges without",
    HEAD + b"--BODY-- State: 0 0 0 0 --END--": "state 0 has 3 edges without labels, and not one for each of 4 letters",
    HEAD + b"--BODY-- State: 0 [0] 0 {1} [1] 0 {0 1} --END--": None,
    HEAD + b"--BODY-- State: 0 [0] 0 {1} [1] 0 {0} --END--": "state 0 is not deterministic at letter 3: a & b c",
    HEAD + b"--BODY-- State: 0 State: 1 [!0] 0 [t] 1 --END--": "state 1 is not deterministic at letter 0: !a & !b c",
    HEAD + b"--BODY-- --ABORT--": "--ABORT--, at byte 72, isn't read",
    HEAD + b"--BODY-- --END-- HOA: v1": "a second automaton, at byte 80, isn't read",
    HEAD + b"--BODY-- State: 0 [0 1] 0 --END--": "syntax error at byte 84",
    HEAD + b"--BODY-- State: 0 [(0] 0 --END--": "syntax error at byte 84",
    b"HOA: v1 States: 1 Start: 1 Acceptance: 0 t --BODY-- --END--": "the headers name state 1, and there are 1",
    b"HOA: v1 Start: 0 Acceptance: 1 Inf(!0)": "a negated set, at byte 35, isn't read",
}
SHAPES = {
    "0 t": True, "0 f": True, "1 Inf(0)": True, "1 Fin(0)": True, "1 t": False, "2 Inf(0)": False,
    "2 Fin(0) & Inf(1)": True, "2 Fin(0) | Inf(1)": True, "2 Inf(0) & Inf(1)": False, "2 Inf(0) | Fin(1)": True,
    "3 (Inf(0) | Fin(1)) & Inf(2)": False, "3 (Fin(1) & (Inf(0))) | Inf(2)": True, "3 Fin(0) & (Fin(2) | Inf(1))": True,
    "3 Fin(1) & Inf(0) | Inf(2)": True, "3 Fin(1) & (Inf(0) | Inf(2))": False,
}


def rewritten(text, *words, under=()):
    """(status, output, error stream) of the tool, perhaps under another command."""
    ran = subprocess.run([*under, sys.executable, TOP / "tools/hoa", *words], input=text, capture_output=True, timeout=60)
    return ran.returncode, ran.stdout.decode(), ran.stderr.decode()


def holds(label, letter):
    """Whether a label over numbers of propositions has the letter."""
    words = re.sub(r"\d+", lambda it: str(bool(letter >> int(it[0]) & 1)), label)
    words = words.replace("t", "True") if label == "t" else "False" if label == "f" else words
    return bool(eval(words.replace("!", " not ").replace("&", " and ").replace("|", " or "), {"__builtins__": {}}))


def steps_of(text):
    """For each state the targets and sets of all edges that match, by letters; from the lines that the tool writes."""
    letters = range(1 << int(re.search(r"^AP: (\d+)", text, re.M)[1]))
    steps = {}
    for part in text.partition("--BODY--\n")[2].split("State: ")[1:]:
        edges = re.findall(r"^\[(.*)\] (\d+)(?: \{([\d ]+)\})?$", part, re.M)
        steps[int(re.match(r"\d+", part)[0])] = [
            [(int(target), *map(int, sets.split())) for label, target, sets in edges if holds(label, letter)] for letter in letters]
    return steps


def header(text, name):
    found = re.search(rf"^{name}: (.*)$", text, re.M)
    return found and found[1]


def examples():
    """(what is checked, result, wanted result) for each example."""
    for name, (controllable, condition, steps, _) in EXAMPLES.items():
        text = (TOP / f"examples/{name}.hoa").read_bytes()
        status, made, told = rewritten(text, "--outs", "grant")
        wanted = {state: [[] if it is None else [it if isinstance(it, tuple) else (it,)] for it in row] for state, row in enumerate(steps)}
        yield f"{name}: its steps", (status, steps_of(made), told), (0, wanted, "")
        yield (f"{name}: its headers", (made.partition("\n")[0], header(made, "controllable-AP"), header(made, "Acceptance")),
               ("HOA: v1", controllable, condition))
        yield f"{name}: without --outs", header(rewritten(text)[1], "controllable-AP"), None
        yield f"{name}: the result, rewritten again", rewritten(made.encode())[1], made


def random_label(dice, count, depth):
    """A label over `count` propositions, and over the aliases @0 and @1, which are propositions 0 and 1."""
    kind = dice.randrange(6 if depth else 2)
    if kind < 2:
        number = dice.randrange(count)
        return f"@{number}" if kind and number < 2 else str(number)
    if kind == 2:
        return dice.choice("tf")
    if kind == 3:
        return "!" + random_label(dice, count, 0)
    joined = dice.choice("&|").join(random_label(dice, count, depth - 1) for _ in range(dice.randint(1, 3)))
    return f"!({joined})" if kind == 4 else f"({joined})" if dice.random() < 0.5 else joined


def labels():
    """The same for random labels: each has the letters that Python says it has."""
    dice = random.Random(1)
    for count in (1, 2, 3, 4) * 10:
        label = random_label(dice, max(count, 2), 3)
        count = max(count, 2)
        names = " ".join(f'"{number}"' for number in range(count))
        text = f"HOA: v1 Alias: @0 0 Alias: @1 ((1)) AP: {count} {names} Start: 0 Acceptance: 0 t --BODY-- State: 0 [{label}] 0 --END--"
        plain = re.sub(r"\bt\b", "(0|!0)", re.sub(r"\bf\b", "(0&!0)", label.replace("@", "")))
        wanted = [[(0,)] if holds(plain, letter) else [] for letter in range(1 << count)]
        yield label, steps_of(rewritten(text.encode())[1]), {0: wanted}


def automata():
    """The same for random automata, with a label on each edge and, if they are complete, without."""
    dice = random.Random(1)
    for number in range(20):
        a = controllers.random_automaton(dice)
        text, letters = controllers.automaton_text(a), range(1 << len(a.controllable))
        wanted = {state: [[(it[0], *it[1])] if (it := a.steps.get((state, letter))) else [] for letter in letters]
                  for state in range(a.states)}
        yield f"at random {number}", steps_of(rewritten(text.encode())[1]), wanted
        if len(a.steps) == a.states * len(letters):
            text = re.sub(r"^\[.*?\] ", "", text, flags=re.M)
            yield f"at random {number}, implicit labels", steps_of(rewritten(text.encode())[1]), wanted


def refusals():
    """The same for texts that are refused, and conditions that are of a shape or not."""
    for text, told in REFUSED.items():
        status, made, said = rewritten(text)
        yield text, (status, made != "", said), (1, False, f"hoa: standard input: {told}\n") if told else (0, True, "")
    for condition, is_parity in SHAPES.items():
        status, _, said = rewritten(f"HOA: v1 Start: 0 Acceptance: {condition} --BODY-- --END--".encode())
        wanted = (0, "") if is_parity else (1, "hoa: standard input: acceptance isn't parity: it has none of the six shapes of "
                                               "docs/formats.md\n")
        yield condition, (status, said), wanted
    yield ("--outs", rewritten(HEAD + b"--BODY-- --END--", "--outs", "a,b"),
           (1, "", "hoa: standard input: no proposition is named b; there are: a, b c\n"))
    yield "--outs", header(rewritten(HEAD + b"controllable-AP: 0 --BODY-- --END--", "--outs", "b c")[1], "controllable-AP"), "1"
    yield "the words", rewritten(b"", "--line")[0], 2
    yield "no such file", rewritten(b"", "nothing"), (1, "", "hoa: nothing: No such file or directory\n")


# runs a command; the status says whether it took more than 80 MB
IN_80_MB = """import resource, subprocess, sys
subprocess.run(sys.argv[1:])
sys.exit(resource.getrusage(resource.RUSAGE_CHILDREN).ru_maxrss > 80_000)"""


def in_little_memory():
    """The same for many edges with the same label over sixteen propositions, whose letters take 8 KB: they are in memory once."""
    count, names, under = 12_000, " ".join(f'"{number}"' for number in range(16)), [sys.executable, "-c", IN_80_MB]
    head = f"HOA: v1\nStart: 0\nAP: 16 {names}\nAcceptance: 1 Inf(0)\n--BODY--\n"
    body = "State: 0\n" + "".join(f"[15]{target}\n" for target in range(count)) + "--END--\n"
    status, made, said = rewritten((head + body).encode(), under=under)
    yield "edges of a state", (status, made, said.partition(": !")[0]), (
        0, "", "hoa: standard input: state 0 is not deterministic at letter 32768")
    body = "".join(f"State: {state}\n[15] {(state + 1) % count}\n" for state in range(count)) + "--END--\n"
    status, made, said = rewritten((head + body).encode(), under=under)
    yield "edges of as many states", (status, made.partition("--BODY--\n")[2], said), (0, body, "")


def answers(program):
    """The same for a program's verdict on each example."""
    for name, (_, _, _, wanted) in EXAMPLES.items():
        made = rewritten((TOP / f"examples/{name}.hoa").read_bytes(), "--outs", "grant")[1]
        ran = subprocess.run([program, "synth"], input=made.encode(), capture_output=True, timeout=60)
        yield f"{name}: synth", (ran.returncode, ran.stdout.decode().partition("\n")[0]), (0, wanted)
        ran = subprocess.run([program, "synth"], input=(TOP / f"examples/{name}.hoa").read_bytes(), capture_output=True, timeout=60)
        yield f"{name}: as it stands it isn't read", ran.returncode, 0 if name == "owl-delay" else 1


Tests = case.tests(__name__, examples, labels, automata, refusals, in_little_memory, answers)
