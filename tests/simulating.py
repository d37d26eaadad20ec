"""Checks tools/circuit: runs of circuits, also beside automata, and the binary form.

The expected results were worked out by hand. For random circuits and automata they are those of a plain reader of circuits and of a look
at every pair of steps."""
import os
import pathlib
import pty
import random
import re
import shlex
import subprocess
import sys
import tempfile

import case
import controllers
import formulas
from case import TOP

sys.path.insert(0, str(TOP / "tools"))
import ltl  # noqa: E402


# the output is the input of the step before, kept in one latch
DELAY = "aag 2 1 1 1 0\n2\n4 2\n4\ni0 request\no0 grant\n"
DELAY_BINARY = b"aig 2 1 1 1 0\n2\n4\ni0 request\no0 grant\n"
HEAD = "step: inputs (request) | outputs (grant)"
WORD = "request\n\nrequest\nrequest\n"
DELAYED = f"{HEAD}\n0: request | -\n1: - | grant\n2: request | -\n3: request | grant\n"
# the output is the negated input of the step before: so the run of request-grant.hoa meets set 1 after a request
NEGATED = DELAY.replace("4\ni0", "5\ni0")
REJECTED = HEAD + """ | state {sets}
0: request | grant | 1 {0}
1: - | - | 0 {1} | rejecting loop: steps 0 to 1
2: request | grant | 1 {0} | rejecting loop: steps 1 to 2
3: request | - | 1 {1} | rejecting loop: steps 3 to 3
"""
ENDED = HEAD + """ | state {sets}
0: request | grant | no edge
1: - | - | ended
2: request | grant | ended
3: request | - | ended
"""
# two inputs with unusual names, and three gates, the last 128 * 2 and more above what it uses
WIDE = ("aag 133 130 0 2 3\n" + "".join(f"{2 * it}\n" for it in range(1, 131)) + "266\n1\n262 3 2\n264 262 5\n266 6 6\n"
        + "i0 a b\ni1 t\no0 \u00e9\n")
WIDE_BINARY = ("aig 133 130 0 2 3\n266\n1\n".encode() + bytes([0x83, 0x02, 1, 2, 0x81, 0x02, 0x84, 0x02, 0])
               + "i0 a b\ni1 t\no0 \u00e9\n".encode())
# a stand-in for the program, which prints the files answer, game and solution; and the game and the solution of each automaton, by its name.
# Those of `never` were worked out by hand: the environment never asks, so that the set is never met
NEVER = """HOA: v1 Start: 0 AP: 2 "request" "grant" controllable-AP: 1 Acceptance: 1 Inf(0)
--BODY-- State: 0 [0&1] 0 {0} [!0 | !1] 0 --END--
"""
PROGRAM = """#!/bin/sh
case $1 in synth) cat answer ;; game) cat game ;; solve) cat solution ;; esac
"""
GAMES = {
    "never": ('1 1 1 2,3 "s0";2 0 0 1 "s0:0";3 0 0 1,4 "s0:1";4 2 1 2,3 "s0/0";', "1 1 2;2 1;3 1;4 1 2;"),
    "foresight": ((TOP / "examples/foresight.pg").read_text(), (TOP / "examples/foresight.solution").read_text()),
}
ROLE = {True: "REALIZABLE: you are the environment, and a line has the names of the inputs that hold\n",
        False: "UNREALIZABLE: you are the controller, and a line has the names of the outputs that hold\n"}
PLAYED = {
    "never": ("grant\n\n", "0: - | ..\n0: - | grant | 0 {} | rejecting loop: steps 0 to 0\n"
                           "1: - | ..\n1: - | - | 0 {} | rejecting loop: steps 1 to 1\n2: - | ..\n"),
    "foresight": ("grant\n\ngrant\n", "0: - | ..\n0: - | grant | 2 {}\n1: - | ..\n1: - | - | no edge\n"),
}
REFUSED = {
    "REALIZABLE\n": "it begins neither with aag nor with aig",
    "UNREALIZABLE\n": "it says UNREALIZABLE, and no circuit follows; synth --counter prints one",
    "aig 1 0 0 0\n": "line 1 is damaged",
    "aig 2 1 0 0 0\n": "line 1 is damaged",
    "aig 4000000000 4000000000 0 0 0\n": "line 1 is damaged",
    "aag 4000000000 4000000000 0 0 0\n": "it ends too early",
    "aag 1 1 0 1 0\n" + "1" * 5000 + "\n2\n": "line 2 is damaged",
    "aig 1 0 1 0 0\n": "it ends too early",
    "aig 1 0 1 0 0\n2 1\n": "line 2 is damaged",
    "aig 1 0 0 0 1\n\1": "it ends too early",
    "aig 1 0 0 0 1\n\0\0": "a literal isn't of a variable before it",
    "aig 1 0 0 0 1\n\1\2": "a literal isn't of a variable before it",
    b"aig 1 0 0 0 1\n" + b"\x80" * 10 + b"\0\0": "a number of a gate has more than 10 bytes",
    b"aig 1 0 0 0 1\n" + b"\x80" * 1_000_000 + b"\0\0": "a number of a gate has more than 10 bytes",
    "aag 1 1 0 1\n": "line 1 is damaged",
    "aag 1 1 0 1 0\n2\n": "line 3 is damaged",
    "aag 1 1 0 1 0\n2": "it ends too early",
    "aag 1 1 0 1 0\n4\n2\n": "it uses a variable that nothing defines",
    "aag 2 1 1 0 0\n2\n2 0\n": "it defines a variable twice, or a negation",
    "aag 1 1 0 1 0\n2\n4\n": "it uses a variable that nothing defines",
    "aag 2 1 0 1 1\n2\n4\n4 4 2\n": "its gates have a cycle, or use a variable that nothing defines",
    "aag 2 1 0 1 1\n2\n4\n4 5 3\n": "its gates have a cycle, or use a variable that nothing defines",
}


def used(command, circuit, letters="", automaton=None):
    """(status, output, error stream) of the tool on a circuit, and an automaton; the circuit and the automaton are files."""
    with tempfile.TemporaryDirectory() as folder:
        pathlib.Path(folder, "circuit").write_bytes(circuit if isinstance(circuit, bytes) else circuit.encode())
        words = [command, "circuit"]
        if automaton is not None:
            pathlib.Path(folder, "automaton").write_text(automaton)
            words += ["--automaton", "automaton"]
        ran = subprocess.run([sys.executable, TOP / "tools/circuit", *words], cwd=folder, input=letters.encode(), capture_output=True,
                             timeout=60)
    return ran.returncode, ran.stdout, ran.stderr.decode()


def simulated(*words):
    status, output, told = used("simulate", *words)
    return status, output.decode(), told


def example(name):
    return (TOP / f"examples/{name}.hoa").read_text()


def by_hand():
    """(what is checked, result, wanted result) for each run and form by hand."""
    yield "a run", simulated(DELAY, WORD), (0, DELAYED, "")
    yield "behind REALIZABLE", simulated("REALIZABLE\n" + DELAY, WORD), (0, DELAYED, "")
    yield "a rejecting loop", simulated(NEGATED, WORD, example("request-grant")), (0, REJECTED, "")
    yield "a form that only tools/hoa reads", simulated(NEGATED, WORD, example("spot-implicit")), (0, REJECTED, "")
    yield "a run that ends", simulated(NEGATED, WORD, example("delay")), (0, ENDED, "")
    yield "names", simulated(WIDE, "'a b' t\nt\n")[1].split("\n")[1:], ["0: 'a b' t | o1", "1: t | o1", ""]
    for text, form in ((DELAY, DELAY_BINARY), (WIDE, WIDE_BINARY)):
        for given in (text, form):
            yield "binary", used("binary", given), (0, form, "")
            yield "ascii", used("ascii", given), (0, text.encode(), "")
    yield "a run of the binary form", simulated(DELAY_BINARY, WORD), (0, DELAYED, "")
    yield "a number of ten bytes", used("ascii", b"aig 1 0 0 0 1\n\x82" + b"\x80" * 8 + b"\0\0"), (0, b"aag 1 0 0 0 1\n2 0 0\n", "")
    yield "comments", used("ascii", DELAY_BINARY + b"l0 kept\nc\nby hand\no0 other\n")[1], DELAY.encode() + b"l0 kept\n"


def played(name, answer, letters):
    """(status, output, error stream) of a play; `name` is an automaton of examples/ or `never`."""
    with tempfile.TemporaryDirectory() as made:
        folder = pathlib.Path(made)
        game, solution = GAMES.get(name, ("", ""))
        for file, text in (("automaton", NEVER if name == "never" else example(name)), ("program", PROGRAM), ("answer", answer),
                           ("game", game), ("solution", solution)):
            (folder / file).write_text(text)
        (folder / "program").chmod(0o755)
        ran = subprocess.run([sys.executable, TOP / "tools/circuit", "play", "--program", "./program", "automaton"], cwd=folder,
                             input=letters.encode(), capture_output=True, timeout=60)
    return ran.returncode, ran.stdout.decode(), ran.stderr.decode()


def plays():
    """The same for plays against the environment, and against a circuit."""
    for name, (letters, steps) in PLAYED.items():
        yield f"a play: {name}", played(name, "UNREALIZABLE\n", letters), (0, f"{ROLE[False]}{HEAD} | state {{sets}}\n{steps}", "")
    steps = "0: request | - | 1 {0}\n1: - | grant | 0 {0} | accepting loop: steps 0 to 1\n"
    yield ("a play against a circuit", played("delay", "REALIZABLE\n" + DELAY, "request\n\n"),
           (0, f"{ROLE[True]}{HEAD} | state {{sets}}\n{steps}", ""))
    yield ("a move that isn't", played("never", "UNREALIZABLE\n", "request\n")[::2],
           (1, "circuit: automaton: standard input: line 1: no output is named request; there are: grant\n"))


def waves_of(text):
    """The values of each name of a VCD file in each step, by the names as the file has them; those of latches begin with `latches.`. The clock
    rises when a step begins, every 10 ns, and falls in the middle of it."""
    head, body = text.split("$enddefinitions $end\n")
    names, scopes, steps, now = {}, [], [], {}
    for line in head.splitlines():
        word, *rest = line.split()
        if word in ("$scope", "$upscope"):
            scopes = [*scopes, rest[1]] if word == "$scope" else scopes[:-1]
        elif word == "$var":
            names[rest[2]] = ".".join([*scopes[1:], rest[3]])
    for number, part in enumerate(re.split(r"^#", body, flags=re.M)[1:]):
        time, *changes = part.split()
        if int(time) != 5 * number:
            return [f"time {time} is number {number}"]
        now = {**now, **{names[change[1:]]: change[0] for change in changes}}
        if now["clock"] != str(1 - number % 2) and changes:
            return [f"the clock is {now['clock']} at time {time}"]
        steps += [now] if number % 2 == 0 and changes else []
    return steps


def drawn_inputs():
    """The same for random inputs, and waves: the lines are those that the same inputs give, and the waves have the values of the lines."""
    with_latch = DELAY.replace("i0", "l0 asked before\ni0")
    for circuit, names in ((with_latch, {"request": "request", "grant": "grant"}), (WIDE, {"a b": "'a b'", "t": "t", "o1": "o1"})):
        with tempfile.TemporaryDirectory() as folder:
            pathlib.Path(folder, "circuit").write_text(circuit)
            words = [sys.executable, TOP / "tools/circuit", "simulate", "circuit", "--random", "20", "7", "--vcd", "waves"]
            ran = [subprocess.run(words, cwd=folder, stdin=subprocess.DEVNULL, capture_output=True, timeout=60) for _ in range(2)]
            waves = waves_of(pathlib.Path(folder, "waves").read_text())
        lines = ran[0].stdout.decode().splitlines()[1:]
        word = "".join(line.partition(": ")[2].partition(" |")[0].replace("-", "", line.count(": -")) + "\n" for line in lines)
        yield "drawn twice", (ran[0].returncode, ran[0].stdout, len(lines)), (0, ran[1].stdout, 20)
        yield "random, and given", simulated(circuit, word)[1].splitlines()[1:], lines
        held = [shlex.split(line.partition(": ")[2]) for line in lines]
        for name in names:
            wanted = [str(int(name in those)) for those in held]
            yield f"the waves of {name}", [step[name.replace(" ", "_")] for step in waves], wanted
            if name == "request":
                yield "the waves of the latch", [step["latches.asked_before"] for step in waves], ["0", *wanted[:-1]]


# the environment's side of delay.hoa, for a circuit that repeats the last grant, and asks after a step without one
COUNTER = "UNREALIZABLE\naag 2 1 1 1 0\n2\n4 2\n5\ni0 grant\no0 request\n"
FORMULA = "!grant;\nG (request -> X grant);\nG !(grant & request) & G F request;\n"
KEPT = DELAY.replace("i0", "l0 kept\ni0")


def compared(circuit, verdict, *words, formula=None, automaton=None):
    """(status, output without the heading, error stream) of the tool on the inputs of a verdict."""
    with tempfile.TemporaryDirectory() as made:
        folder = pathlib.Path(made)
        for name, text in (("circuit", circuit), ("verdict", verdict), ("formula", formula), ("automaton", automaton)):
            if text is not None:
                (folder / name).write_text(text)
        more = (["--ltl", "formula"] if formula is not None else []) + (["--automaton", "automaton"] if automaton is not None else [])
        ran = subprocess.run([sys.executable, TOP / "tools/circuit", "simulate", "circuit", "--verdict", "verdict", *more, *words], cwd=folder,
                             capture_output=True, text=True, timeout=60)
    return ran.returncode, ran.stdout.partition("\n")[2], ran.stderr


def verdicts():
    """(what is checked, result, wanted result) for the inputs of verdicts, and for the parts of formulas."""
    yield ("STUCK", compared(NEGATED, "STUCK\n1\n0\n", automaton=example("delay")),
           (0, "0: request | grant | no edge\n1: - | - | ended\n", ""))
    yield ("REJECTED", compared(NEGATED, "REJECTED\n1\nloop\n1\n", automaton=example("request-grant")),
           (0, "0: request | grant | 1 {0}\n1: request | - | 1 {1} | rejecting loop: steps 1 to 1\n", ""))
    yield ("FAILS", compared(COUNTER, "FAILS\nloop\n0\n", automaton=example("request-grant")),
           (0, "0: - | request | 1 {0}\n1: - | request | 1 {1}\n", ""))
    yield ("an accepting loop", compared(COUNTER, "FAILS\n1\nloop\n1\n0\n", automaton=example("request-grant"))[1].splitlines(),
           ["0: grant | request | 1 {0}", "1: grant | - | 0 {0}", "2: - | - | 0 {0} | accepting loop: steps 0 to 2",
            "3: grant | request | 1 {0} | accepting loop: steps 1 to 3", "4: - | - | 0 {1}"])
    opponent = COUNTER.partition("\n")[2]
    yield ("FAILS, without UNREALIZABLE", compared(opponent, "FAILS\n1\nloop\n1\n0\n", automaton=example("request-grant"))[1].splitlines()[2],
           "2: - | - | 0 {0} | accepting loop: steps 0 to 2")
    yield ("no input", compared("aag 1 0 1 1 0\n2 3\n2\no0 o\n", "REJECTED\nloop\n\n"), (0, "0: - | -\n1: - | o\n", ""))
    for verdict in ("ACCEPTED\n", "REFUTES\n"):
        yield verdict, compared(DELAY, verdict)[::2], (1, f"circuit: verdict: {verdict.strip()} comes without inputs, so there is nothing to run\n")
    for verdict in ("", "WINS\n", "STUCK\nloop\n0\n", "REJECTED\n0\n"):
        yield (verdict, compared(DELAY, verdict)[::2],
               (1, "circuit: verdict: a verdict with inputs begins with STUCK; or with REJECTED or FAILS, and has a line loop\n"))
    yield ("another circuit's", compared(DELAY, "STUCK\n01\n")[::2], (1, "circuit: verdict: '01' doesn't have a 0 or a 1 for each of 1 inputs\n"))


def parts_of_formulas():
    """The same for the parts of formulas that fail: which of them, and when."""
    said = ("0: request | grant\n1: request | -\n2: - | -\n3: - | grant\n4: request | grant\nsteps 1 to 4 repeat for ever\n"
            "part 1 of 4 fails at step 0: !grant\npart 3 of 4 fails at step 0: G !(grant & request)\n"
            "part 2 of 4 fails at step 1: G (request -> X grant)\n")
    yield "which fails first", compared(NEGATED, "REJECTED\n1\nloop\n1\n0\n0\n1\n", formula=FORMULA), (0, said, "")
    yield ("an endless run", compared(DELAY, "REJECTED\nloop\n0\n", formula=FORMULA)[1],
           "0: - | -\nstep 0 repeats for ever\npart 4 of 4 fails as step 0 repeats for ever: G F request\n")
    yield ("an assumption", compared(DELAY, "REJECTED\n1\nloop\n0\n1\n", formula="G F request -> G (grant -> X grant)")[1].splitlines()[-1],
           "the formula fails at step 2: G F request -> G (grant -> X grant)")
    yield "a latch", compared(KEPT, "REJECTED\nloop\n1\n", formula="G !kept")[1].splitlines()[-1], "the formula fails at step 1: G !kept"
    yield "none", compared(DELAY, "REJECTED\nloop\n1\n", formula="F grant")[1].splitlines()[-1], "the run satisfies the formula"
    yield "deep", compared(DELAY, "REJECTED\nloop\n1\n", formula="!X" * 2000 + " 1")[1].splitlines()[-1], "the run satisfies the formula"
    yield "perhaps later", compared(DELAY, "STUCK\n0\n", formula="F grant")[1].splitlines()[-1], "no step shows that the formula fails"
    for formula, told in (("G ask", "the circuit has no input, output or latch named ask; there are: request, grant, l0"),
                          ("G (grant", "syntax error at byte 8"), ("grant grant", "syntax error at byte 6"), ("", "syntax error at byte 0"),
                          ("\u00e9", "syntax error at byte 0"),
                          ("(" * 20_000, "the formula has too many brackets inside one another"), ("\"\u00e9\" X", "syntax error at byte 5")):
        yield formula, compared(DELAY, "STUCK\n0\n", formula=formula)[::2], (1, f"circuit: formula: {told}\n")


def why_misread(dice, names):
    """Why the tool is wrong about a random formula and a random run, or None."""
    formula, (word, back) = formulas.random_formula(dice, dice.randint(1, 5), names), formulas.random_word(dice, names)
    if ltl.read_formula(ltl.spelt(formula).encode()) != formula:
        return f"{formula} is spelt {ltl.spelt(formula)}"
    if ltl.truths(formula, word, back) != formulas.truths(formula, word, back):
        return f"{formula} on {word}, back to {back}: {ltl.truths(formula, word, back)}"
    failing = {it.number for it in ltl.failures(formula, word, back)}
    if failing != {place for place, it in enumerate(ltl.parts(formula), 1) if not formulas.satisfies(it, word, back)}:
        return f"{formula} on {word}, back to {back}: {failing} fail"
    if (not failing) != formulas.satisfies(formula, word, back):
        return f"the parts of {formula} say something else"
    certain = {it.number for it in ltl.failures(formula, word)}
    other = {it.number for it in ltl.failures(formula, word, dice.randrange(len(word)))}
    return None if certain <= other else f"{formula} on {word}: {certain} fail for certain, and {other} in the end"


def formulas_at_random():
    """Random formulas on random runs: what the tool works out agrees with a plain evaluator."""
    dice = random.Random(3)
    yield "random formulas", next(filter(None, (why_misread(dice, ["a", "Fx", "c d", "U1"]) for _ in range(1000))), None)


def plays_with_circuits():
    """The same for plays against a given circuit, on either side, and for one that can't play the environment."""
    for what, circuit, letters, steps in (
            ("the environment", COUNTER, "\ngrant\n", "0: request | ..\n0: request | - | 1 {0}\n1: request | ..\n1: request | grant | 1 {0}\n2: - | ..\n"),
            ("the controller", DELAY, "request\n", "0: request | - | 1 {0}\n")):
        with tempfile.TemporaryDirectory() as folder:
            pathlib.Path(folder, "circuit").write_text(circuit)
            ran = subprocess.run([sys.executable, TOP / "tools/circuit", "play", "--circuit", "circuit", TOP / "examples/delay.hoa"], cwd=folder,
                                 input=letters, capture_output=True, text=True, timeout=60)
        yield f"a play against {what}", (ran.returncode, ran.stdout.partition("{sets}\n")[2], ran.stderr), (0, steps, "")


def typed_again():
    """At a keyboard a line with a wrong name may be typed again; in a pipe it ends the run."""
    with tempfile.TemporaryDirectory() as folder:
        pathlib.Path(folder, "circuit").write_text(DELAY)
        keyboard, terminal = pty.openpty()
        os.write(keyboard, b"ask\nrequest\n\x04")
        ran = subprocess.run([sys.executable, TOP / "tools/circuit", "simulate", "circuit"], cwd=folder, stdin=terminal, capture_output=True, text=True,
                             timeout=60)
        os.close(keyboard)
        os.close(terminal)
    yield ("a line typed again", (ran.returncode, ran.stdout, ran.stderr),
           (0, f"{HEAD}\n0: request | -\n", "circuit: line 1: no input is named ask; there are: request; type the line again\n"))


# a stand-in for ABC: it prints SAID about the circuits, and its circuit is the one in the file SMALL
ABC = """#!/bin/sh
case $2 in *write_aiger*) if [ -e "$SMALL" ]; then cp "$SMALL" small.aig; fi ;; *) echo "$SAID" ;; esac
"""
LONG = DELAY.replace("aag 2 1 1 1 0", "aag 3 1 1 1 1").replace("4\ni0", "4\n6 4 2\ni0")
SAYS = "circuit: 1 gates and 1 latches, and in the smaller circuit 0 and 1\n"
BY_ABC, BY_STEPS = "circuit: ABC compared the two circuits (cec): they are equivalent\n", "circuit: 1000 steps of random inputs: both " \
    "circuits answered the same\n"
MADE_SMALL = {
    "equivalent": (DELAY_BINARY, "Networks are equivalent.", [], (0, DELAY, SAYS + BY_ABC + BY_STEPS)),
    "binary": (DELAY_BINARY, "Networks are equivalent.", ["--binary"], (0, DELAY_BINARY.decode(), SAYS + BY_ABC + BY_STEPS)),
    "undecided": (DELAY_BINARY, "Networks are UNDECIDED.", [],
                  (0, DELAY, SAYS + "circuit: ABC didn't tell whether the two circuits are equivalent (dsec): ['Networks are "
                   "UNDECIDED.']\n" + BY_STEPS)),
    "refuted": (DELAY_BINARY, "Networks are NOT EQUIVALENT.", [],
                (1, "", SAYS + "circuit: circuit: ABC says that the smaller circuit does something else (dsec)\n")),
    "another": (DELAY_BINARY.replace(b"4\ni0", b"5\ni0"), "Networks are equivalent.", [],
                (1, "", SAYS + BY_ABC + "circuit: circuit: the smaller circuit answers otherwise in step 0 of random inputs\n")),
    "accepted": (DELAY_BINARY, "Networks are equivalent.", ["--automaton", "no edges", "--program", "./accepts"],
                 (0, DELAY, SAYS + BY_ABC + BY_STEPS + "circuit: parsolve verify looked at the smaller circuit: ACCEPTED\n")),
    "rejected": (DELAY_BINARY, "Networks are equivalent.", ["--automaton", "no edges", "--program", "./sticks"],
                 (1, "", SAYS + BY_ABC + BY_STEPS + "circuit: circuit: parsolve verify says of the smaller circuit: STUCK 0\n")),
    "no circuit": (None, "", [], (1, "", "circuit: circuit: ABC wrote no circuit: \n")),
}


def made_small(small, said, words):
    """(status, output, error stream) of the tool with the stand-in, which writes no circuit if `small` is None."""
    with tempfile.TemporaryDirectory() as made:
        folder = pathlib.Path(made)
        (folder / "circuit").write_text(LONG)
        if small is not None:
            (folder / "small").write_bytes(small)
        (folder / "no edges").write_text(NEVER.partition("State: 0")[0] + "--END--")
        for name, script in (("berkeley-abc", ABC), ("accepts", "#!/bin/sh\necho ACCEPTED\n"), ("sticks", "#!/bin/sh\necho STUCK\necho 0\n")):
            (folder / name).write_text(script)
            (folder / name).chmod(0o755)
        more = {"PATH": f"{folder}:/usr/bin:/bin", "SMALL": str(folder / "small"), "SAID": said}
        ran = subprocess.run([sys.executable, TOP / "tools/circuit", "small", *words, "circuit"], cwd=folder, capture_output=True,
                             timeout=60, env={**os.environ, **more})
    return ran.returncode, ran.stdout.decode(), ran.stderr.decode()


def made_smaller():
    """The same for circuits that ABC makes small, by a stand-in for it, and without ABC."""
    for what, (small, said, words, wanted) in MADE_SMALL.items():
        yield f"small: {what}", made_small(small, said, words), wanted
    with tempfile.TemporaryDirectory() as folder:
        ran = subprocess.run([sys.executable, TOP / "tools/circuit", "small"], input=DELAY.encode(), capture_output=True, timeout=60,
                             env={**os.environ, "PATH": folder})
    yield ("small: no ABC", (ran.returncode, ran.stderr),
           (1, b"circuit: standard input: ABC isn't installed; in Debian it is in the package berkeley-abc\n"))


def refusals():
    """The same for texts that are refused."""
    for text, told in REFUSED.items():
        for command in ("simulate", "binary", "ascii"):
            yield text, used(command, text), (1, b"", f"circuit: circuit: {told}\n")
    yield ("an unknown name", simulated(DELAY, "\ngrant\n"),
           (1, f"{HEAD}\n0: - | -\n", "circuit: standard input: line 2: no input is named grant; there are: request\n"))
    yield "a quote", simulated(DELAY, "'\n")[2], "circuit: standard input: line 1: a quote doesn't end\n"
    yield ("another automaton", simulated(DELAY, WORD, example("hoa-example"))[::2],
           (1, "circuit: automaton: proposition a is neither an input nor an output of the circuit\n"))
    for words in ([], ["run"], ["simulate"], ["simulate", "-"], ["play"], ["simulate", "a", "--random", "5"],
                  ["small", "--automaton", "-"]):
        yield words, subprocess.run([sys.executable, TOP / "tools/circuit", *words], capture_output=True, timeout=60).returncode, 2


def random_circuit(dice, names, own):
    """The text of a circuit with these inputs and outputs."""
    inputs, outputs = ([name for name, is_own in zip(names, own) if is_own == side] for side in (False, True))
    latches, gates = dice.randint(0, 2), dice.randint(0, 4)
    first, greatest = len(inputs) + latches, len(inputs) + latches + gates
    lines = [f"aag {greatest} {len(inputs)} {latches} {len(outputs)} {gates}"]
    lines += [str(2 * it) for it in range(1, len(inputs) + 1)]
    lines += [f"{2 * it} {dice.randint(0, 2 * greatest + 1)}" for it in range(len(inputs) + 1, first + 1)]
    lines += [str(dice.randint(0, 2 * greatest + 1)) for _ in outputs]
    for gate in range(first + 1, greatest + 1):
        lesser, greater = sorted(dice.randint(0, 2 * gate - 1) for _ in range(2))
        lines.append(f"{2 * gate} {greater} {lesser}")
    lines += [f"i{place} {name}" for place, name in enumerate(inputs)] + [f"o{place} {name}" for place, name in enumerate(outputs)]
    return "\n".join(lines) + "\n"


def lines_of(a, text, letters):
    """The lines that must be written for a circuit beside an automaton: loops are found by a look at every pair of steps."""
    circuit, bits, state, met, places, lines = controllers.Circuit(text), 0, 0, [], [(0, 0)], []
    names = [f"p{place}" for place in range(len(a.controllable))]

    def held(letter, own):
        chosen = [name for name, is_own in zip(names, a.controllable) if is_own == own]
        return " ".join(name for place, name in enumerate(chosen) if letter >> place & 1) or "-"

    for number, letter in enumerate(letters):
        outputs, bits = circuit.step(bits, letter)
        told = "ended"
        if state is not None:
            state, sets = a.steps.get((state, controllers.joined(a.controllable, letter, outputs)), (None, None))
            told = "no edge"
        if state is not None:
            met.append(set(sets))
            places.append((bits, state))
            told = f"{state} {{{' '.join(map(str, sets))}}}"
            loops = [first for first in range(number + 1) if places[first] == places[-1]
                     and not controllers.holds(controllers.condition(a.shape, a.sets), set().union(*met[first:]))]
            told += f" | rejecting loop: steps {loops[-1]} to {number}" if loops else ""
        lines.append(f"{number}: {held(letter, False)} | {held(outputs, True)} | {told}")
    return lines


def at_random():
    """The same for random circuits and automata."""
    dice = random.Random(1)
    for number in range(60):
        a = controllers.random_automaton(dice)
        names = [f"p{place}" for place in range(len(a.controllable))]
        text = random_circuit(dice, names, a.controllable)
        inputs = [name for name, own in zip(names, a.controllable) if not own]
        letters = [dice.randrange(2 ** len(inputs)) for _ in range(dice.choice([12, 40]))]
        word = "".join(" ".join(name for place, name in enumerate(inputs) if letter >> place & 1) + "\n" for letter in letters)
        status, output, told = simulated(text, word, controllers.automaton_text(a))
        yield f"at random {number}", (status, output.splitlines()[1:], told), (0, lines_of(a, text, letters), "")


def printed(program):
    """The same for circuits that a program prints: no run is rejected, and none ends."""
    for name in ("request-grant", "delay", "owl-arbiter"):
        ran = subprocess.run([program, "synth"], input=example(name).encode(), capture_output=True, timeout=60)
        circuit, dice = ran.stdout.decode(), random.Random(1)
        word = "".join(dice.choice(["request\n", "\n"]) for _ in range(200))
        status, output, _ = simulated(circuit, word, example(name))
        bad = [line for line in output.splitlines() if "rejecting" in line or "no edge" in line]
        yield name, (status, len(output.splitlines()), bad), (0, 201, [])


Tests = case.tests(__name__, by_hand, plays, plays_with_circuits, typed_again, drawn_inputs, verdicts, parts_of_formulas, formulas_at_random, made_smaller,
                   refusals, at_random, printed)
