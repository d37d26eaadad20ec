"""Compares `automaton` and `means` with a plain evaluator of formulas on lassos. A lasso is an endless word, given as a list of letters and
the place to which its end leads back; a letter is the set of the names that hold. On random lassos, the automata of `automaton` accept just
those that satisfy the formula. The answers of `means` about automata that are printed, changed or random are right: on the word that tells
them apart they differ as it says, and if it says SAME they agree on random lassos."""
import functools
import json
import random
import subprocess
import sys
import tempfile

import case
import controllers
from case import TOP

sys.path.insert(0, str(TOP / "tools"))
from automata import read_automaton  # noqa: E402

LOOP, ACCEPTS, SATISFIES = "loop", "the automaton accepts", "the formula holds"
NAMES = ["a", "b", "c"]
UNARY, BINARY = ("!", "X", "F", "G"), ("&", "|", "->", "<->", "xor", "U", "R", "W", "M")

# formulas as people write them, with the outputs, and whether there is a controller
SPECIFICATIONS = {
    "G (request -> F grant)": ("grant", True),
    "G (request -> X grant) & G (!request -> X !grant)": ("grant", True),
    "G (grant <-> X request)": ("grant", False),
    "G F done": ("done", True),
    "F G done -> G F idle": ("idle", True),
    "(G F a -> G F b) & (G F !a -> G F !b)": ("b", True),
    "G (a -> X X b); G (b -> a | F a)": ("b", False),
    "G !(g0 & g1); G (r0 -> F g0); G (r1 -> F g1)": ("g0,g1", True),
    "G (r0 -> g0); G (r1 -> g1); G !(g0 & g1)": ("g0,g1", False),
    "G F a <-> G F b": ("b", True),
    "G F a <-> X b": ("b", False),
    "!b W a": ("b", True),
    "b M a": ("b", False),
}


# ---- formulas on lassos

def solved(word, back, step, first):
    """Whether something holds at each place, if `step` works that out from the next place: the least solution if `first` is False, the
    greatest if it is True."""
    values = [first] * len(word)
    while True:
        new = [step(place, values[place + 1 if place + 1 < len(word) else back]) for place in range(len(word))]
        if new == values:
            return values
        values = new


def truths(formula, word, back):
    """Whether a formula holds at each place of the word."""
    kind, *parts = formula
    if kind in ("1", "0"):
        return [kind == "1"] * len(word)
    if kind == "p":
        return [parts[0] in letter for letter in word]
    sides = [truths(it, word, back) for it in parts]
    f, g = sides[0], sides[-1]
    ahead = [*range(1, len(word)), back]
    pointwise = {"!": lambda x, y: not x, "&": lambda x, y: x and y, "|": lambda x, y: x or y, "->": lambda x, y: not x or y,
                 "<->": lambda x, y: x == y, "xor": lambda x, y: x != y}
    if kind in pointwise:
        return [pointwise[kind](x, y) for x, y in zip(f, g)]
    if kind == "X":
        return [f[it] for it in ahead]
    fixed = {"F": (False, lambda i, then: f[i] or then), "G": (True, lambda i, then: f[i] and then),
             "U": (False, lambda i, then: g[i] or f[i] and then), "W": (True, lambda i, then: g[i] or f[i] and then),
             "R": (True, lambda i, then: g[i] and (f[i] or then)), "M": (False, lambda i, then: g[i] and (f[i] or then))}
    first, step = fixed[kind]
    return solved(word, back, step, first)


def satisfies(formula, word, back):
    return truths(formula, word, back)[0]


def spelt(formula):
    """The text of a formula, with all brackets."""
    kind, *parts = formula
    if kind == "p":
        return parts[0]
    if not parts:
        return kind
    return f"{kind} ({spelt(parts[0])})" if len(parts) == 1 else f"({spelt(parts[0])}) {kind} ({spelt(parts[1])})"


def random_formula(dice, depth, names):
    if depth == 0 or dice.random() < 0.15:
        return ("p", dice.choice(names)) if dice.random() < 0.95 else (dice.choice("01"),)
    if dice.random() < 0.45:
        return dice.choice(UNARY), random_formula(dice, depth - 1, names)
    return dice.choice(BINARY), random_formula(dice, depth - 1, names), random_formula(dice, depth - 1, names)


def random_word(dice, names):
    word = [{name for name in names if dice.random() < 0.5} for _ in range(dice.randint(1, 6))]
    return word, dice.randrange(len(word))


# ---- automata on them

def accepts(automaton, word, back):
    """Whether an automaton accepts a lasso, whose letters can have other names too."""
    names, state, place, met, seen = automaton.names(), automaton.start, 0, [], {}
    while (state, place) not in seen:
        seen[state, place] = len(met)
        letter = sum(1 << a for a, name in enumerate(names) if name in word[place])
        step = automaton.step(state, letter)
        if step is None:
            return False
        state, place = step[0], place + 1 if place + 1 < len(word) else back
        met.append(step[1])
    return automaton.shape.accepts(automaton.shape.counting(set().union(*met[seen[state, place]:])))


# ---- what the program answers

def translated(program, formula, *words):
    return subprocess.run([program, "automaton", *words], input=formula.encode(), capture_output=True, timeout=120)


def meant(program, automaton, formula, *words):
    """The answer of `means` on the texts of two files: (status, output, error stream)."""
    with tempfile.TemporaryDirectory() as folder:
        for name, text in (("automaton", automaton), ("formula", formula)):
            with open(f"{folder}/{name}", "wb") as file:
                file.write(text.encode())
        ran = subprocess.run([program, "means", *words, f"{folder}/automaton", f"{folder}/formula"], capture_output=True, timeout=120)
    return ran.returncode, ran.stdout.decode(), ran.stderr.decode()


def word_in(lines):
    """The letters that the lines of a word spell, and the place to which its end leads back."""
    back = lines.index(LOOP)
    return [set() if line == "-" else {*line.split(" ")} for line in lines if line != LOOP], back


def why_misjudged(program, dice, automaton, formula):
    """Why the answer of `means` on the text of an automaton and a formula is wrong, or None."""
    status, said, errors = meant(program, automaton, spelt(formula))
    read = read_automaton(automaton.encode())
    where = f"{automaton!r}, {spelt(formula)}: status {status}, {said!r}, {errors!r}"
    if status != 0 or errors:
        return where
    kind, *lines = said.splitlines()
    if kind == "SAME":
        for _ in range(50):
            word, back = random_word(dice, sorted({*NAMES, *read.names()}))
            if not lines and accepts(read, word, back) != satisfies(formula, word, back):
                return f"{where}, but not on {word}, {back}"
        return None if not lines else where
    if kind != "DIFFERS" or len(lines) < 3 or lines[0] not in (ACCEPTS, SATISFIES):
        return where
    word, back = word_in(lines[1:])
    is_accepted = lines[0] == ACCEPTS
    is_so = accepts(read, word, back) == is_accepted and satisfies(formula, word, back) != is_accepted
    return None if is_so else where


def changed(dice, text):
    """The text of an automaton with the target, the label or the sets of an edge changed."""
    lines = text.split("\n")
    states = int(next(line for line in lines if line.startswith("States: ")).split()[1])
    places = [place for place, line in enumerate(lines) if line.startswith("[")]
    place = dice.choice(places)
    label, _, rest = lines[place].partition("] ")
    target, _, sets = rest.partition(" ")
    change = dice.randrange(3)
    if change == 0:
        target = str(dice.randrange(states))
    elif change == 1:
        sets = "{0}" if not sets else ""
    else:
        label = "[f" if dice.random() < 0.5 else label
    lines[place] = f"{label}] {target}" + (f" {sets}" if sets else "")
    return "\n".join(lines)


# ---- the tests

def translations(program):
    """The automaton that `automaton` prints for a random formula accepts just the words that satisfy it, and `means` says so."""
    dice, why = random.Random(3), None
    for _ in range(200):
        formula = random_formula(dice, dice.randint(1, 4), NAMES)
        ran = translated(program, spelt(formula))
        if ran.returncode != 0 or ran.stderr:
            why = why or f"{spelt(formula)}: status {ran.returncode}, {ran.stderr!r}"
            continue
        automaton = read_automaton(ran.stdout)
        for _ in range(50):
            word, back = random_word(dice, NAMES)
            if accepts(automaton, word, back) != satisfies(formula, word, back):
                why = why or f"{spelt(formula)}: {word}, {back}"
        said = meant(program, ran.stdout.decode(), spelt(formula))
        why = why or (None if said == (0, "SAME\n", "") else f"{spelt(formula)}: means says {said}")
    yield "random formulas", why


def joined(infix, formulas):
    return functools.reduce(lambda f, g: (infix, f, g), formulas)


def repetitive(program):
    """Formulas that say little in many words: the automata that are printed accept just the words that satisfy them, and `means` says so."""
    dice, names = random.Random(7), [f"p{i}" for i in range(10)]
    answered = ("G", ("->", ("p", "a"), ("F", ("p", "b"))))
    recurs, lasts = ([(outer, (inner, ("p", name))) for name in names] for outer, inner in ("GF", "FG"))
    for label, formula, used in (("one of ten recurs", joined("|", recurs), names), ("ten last", joined("&", lasts), names),
                                 ("an answer, 100 times", joined("&", [answered] * 100), ["a", "b"]),
                                 ("G F, 50 times", functools.reduce(lambda f, op: (op, f), "FG" * 50, ("p", "a")), ["a"])):
        ran = translated(program, spelt(formula))
        yield f"{label}: printed", (ran.returncode, ran.stderr), (0, b"")
        automaton = read_automaton(ran.stdout)
        words = [random_word(dice, used) for _ in range(200)]
        yield label, [accepts(automaton, *word) for word in words], [satisfies(formula, *word) for word in words]
        yield f"{label}: means", meant(program, ran.stdout.decode(), spelt(formula)), (0, "SAME\n", "")


def changes(program):
    """An automaton of a formula with one edge changed, and a random one, are judged as on words."""
    dice, why, same, other = random.Random(4), None, 0, 0
    for _ in range(150):
        formula = random_formula(dice, dice.randint(1, 3), NAMES)
        printed = translated(program, spelt(formula)).stdout.decode()
        if "[" in printed:
            text = changed(dice, printed)
            why = why or why_misjudged(program, dice, text, formula)
            is_same = meant(program, text, spelt(formula))[1] == "SAME\n"
            same, other = same + is_same, other + (not is_same)
    yield "an edge changed", why
    yield "some are the same and some differ", min(same, other) > 10, True
    why = None
    for _ in range(100):
        text = controllers.automaton_text(controllers.random_automaton(dice))
        names = read_automaton(text.encode()).names()
        why = why or why_misjudged(program, dice, text, random_formula(dice, 2, [*names[:2], "a"]))
    yield "random automata, names that one of the two has", why


def specifications(program):
    """From a formula to a circuit: for each it is known whether there is a controller, and each run of its circuit satisfies the formula."""
    dice = random.Random(6)
    for formula, (outs, is_realizable) in SPECIFICATIONS.items():
        ran = translated(program, formula, "--outs", outs)
        yield f"{formula}: an automaton", (ran.returncode, ran.stderr), (0, b"")
        answer = subprocess.run([program, "synth"], input=ran.stdout, capture_output=True, timeout=60).stdout.decode()
        yield f"{formula}: the answer", answer.split("\n")[0], "REALIZABLE" if is_realizable else "UNREALIZABLE"
        yield f"{formula}: means", meant(program, ran.stdout.decode(), formula), (0, "SAME\n", "")
        if is_realizable:
            yield f"{formula}: runs", why_unsatisfied(dice, formula, answer.partition("\n")[2])


def why_unsatisfied(dice, text, circuit_text):
    """Why some run of a circuit on a lasso of inputs doesn't satisfy the formulas of a text, or None."""
    formulas = [parsed(part) for part in text.split(";")]
    circuit = controllers.Circuit(circuit_text)
    symbols = [line.split(" ") for line in circuit_text.split("\n") if line[:1] in ("i", "o") and line[1:2].isdigit()]
    inputs = [name for place, name in symbols if place[0] == "i"]
    outputs = [name for place, name in symbols if place[0] == "o"]
    for _ in range(30):
        letters = [dice.randrange(2 ** len(inputs)) for _ in range(dice.randint(1, 5))]
        back = dice.randrange(len(letters))
        bits, place, word, seen = 0, 0, [], {}
        while (bits, place) not in seen:
            seen[bits, place] = len(word)
            made, bits = circuit.step(bits, letters[place])
            word.append({name for a, name in enumerate(inputs) if letters[place] >> a & 1}
                        | {name for a, name in enumerate(outputs) if made >> a & 1})
            place = place + 1 if place + 1 < len(letters) else back
        for formula in formulas:
            if not satisfies(formula, word, seen[bits, place]):
                return f"{formula} does not hold on {word}, {seen[bits, place]}"
    return None


# automata: infinitely often a, always a, from some step on a, a b and a until then, nothing, and everything
BUCHI = 'HOA: v1 Start: 0 AP: 2 "a" "b" Acceptance: 1 Inf(0) --BODY-- State: 0 '
AGAIN, ALWAYS = BUCHI + "[0] 0 {0} [!0] 0 --END--", BUCHI + "[0] 0 {0} --END--"
SETTLED = 'HOA: v1 Start: 0 AP: 2 "a" "b" Acceptance: 2 Inf(0) | Fin(1) --BODY-- State: 0 [0] 0 [!0] 0 {1} --END--'
UNTIL = BUCHI + "[0&!1] 0 [1] 1 State: 1 [t] 1 {0} --END--"
NOTHING = 'HOA: v1 Start: 0 AP: 1 "a" Acceptance: 0 f --BODY-- State: 0 [t] 0 --END--'
EVERYTHING = "HOA: v1 Start: 0 AP: 0 Acceptance: 0 t --BODY-- State: 0 [t] 0 --END--"
# each with a formula, and how the answer of `means` begins and ends
MEANT = [
    (AGAIN, "G F a", "SAME\n", "SAME\n"), (AGAIN, "F G a", f"DIFFERS\n{ACCEPTS}\n", "\n"), (AGAIN, "G F (a | b)", f"DIFFERS\n{SATISFIES}\n", "\n"),
    (ALWAYS, "G a", "SAME\n", "SAME\n"), (ALWAYS, "! F ! a", "SAME\n", "SAME\n"), (ALWAYS, "G (a & b)", f"DIFFERS\n{ACCEPTS}\n", "\n"),
    (ALWAYS, "F a", f"DIFFERS\n{SATISFIES}\n", "\n"), (ALWAYS, "G (c | !c) & G a", "SAME\n", "SAME\n"),
    (ALWAYS, "G c & G !a", "DIFFERS\n", "\n"), (SETTLED, "F G a", "SAME\n", "SAME\n"), (SETTLED, "G F a", f"DIFFERS\n{SATISFIES}\n", "\n"),
    (UNTIL, "a U b", "SAME\n", "SAME\n"), (UNTIL, "b R (a | b)", f"DIFFERS\n{SATISFIES}\n", "\n"),
    (UNTIL, "F b & (a W b)", "SAME\n", "SAME\n"), (UNTIL, "b M (b | a)", "SAME\n", "SAME\n"),
    (UNTIL, "X (a U b)", f"DIFFERS\n{ACCEPTS}\n", "\n"), (NOTHING, "G !a & G !b", f"DIFFERS\n{SATISFIES}\n", "\n-\n"),
    (NOTHING, "G (b & a & c)", f"DIFFERS\n{SATISFIES}\n", "\na b c\n"), (EVERYTHING, "F x", f"DIFFERS\n{ACCEPTS}\n", "\n-\n"),
]


def verdicts(program):
    """The answers of `means` on automata and formulas for which they can be worked out by hand; both together may have at most sixteen names."""
    for automaton, formula, begins, ends in MEANT:
        status, said, _ = meant(program, automaton, formula)
        yield f"{automaton}: {formula}", (status, said.startswith(begins), said.endswith(ends)), (0, True, True)
    nine = 'HOA: v1 Start: 0 AP: 9 "a" "b" "c" "d" "e" "f" "g" "h" "i" Acceptance: 0 t --BODY-- State: 0 [t] 0 --END--'
    yield "seventeen names in both", meant(program, nine, "&".join("jklmnopq")), (1, "", "parsolve: more than 16 propositions\n")


# how operators bind, the loosest first; those of a row group to the right
BINDING = [["->", "<->"], ["|"], ["xor"], ["&"], ["U", "R", "W", "M"]]


def parsed(text):
    """The formula of a text that is simple enough: names, brackets and operators with blanks or brackets between."""
    tokens = text.replace("(", " ( ").replace(")", " ) ").replace("!", " ! ").split()

    def operand():
        token = tokens.pop(0)
        if token == "(":
            inner = level(0)
            tokens.pop(0)
            return inner
        return (token, operand()) if token in UNARY else (token,) if token in ("1", "0") else ("p", token)

    def level(depth):
        if depth == len(BINDING):
            return operand()
        left = level(depth + 1)
        if tokens and tokens[0] in BINDING[depth]:
            return tokens.pop(0), left, level(depth)
        return left

    return level(0)


# formulas that mean the same, in other words: binding, other spellings, blanks, several in a text
ALIKE = [
    ("a -> b -> c", "a -> (b -> c)"), ("a & b | c", "(a & b) | c"), ("!a U b", "(!a) U b"), ("G a & b", "(G a) & b"), ("a U b U c", "a U (b U c)"),
    ("[]a", "G a"), ("<>a", "F a"), ("a && b || !c", "(a & b) | !c"), ("a V b", "a R b"), ("a => b", "a -> b"), ("a <=> b", "a <-> b"),
    ("a ^ b", "a xor b"), ("~a", "!a"), ("true U a", "F a"), ("G a; F b;", "G a & F b"), ("\n\tG\n( a )", "G a"), ('"a" U "b"', "a U b"),
    ("a W b", "(a U b) | G a"), ("a M b", "b U (a & b)"), ("a R b", "!(!a U !b)"), ("XX a", "X X a"), ("GF a", "G F a"), ("1", "a | !a"),
    ("a & b | c & d", "(a & b) | (c & d)"), ("a | b xor c & d", "a | (b xor (c & d))"), ("a <-> b -> c", "a <-> (b -> c)"),
    ("a -> b <=> c", "a -> (b <-> c)"), ("a => b | c", "a -> (b | c)"), ("a | b -> c", "(a | b) -> c"), ("a U b & c U d", "(a U b) & (c U d)"),
    ("a U b R c W d M e", "a U (b R (c W (d M e)))"), ("a U (b U c) U d", "a U ((b U c) U d)"), ("F a U G b", "(F a) U (G b)"),
    ("X X a & b", "(X X a) & b"), ("GFa -> GFb", "(G (F a)) -> (G (F b))"), ("[]<>a", "G (F a)"), ("~!a", "a"), ("a\tU\r\nb", "a U b"),
    ('"a" & a & "a b"', 'a & "a b"'), ("F1 & F_ & Fa", "F1 & (F_ & (F a))"), ("a; b | c -> d; e", "a & ((b | c) -> d) & e"),
    ("1 & 0 | true & false", "0"), ("0", "a & !a"), ("!" * 4096 + "a", "a"),
]

# the names of a formula, in the order in which they come; one that begins like an operator extends as far as it can
NAMES_IN = {
    "b & a & b": '"b" "a"', '"a" & a & "a b"': '"a" "a b"', '"U" U "G"': '"U" "G"', "F1 & F_ & Fa": '"F1" "F_" "a"', "X1U": '"X1U"',
    "p0.q_1 U _x": '"p0.q_1" "_x"', "aUb": '"aUb"', "&".join("abcdefghijklmnop"): " ".join(f'"{it}"' for it in "abcdefghijklmnop"),
}


def spellings(program):
    for one, other in ALIKE:
        automaton = translated(program, one)
        yield f"{one}: an automaton", (automaton.returncode, automaton.stderr), (0, b"")
        yield f"{one}: as {other}", meant(program, automaton.stdout.decode(), other), (0, "SAME\n", "")
    for text, names in NAMES_IN.items():
        lines = translated(program, text).stdout.decode().split("\n")
        yield f"{text}: names", f"AP: {names.count(chr(34)) // 2} {names}" in lines, True


REFUSED = {
    "nothing": ("", "syntax error at byte 0"),
    "an operand is missing": ("a U", "syntax error at byte 3"),
    "a bracket isn't closed": ("(a & b", "syntax error at byte 6"),
    "a misplaced operator": ("a & | b", "syntax error at byte 4"),
    "a byte that begins no word": ("a $ b", "syntax error at byte 2"),
    "a name in quotes without its end": ('a & "b', "syntax error at byte 4"),
    "seventeen names": (" & ".join(f"p{i}" for i in range(17)), "more than 16 propositions"),
    "4,097 operators": ("!" * 4097 + "a", "more than 4096 operators"),
    "a semicolon after 4,096 operators": ("!" * 4096 + "a;", "more than 4096 operators"),
    "blanks alone": ("  ", "syntax error at byte 2"),
    "two names": ("a b", "syntax error at byte 2"),
    "several in brackets": ("(a; b)", "syntax error at byte 2"),
    "a bracket that is closed alone": ("a)", "syntax error at byte 1"),
    "a semicolon too many": ("a;;", "syntax error at byte 2"),
    "no operator before a byte that begins no word": ("a b $", "syntax error at byte 2"),
    "a byte that begins no word after a formula": ("a & b $", "syntax error at byte 6"),
    "a byte that begins no word before two names": ("a & $ b c", "syntax error at byte 4"),
    "a name without a letter": ('a & ""', "syntax error at byte 4"),
    "65,536 names": (" & ".join(f"p{i}" for i in range(65536)), "more than 65535 propositions"),
    "65,536 names before a byte that begins no word": (" & ".join(f"p{i}" for i in range(65536)) + "$", "more than 65535 propositions"),
    "seventeen names before a byte that begins no word": ("&".join("abcdefghijklmnopq") + "$", "syntax error at byte 33"),
    "4,098 names": (" & ".join(f"p{i}" for i in range(4098)), "more than 4096 operators"),
    "no operator before seventeen names": ("a&b&c&d&e&f g&h&i&j&k&l&m&n&o&p&q", "syntax error at byte 12"),
}


def refusals(program):
    """A text that is no formula is refused with one line, with status 1 and no output, by both commands."""
    automaton = translated(program, "G a").stdout.decode()
    for name, (text, told) in REFUSED.items():
        ran = translated(program, text)
        line = f"parsolve: {told}\n"
        yield f"automaton: {name}", (ran.returncode, ran.stdout, case.without_notes(ran.stderr)), (1, b"", line.encode())
        status, said, errors = meant(program, automaton, text)
        yield f"means: {name}", (status, said, case.without_notes(errors.encode()).decode()), (1, "", line)
    status, said, errors = meant(program, "HOA: v2\n", "G a")
    yield "means: no automaton", (status, said), (1, "")
    wrong = translated(program, "G a", "--outs", "b")
    yield "outputs that no proposition has", case.without_notes(wrong.stderr), b"parsolve: no proposition is named b\n"
    one = subprocess.run([program, "means"], input=b"HOA: v1\n", capture_output=True)
    yield "one text", case.without_notes(one.stderr), b"parsolve: no line -- between the two texts\n"
    yield "status", [meant(program, automaton, text, "--status")[0] for text in ("G a", "F a")], [0, 10]


COUNTED = ("temporal operators", "states", "nodes beside the negation", "edges beside the negation", "nodes beside the formula",
           "edges beside the formula")


def counts_in(errors):
    """The counts of a JSON line, without the seconds."""
    return {name: number for name, number in json.loads(errors).items() if isinstance(number, int)}


def figures(program):
    """Both commands count the same for a printed automaton."""
    # by hand: from the only state no word satisfies 0, and the complement's only state leads back to itself
    yield "figures of 1", counts_in(translated(program, "1", "--json").stderr), dict(zip(COUNTED, (0, 1, 1, 0, 1, 1)))
    for text in SPECIFICATIONS:
        automaton = translated(program, text, "--json")
        _status, _said, errors = meant(program, automaton.stdout.decode(), text, "--json")
        found, looked_at = counts_in(automaton.stderr), counts_in(errors)
        yield f"figures of {text}", found, looked_at
        yield f"names of the figures of {text}", tuple(found), COUNTED


Tests = case.tests(__name__, translations, repetitive, changes, specifications, verdicts, spellings, refusals, figures)
