"""Formulas of linear temporal logic in the syntax that docs/formats.md describes: their parts, and what a run of a circuit shows of them.

A formula is (`p`, name), (`1`,), (`0`,), or an operator and its operands: `!`, `X`, `F`, `G`; `&`, `|`, `->`, `<->`, `xor`, `U`, `R`, `W`, `M`."""
import math
import re
from typing import NamedTuple

from texts import Fault

TOKEN = re.compile(r'(?P<operator><->|<=>|->|=>|\|\||&&|<>|\[\]|[!~&|^;()])|(?P<constant>[01])|(?P<letter>[FGX](?![0-9_]))'
                   r'|(?P<word>[A-Za-z_.][A-Za-z0-9_.]*)|"(?P<quoted>[^"\x00-\x1f\x7f]*)"')
BLANKS = re.compile(r"[\t\n\r ]*")
ONE_WORD = {"~": "!", "<>": "F", "[]": "G", "=>": "->", "<=>": "<->", "||": "|", "^": "xor", "&&": "&", "V": "R", "true": "1", "false": "0"}
UNARY, RESERVED = "!XFG", ("U", "R", "V", "W", "M", "xor", "true", "false")
INFIX = {"->": 1, "<->": 1, "|": 2, "xor": 3, "&": 4, "U": 5, "R": 5, "W": 5, "M": 5}  # how tightly each binds
LEFT = ("&", "|", "xor")  # which of them group to the left
MOST_DEPTH = 9000  # of Python's calls, two for each of 4,096 operators and some more; many more don't fit into its stack


class Reader:
    """Reads one formula, word by word: the kind and the text of the next word."""

    def __init__(self, text):
        self.text, self.behind = text, 0
        self.go_on()

    def go_on(self):
        self.place = BLANKS.match(self.text, self.behind).end()
        found = TOKEN.match(self.text, self.place)
        if found is None:
            self.kind, self.word = "end" if self.place == len(self.text) else "unknown", ""
            return
        self.behind, self.kind, self.word = found.end(), found.lastgroup, found[found.lastgroup]
        if self.kind == "word" and self.word in RESERVED:
            self.kind = "operator"
        if self.kind != "quoted":
            self.word = ONE_WORD.get(self.word, self.word) if self.kind == "operator" else self.word

    def refuse(self):
        raise Fault(f"syntax error at byte {len(self.text[:self.place].encode('utf-8', 'surrogateescape'))}")

    def is_operator(self, *words):
        return self.kind in ("operator", "letter", "constant") and self.word in words

    def operand(self):
        if self.is_operator(*UNARY):
            word = self.word
            self.go_on()
            return word, self.operand()
        if self.is_operator("("):
            self.go_on()
            inner = self.formula(0)
            if not self.is_operator(")"):
                self.refuse()
            self.go_on()
            return inner
        if self.kind not in ("word", "quoted") and not self.is_operator("0", "1"):
            self.refuse()
        made = (self.word,) if self.is_operator("0", "1") else ("p", self.word)
        self.go_on()
        return made

    def formula(self, least):
        """A formula whose operators bind at least this tightly."""
        made = self.operand()
        while self.is_operator(*INFIX) and INFIX[self.word] >= least:
            word = self.word
            self.go_on()
            made = word, made, self.formula(INFIX[word] + (word in LEFT))
        return made

    def all(self):
        """The formulas of a text, joined."""
        made = self.formula(0)
        while self.is_operator(";"):
            self.go_on()
            made = made if self.kind == "end" else ("&", made, self.formula(0))
        if self.kind != "end":
            self.refuse()
        return made


def read_formula(text):
    """The formula of a text in bytes."""
    return Reader(text.decode("utf-8", "surrogateescape")).all()


def names_in(formula):
    """The names in a formula, as they come."""
    found, waiting = [], [formula]
    while waiting:
        kind, *operands = waiting.pop()
        if kind == "p":
            found.append(operands[0])
        else:
            waiting += operands[::-1]
    return found


def spelt(formula, least=0):
    """The text of a formula, in brackets if its operator binds less tightly than `least`."""
    kind, *operands = formula
    if kind == "p":
        return operands[0] if is_plain(operands[0]) else f'"{operands[0]}"'
    if not operands:
        return {"1": "true", "0": "false"}[kind]
    if len(operands) == 1:
        return f"{kind}{' ' * (kind != '!')}{spelt(operands[0], 6)}"
    tight = INFIX[kind]
    text = f" {kind} ".join(spelt(it, tight + 1) for it in (conjuncts(formula, kind) if kind in LEFT else operands))
    return text if tight >= least else f"({text})"


def is_plain(name):
    """Whether a name needs no quotes."""
    return re.fullmatch(r"(?![FGX](?![0-9_]))[A-Za-z_.][A-Za-z0-9_.]*", name) and name not in RESERVED


def conjuncts(formula, kind="&"):
    """The formulas that `&`, or another operator that groups to the left, joins to this one."""
    found = []
    while formula[0] == kind:
        found.append(formula[2])
        formula = formula[1]
    return [formula, *found[::-1]]


def parts(formula):
    """Formulas that all hold exactly if this one holds: it is split at each `&`, also behind `->`, `G` and `X`."""
    kind, *operands = formula
    if kind == "&":
        return [part for it in conjuncts(formula) for part in parts(it)]
    if kind in ("G", "X", "->"):
        return [(kind, *operands[:-1], it) for it in parts(operands[-1])]
    return [formula]


class Known(NamedTuple):
    """For each step of a run, the first step after which it is certain that a formula holds there, or that it doesn't, whatever follows."""
    true: list
    false: list


def known(formula, word):
    """What the first steps of a run show of a formula; `word` has the names that hold in each step. Nothing is certain from its end on."""
    kind, *operands = formula
    never = [math.inf] * len(word)
    if kind in ("0", "1", "p"):
        holds = [kind == "1" or (kind == "p" and operands[0] in letter) for letter in word]
        return Known([step if it else math.inf for step, it in enumerate(holds)], [math.inf if it else step for step, it in enumerate(holds)])
    sides = [known(it, word) for it in operands]
    (a, b), (c, d) = sides[0], sides[-1]
    if kind == "!":
        return Known(b, a)
    if kind == "X":
        return Known([*a[1:], math.inf], [*b[1:], math.inf])
    if kind in ("&", "|", "->", "xor", "<->"):
        return joined(kind, a, b, c, d)
    if kind in "FG":
        a, b = (never, b) if kind == "G" else (a, never)
        return Known(backwards(a, lambda step, then: min(a[step], then)), backwards(b, lambda step, then: min(b[step], then)))
    if kind in "UW":
        return Known(backwards(a, lambda step, then: min(c[step], max(a[step], then))), backwards(a, lambda step, then: max(d[step], min(b[step], then))))
    return Known(backwards(a, lambda step, then: max(c[step], min(a[step], then))), backwards(a, lambda step, then: min(d[step], max(b[step], then))))


def joined(kind, a, b, c, d):
    """The same for operators that speak of one step: a and c are when both operands are true for certain, b and d when they are false."""
    if kind in ("|", "->"):
        a, b = (b, a) if kind == "->" else (a, b)
        return Known([*map(min, a, c)], [*map(max, b, d)])
    if kind == "&":
        return Known([*map(max, a, c)], [*map(min, b, d)])
    alike, unlike = [*map(min, map(max, a, c), map(max, b, d))], [*map(min, map(max, a, d), map(max, b, c))]
    return Known(alike, unlike) if kind == "<->" else Known(unlike, alike)


def backwards(values, step):
    """The values that `step` makes from the end on, each from the one after it; infinite after the last."""
    made, then = [], math.inf
    for place in range(len(values) - 1, -1, -1):
        then = step(place, then)
        made.append(then)
    return made[::-1]


def truths(formula, word, back):
    """Whether a formula holds at each step of a run that goes on at step `back` after its last one."""
    kind, *operands = formula
    if kind in ("0", "1", "p"):
        return [kind == "1" or (kind == "p" and operands[0] in letter) for letter in word]
    sides = [truths(it, word, back) for it in operands]
    f, g = sides[0], sides[-1]
    if kind == "X":
        return [*f[1:], f[back]]
    plain = {"!": lambda x, y: not x, "&": lambda x, y: x and y, "|": lambda x, y: x or y, "->": lambda x, y: not x or y,
             "<->": lambda x, y: x == y, "xor": lambda x, y: x != y}
    if kind in plain:
        return [*map(plain[kind], f, g)]
    f = f if kind in "URWM" else [kind == "F"] * len(word)  # F g is true U g, and G g is false R g
    values = [kind in "GRW"] * (len(word) + 1)
    for _ in range(2):  # from the end on, and once more with what the first round found at `back`
        values[-1] = values[back]
        for step in range(len(word) - 1, -1, -1):
            values[step] = g[step] and (f[step] or values[step + 1]) if kind in "GRM" else g[step] or (f[step] and values[step + 1])
    return values[:-1]


def depth(formula):
    """How many operators in a formula are inside one another."""
    return 1 + max([depth(it) for it in formula[1:] if isinstance(it, tuple)], default=0)


class Failure(NamedTuple):
    number: int  # of the part, from 1
    part: tuple
    step: object  # the first step after which it is certain, or None if it is only the endless run that fails


def failures(formula, word, back=None):
    """The parts of a formula that a run doesn't satisfy: those that fail at a step come first, the earliest before the others. If the run
    goes on at step `back` these are all such parts; if it isn't known how it goes on, those that fail whatever follows."""
    found = []
    for number, part in enumerate(parts(formula), 1):
        if back is not None and truths(part, word, back)[0]:
            continue
        rounds = 0 if back is None else 1 + depth(part)
        long = [*word, *(word[back:] * rounds if rounds else [])]
        # if the whole run is known, an assumption holds on it, and only what it demands can fail
        certain = known(part[2] if part[0] == "->" and back is not None else part, long).false[0]
        if certain < math.inf or back is not None:
            found.append(Failure(number, part, None if certain == math.inf else certain))
    return sorted(found, key=lambda it: math.inf if it.step is None else it.step)
