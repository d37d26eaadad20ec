"""What a specification in TLSF means: its inputs, its outputs and its formula. The value of an expression is a number, a set of numbers, a bus,
the codes of an enumeration's value, or a formula as in ltl.py; what is true or false of numbers is the formula true or false."""
import operator
from typing import NamedTuple

from ltl import conjuncts
from texts import Fault

TRUE, FALSE = ("1",), ("0",)
MOST_CALLS = 400  # inside one another
ON_NUMBERS = {"+": operator.add, "-": operator.sub, "*": operator.mul, "/": operator.floordiv, "%": operator.mod}
COMPARISONS = {"==": operator.eq, "!=": operator.ne, "<": operator.lt, "<=": operator.le, ">": operator.gt, ">=": operator.ge}
ON_SETS = {"(+)": operator.or_, "(*)": operator.and_, "(\\)": operator.sub}
IN_FORMULAS = {"&&": "&", "||": "|"}


class Bus(NamedTuple):
    name: str
    width: int


class Codes(NamedTuple):
    codes: tuple


class Meaning(NamedTuple):
    inputs: list
    outputs: list
    formula: tuple
    is_for_moore: bool  # whether the formula is for machines whose outputs don't depend on the inputs of their step


# formulas; what is constant is worked out

def negated(formula):
    return {TRUE: FALSE, FALSE: TRUE}.get(formula) or ("!", formula)


def joined(kind, formulas):
    """The formulas joined by `&` or `|`."""
    unit, other = (TRUE, FALSE) if kind == "&" else (FALSE, TRUE)
    made = unit
    for part in (part for formula in formulas for part in conjuncts(formula, kind)):
        if part == other:
            return other
        if part != unit:
            made = part if made == unit else (kind, made, part)
    return made


def implied(left, right):
    return TRUE if FALSE == left or TRUE == right else right if left == TRUE else ("->", left, right)


def with_prefix(word, formula):
    return formula if formula in (TRUE, FALSE) else (word, formula)


def with_infix(word, left, right):
    if word == "->":
        return implied(left, right)
    if word == "<->" and (left in (TRUE, FALSE) or right in (TRUE, FALSE)):
        constant, formula = (left, right) if left in (TRUE, FALSE) else (right, left)
        return formula if constant == TRUE else negated(formula)
    return joined(IN_FORMULAS[word], [left, right]) if word in IN_FORMULAS else (word, left, right)


def after(count, formula):
    """What holds if the formula holds so many steps later."""
    for _ in range(count):
        formula = with_prefix("X", formula)
    return formula


KINDS = {int: "a number", frozenset: "a set", Bus: "a bus", Codes: "a value of an enumeration", tuple: "a formula"}


def of_kind(kind, value, line):
    """The value, which must be of this kind."""
    if type(value) is not kind:
        raise Fault(f"line {line}: {KINDS[kind]} is needed, not {KINDS[type(value)]}")
    return value


class Evaluation:
    """The values of expressions: constants, signals and definitions by their names."""

    def __init__(self, definitions):
        self.definitions, self.known, self.signals, self.calls = definitions, {}, {}, 0

    def number(self, expression, local):
        return of_kind(int, self.value(expression, local), expression[1])

    def set(self, expression, local):
        return of_kind(frozenset, self.value(expression, local), expression[1])

    def formula(self, expression, local=None):
        return of_kind(tuple, self.value(expression, local or {}), expression[1])

    def value(self, expression, local):
        kind, line, *parts = expression
        return getattr(self, f"of_{kind}")(line, local, *parts)

    def of_number(self, line, local, number):
        return number

    def of_truth(self, line, local, is_true):
        return TRUE if is_true else FALSE

    def of_name(self, line, local, name):
        for names in (local, self.known):
            if name in names:
                return names[name]
        return self.of_call(line, local, name, [])

    def of_index(self, line, local, bus, place):
        bus, place = of_kind(Bus, self.value(bus, local), line), self.number(place, local)
        if not 0 <= place < bus.width:
            raise Fault(f"line {line}: bus {bus.name} has no signal {place}")
        return self.signals[bus.name, place]

    def of_call(self, line, local, name, arguments):
        """The first choice of a definition whose guard is true."""
        if name not in self.definitions:
            raise Fault(f"line {line}: {name} isn't defined")
        definition = self.definitions[name]
        if len(definition.parameters) != len(arguments):
            raise Fault(f"line {line}: {name} has {len(definition.parameters)} parameters, not {len(arguments)}")
        inner = dict(zip(definition.parameters, [self.value(it, local) for it in arguments]))
        self.calls += 1
        if self.calls > MOST_CALLS:
            raise Fault(f"line {line}: {name} is used inside itself more than {MOST_CALLS} times")
        for guard, choice in definition.choices:
            if guard is None or self.truth(guard, inner):
                made = self.value(choice, inner)
                self.calls -= 1
                return made
        raise Fault(f"line {line}: no guard of {name} is true")

    def truth(self, guard, local):
        value = self.formula(guard, local)
        if value not in (TRUE, FALSE):
            raise Fault(f"line {guard[1]}: a guard must be true or false whatever the signals")
        return value == TRUE

    def of_set(self, line, local, elements):
        found = [self.set(it, local) if it[0] == "range" else {self.number(it, local)} for it in elements]
        return frozenset().union(*found)

    def of_range(self, line, local, first, second, last):
        first, last = self.number(first, local), self.number(last, local)
        step = 1 if second is None else self.number(second, local) - first
        if step <= 0:
            raise Fault(f"line {line}: the second number of a range must be greater than the first")
        return frozenset(range(first, last + 1, step))

    def of_measure(self, line, local, word, operand):
        value = self.value(operand, local)
        if word == "SIZEOF":
            return of_kind(Bus, value, line).width
        if word != "SIZE" and not of_kind(frozenset, value, line):
            raise Fault(f"line {line}: {word} of no number")
        return {"SIZE": len, "MIN": min, "MAX": max}[word](of_kind(frozenset, value, line))

    def of_prefix(self, line, local, word, bounds, operand):
        formula, limits = self.formula(operand, local), [self.number(it, local) for it in bounds]
        if word == "!":
            return negated(formula)
        if not limits:
            return with_prefix(word, formula)
        if word == "X" and len(limits) == 1:
            return after(limits[0], formula)
        if word == "X" or len(limits) == 1:
            raise Fault(f"line {line}: write X[N], F[N:M] or G[N:M]")
        return joined("&" if word == "G" else "|", [after(count, formula) for count in range(limits[0], limits[1] + 1)])

    def of_big(self, line, local, word, indices, operand):
        values = [self.value(operand, inner) for inner in self.indexed(indices, local)]
        if word in IN_FORMULAS:
            return joined(IN_FORMULAS[word], [of_kind(tuple, it, line) for it in values])
        if word in ON_SETS:
            sets = [of_kind(frozenset, it, line) for it in values] or [frozenset()]
            return frozenset.union(*sets) if word == "(+)" else frozenset.intersection(*sets)
        made = 0 if word == "+" else 1
        for value in values:
            made = ON_NUMBERS[word](made, of_kind(int, value, line))
        return made

    def indexed(self, indices, local):
        """The names of a big operator's indices with each choice of their values."""
        if not indices:
            yield local
            return
        (name, numbers), *others = indices
        for value in sorted(self.set(numbers, local)):
            yield from self.indexed(others, {**local, name: value})

    def of_infix(self, line, local, word, left, right):
        left, right = self.value(left, local), self.value(right, local)
        if word == "IN":
            return TRUE if of_kind(int, left, line) in of_kind(frozenset, right, line) else FALSE
        if word in ON_SETS:
            return ON_SETS[word](of_kind(frozenset, left, line), of_kind(frozenset, right, line))
        if word in ("==", "!=") and {type(left), type(right)} == {Bus, Codes}:
            same = self.coded(*((left, right) if type(left) is Bus else (right, left)), line)
            return same if word == "==" else negated(same)
        if word in COMPARISONS:
            kind = frozenset if word in ("==", "!=") and type(left) is frozenset else int
            return TRUE if COMPARISONS[word](of_kind(kind, left, line), of_kind(kind, right, line)) else FALSE
        if word not in ON_NUMBERS:
            return with_infix(word, of_kind(tuple, left, line), of_kind(tuple, right, line))
        if word in "/%" and right == 0:
            raise Fault(f"line {line}: a division by 0")
        return ON_NUMBERS[word](of_kind(int, left, line), of_kind(int, right, line))

    def coded(self, bus, codes, line):
        """What holds if a bus has one of these codes; the first digit is that of signal 0."""
        if any(len(code) != bus.width for code in codes.codes):
            raise Fault(f"line {line}: bus {bus.name} has {bus.width} signals, and a code has another length")
        bits = [[(self.signals[bus.name, place], bit) for place, bit in enumerate(code) if bit != "*"] for code in codes.codes]
        return joined("|", [joined("&", [signal if bit == "1" else negated(signal) for signal, bit in code]) for code in bits])


class Model(NamedTuple):
    """Who reads what: whether outputs may depend on inputs of their own step (Mealy) in the text and in the formula."""
    is_strict: bool
    written: str
    wanted: str

    def signal(self, name, is_output):
        """The formula of a signal. If the text is for Mealy machines and the formula for Moore ones, each output comes a step later; if it is
        the other way, each input does."""
        return ("p", name) if self.written == self.wanted or is_output != (self.written == "mealy") else ("X", ("p", name))


def model_of(about, target):
    words = {it.strip().lower() for it in about.get("SEMANTICS", "Mealy").split(",")}
    if "finite" in words:
        raise Fault("the semantics Finite, of runs that end, isn't read")
    if words - {"mealy", "moore", "strict"}:
        raise Fault(f"the semantics {about['SEMANTICS']} isn't read; there are Mealy, Moore, and each with Strict")
    written = "moore" if "moore" in words else "mealy"
    wanted = target or about.get("TARGET", written).strip().lower()
    if wanted not in ("mealy", "moore"):
        raise Fault(f"the target {about['TARGET']} isn't read; there are Mealy and Moore")
    return Model("strict" in words, written, wanted)


def begin(specification, given):
    """An evaluation that knows parameters and enumerations; `given` has other values of parameters."""
    made = Evaluation(specification.definitions)
    unknown = next((it for it in given if it not in specification.parameters), None)
    if unknown is not None:
        raise Fault(f"no parameter is named {unknown}; there are: {', '.join(specification.parameters) or 'none'}")
    for name, expression in specification.parameters.items():
        made.known[name] = given[name] if name in given else made.number(expression, {})
    for values in specification.enumerations.values():
        made.known.update({name: Codes(tuple(codes)) for name, codes in values.items()})
    return made


def declare(evaluation, specification, signal, model):
    """Adds a signal, or the signals of a bus; answers their names, and what must hold if it has only the codes of an enumeration."""
    width, codes = signal.width and evaluation.number(signal.width, {}), None
    if signal.kind is not None:
        if signal.kind not in specification.enumerations:
            raise Fault(f"line {signal.line}: no enumeration is named {signal.kind}")
        codes = Codes(tuple(code for it in specification.enumerations[signal.kind].values() for code in it))
        width = len(codes.codes[0])
    if width is None:
        evaluation.known[signal.name] = model.signal(signal.name, signal.is_output)
        return [signal.name], TRUE
    bus, names = Bus(signal.name, width), [f"{signal.name}_{place}" for place in range(width)]
    evaluation.known[signal.name] = bus
    evaluation.signals.update({(signal.name, place): model.signal(name, signal.is_output) for place, name in enumerate(names)})
    return names, evaluation.coded(bus, codes, signal.line) if codes else TRUE


def formula_of(sections, is_strict):
    """The formula of a specification, from the formulas of its sections."""
    initially, preset, require, ensure, assume, guarantee = (
        sections[it] for it in ("INITIALLY", "PRESET", "REQUIRE", "ASSERT", "ASSUME", "GUARANTEE"))
    assumed = joined("&", [*(with_prefix("G", it) for it in require), *assume])
    always, required = [with_prefix("G", it) for it in ensure], joined("&", require)
    if not is_strict:
        kept = [implied(assumed, joined("&", [*always, *guarantee]))]
    else:
        kept = [*(always if required == TRUE else [("W", joined("&", ensure), negated(required))] if ensure else []),
                implied(assumed, joined("&", guarantee))]
    return implied(joined("&", initially), joined("&", [*preset, *kept]))


def meaning_of(specification, given, target):
    """The inputs, outputs and formula; `given` has values of parameters, and `target` replaces that of the text unless it is None."""
    model, evaluation = model_of(specification.about, target), begin(specification, given)
    names, valid = {False: [], True: []}, {False: [], True: []}
    for signal in specification.signals:
        added, codes = declare(evaluation, specification, signal, model)
        names[signal.is_output] += added
        valid[signal.is_output].append(codes)
    every = [*names[False], *names[True]]
    twice = next((it for place, it in enumerate(every) if it in every[:place]), None)
    if twice is not None:
        raise Fault(f"two signals are named {twice}")
    sections = {it: [evaluation.formula(each) for each in specification.sections.get(it, [])]
                for it in ("INITIALLY", "PRESET", "REQUIRE", "ASSERT", "ASSUME", "GUARANTEE")}
    sections["REQUIRE"] += valid[False]
    sections["ASSERT"] += valid[True]
    return Meaning(names[False], names[True], formula_of(sections, model.is_strict), model.wanted == "moore")
