"""Automata as tools/hoa and tools/circuit read them: deterministic, with a parity condition, in HOA v1 or v1.1. They also read
forms that `parsolve` doesn't read: aliases, labels on states, implicit labels, headers whose names have dots.

In letter L just those propositions hold whose bits are set in L. A set of letters is a number whose bit L says whether it has
letter L, so Python's `&` and `|` are those of labels.
"""
import functools
import re
from typing import NamedTuple

from texts import Fault, Tokens, content_of, skip_comments

TOKEN = re.compile(rb'(?P<number>[0-9]+)|(?P<header>[A-Za-z_][\w.-]*:)|(?P<word>[A-Za-z_][\w-]*(?:\.\w+)*)|(?P<alias>@[\w.-]+)'
                   rb'|(?P<string>"(?:\\.|[^"\\])*")|(?P<mark>--(?:BODY|END|ABORT)--|[][{}()!&|])', re.S)
MOST_PROPOSITIONS, MOST_SETS, MOST_STATES, MOST_KEPT = 16, 4096, 65535, 4096
SPLIT = ("spot-state-player", "spot.state-player")


class State(NamedTuple):
    name: bytes  # a string with its quotes, or nothing
    sets: tuple
    edges: dict  # from (target, sets of the edge) to the letters


class Shape(NamedTuple):
    """Which runs a parity condition accepts: by the greatest or the least of the sets that recur."""
    foremost: object  # `max` or `min`, or None if there are no sets
    parity: int  # of the sets that are good, 0 or 1
    accepts_none: bool  # whether a run on which no set recurs is accepted

    def counting(self, sets):
        """The one of these sets that counts, or None."""
        return self.foremost(sets) if self.foremost and sets else None

    def accepts(self, counting):
        return self.accepts_none if counting is None else counting % 2 == self.parity


class Automaton(NamedTuple):
    headers: dict  # the values of those that don't affect its meaning, as bytes
    count: int
    start: int
    propositions: list  # strings with their quotes
    controllable: object  # a list of numbers, or None if there is no such header
    sets: int
    condition: bytes
    shape: Shape
    states: dict  # those that have a line, by their numbers

    def names(self):
        """The names of the propositions, as text."""
        return [content_of(it).decode("utf-8", "surrogateescape") for it in self.propositions]

    def step(self, state, letter):
        """The target and the sets of the step from a state by a letter; None if there is none."""
        here = self.states.get(state)
        for (target, sets), letters in here.edges.items() if here else ():
            if letters >> letter & 1:
                return target, {*here.sets, *sets}
        return None


@functools.lru_cache(None)
def all_letters(count):
    return (1 << (1 << count)) - 1


@functools.lru_cache(None)
def letters_with(proposition, count):
    """The letters over `count` propositions in which this one holds: a block of 2^proposition without it, one with it, and so on."""
    block = 1 << proposition
    return all_letters(count) // ((1 << 2 * block) - 1) * (((1 << block) - 1) << block)


def label_of(letters, names, first=0):
    """A label of just these letters over propositions of these names; those before `first` make no difference to it."""
    every = all_letters(len(names))
    if letters in (0, every):
        return "t" if letters else "f"
    block, holds = 1 << first, letters_with(first, len(names))
    high, low = letters & holds, letters & ~holds
    high, low = high | high >> block, low | low << block
    if high == low:
        return label_of(letters, names, first + 1)
    parts = []
    for literal, rest, other in ((names[first], high, low), ("!" + names[first], low, high)):
        if rest == every:
            parts.append(literal)
        elif rest:
            label = label_of(rest, names, first + 1)
            bracketed = f"({label})" if " | " in label else label
            parts.append(label if other == every else f"{literal}&{bracketed}")
    return " | ".join(parts)


def read_formula(tokens, read_atom, join, negate=None):
    """The meaning of a formula, given how to read its atoms, to join by `&` and `|` and, if `!` is allowed, to negate. `!` binds
    tightest, then `&`."""
    values, waiting, depth = [], [], 0

    def settle(*marks):
        while waiting and waiting[-1] in marks:
            mark, last = waiting.pop(), values.pop()
            values.append(negate(last) if mark == b"!" else join(mark, values.pop(), last))

    while True:
        while tokens.bytes == b"(" or (tokens.bytes == b"!" and negate):
            depth += tokens.bytes == b"("
            waiting.append(tokens.take("mark"))
        values.append(read_atom(tokens))
        settle(b"!")
        while depth and tokens.bytes == b")":
            settle(b"&", b"|")
            waiting.pop()
            settle(b"!")
            depth -= 1
            tokens.go_on()
        if tokens.bytes not in (b"&", b"|"):
            break
        settle(*(b"&", b"|")[:1 if tokens.bytes == b"&" else 2])
        waiting.append(tokens.take("mark"))
    if depth:
        tokens.take("mark", b")")
    settle(b"&", b"|")
    return values[0]


def read_condition(tokens, sets):
    """The condition as a tree: (`Inf`, set), (`Fin`, set), (`&`, tree, tree), (`|`, tree, tree), (`t`,) or (`f`,)."""
    def read_atom(tokens):
        word = tokens.take("word", b"t", b"f", b"Inf", b"Fin")
        if word in (b"t", b"f"):
            return (word,)
        tokens.take("mark", b"(")
        if tokens.bytes == b"!":
            raise Fault(f"a negated set, at byte {tokens.place}, isn't read")
        number = tokens.take_below(sets)
        tokens.take("mark", b")")
        return word, number

    return read_formula(tokens, read_atom, lambda mark, left, right: (mark, left, right))


def is_of_shape(tree, numbers, parity):
    """Whether a condition is the one over these sets, the foremost first, for which the sets of this parity are good."""
    for place, number in enumerate(numbers):
        good = number % 2 == parity
        leaf = (b"Inf" if good else b"Fin", number)
        if place == len(numbers) - 1:
            return tree == leaf
        if len(tree) != 3 or tree[0] != (b"|" if good else b"&") or leaf not in tree[1:]:
            return False
        tree = tree[2] if tree[1] == leaf else tree[1]


def shape_of(tree, sets):
    if sets == 0 and len(tree) == 1:
        return Shape(None, 0, tree == (b"t",))
    for foremost, parity in ((max, 0), (max, 1), (min, 0), (min, 1)) if sets else ():
        if is_of_shape(tree, range(sets)[::-1] if foremost == max else range(sets), parity):
            return Shape(foremost, parity, parity == 1 if foremost == max else sets % 2 == parity)
    raise Fault("acceptance isn't parity: it has none of the six shapes of docs/formats.md")


class Reader:
    """Reads one automaton, header by header and state by state."""

    def __init__(self, text):
        self.tokens = Tokens(text, TOKEN, skip_comments)
        self.headers, self.states, self.aliases, self.labels, self.seen = {}, {}, {}, {}, set()
        self.kept = {}  # each set of letters that an edge has, once
        self.count = self.start = self.controllable = self.sets = None
        self.propositions = []

    def refuse(self, what):
        raise Fault(f"{what}, at byte {self.tokens.place}, isn't read")

    def automaton(self):
        self.tokens.take("header", b"HOA:")
        self.tokens.take("word", b"v1", b"v1.1")
        self.read_headers()
        if self.sets is None or self.start is None:
            raise Fault(f"missing header {'Acceptance' if self.sets is None else 'Start'} at byte {self.tokens.place}")
        shape = shape_of(self.tree, self.sets)
        self.tokens.take("mark", b"--BODY--")
        self.read_body()
        known = [self.start, *self.states, *(target for state in self.states.values() for target, _ in state.edges)]
        count = 1 + max(known) if self.count is None else self.count
        if count > MOST_STATES:
            raise Fault(f"more than {MOST_STATES} states")
        for what, number, end in [("state", max(known), count), *(("proposition", it, len(self.propositions))
                                                                  for it in self.controllable or ())]:
            if number >= end:
                raise Fault(f"the headers name {what} {number}, and there are {end}")
        made = Automaton(self.headers, count, self.start, self.propositions, self.controllable, self.sets, self.condition, shape,
                         self.states)
        refuse_choices(made)
        return made

    def read_headers(self):
        """Reads the headers up to the body: aliases last, since one can come before `AP:`."""
        places = []
        while self.tokens.kind == "header":
            name = self.tokens.bytes[:-1].decode()
            if name == "Alias":
                self.tokens.go_on()
                places.append(self.tokens.place)
                self.skip_values()
            else:
                self.read_header(name)
        for place in places:
            ahead = Tokens(self.tokens.text, TOKEN, lambda text, at, place=place: skip_comments(text, max(at, place)))
            name = ahead.take("alias")
            self.aliases[name] = self.read_label(ahead)
            if ahead.kind != "header":
                ahead.take("mark", b"--BODY--")

    def read_header(self, name):
        tokens = self.tokens
        if name in ("Start", "States", "AP", "Acceptance", "controllable-AP"):
            if name in self.seen:
                self.refuse(f"a second {name}:")
            self.seen.add(name)
        elif name in SPLIT:
            self.refuse(f"a split game ({name})")
        elif name == "HOA" or name[0].isupper():
            self.refuse(f"header {name}")
        tokens.go_on()
        if name == "States":
            self.count = tokens.take("number")
        elif name == "Start":
            self.start = tokens.take("number")
            if tokens.bytes == b"&":
                self.refuse("universal branching")
        elif name == "AP":
            self.propositions = self.read_propositions()
        elif name == "controllable-AP":
            self.controllable = self.read_numbers(None)
        elif name == "Acceptance":
            self.sets = tokens.take_below(MOST_SETS + 1)
            begin = tokens.place
            self.tree = read_condition(tokens, self.sets)
            self.condition = tokens.text[begin:tokens.place].strip()
        else:
            self.headers[name] = self.skip_values()

    def skip_values(self):
        """Skips the values of a header; answers them."""
        values = []
        while self.tokens.kind in ("number", "word", "string", "alias") or self.tokens.bytes in (b"!", b"&", b"|", b"(", b")"):
            values.append(self.tokens.bytes)
            self.tokens.go_on()
        return b" ".join(values)

    def read_propositions(self):
        count = self.tokens.take("number")
        if count > MOST_PROPOSITIONS:
            raise Fault(f"more than {MOST_PROPOSITIONS} propositions")
        return [self.tokens.take("string") for _ in range(count)]

    def read_numbers(self, limit):
        """The numbers up to the next other token, each below the limit if there is one."""
        found = []
        while self.tokens.kind == "number":
            found.append(self.tokens.take("number") if limit is None else self.tokens.take_below(limit))
        return found

    def read_label(self, tokens):
        """The letters of a label."""
        count = len(self.propositions)

        def read_atom(tokens):
            if tokens.kind == "number":
                return letters_with(tokens.take_below(count), count)
            if tokens.kind != "alias":
                return all_letters(count) if tokens.take("word", b"t", b"f") == b"t" else 0
            if tokens.bytes not in self.aliases:
                raise Fault(f"alias {tokens.bytes.decode()} at byte {tokens.place} isn't defined before")
            return self.aliases[tokens.take("alias")]

        return read_formula(tokens, read_atom, lambda mark, left, right: left & right if mark == b"&" else left | right,
                            lambda letters: all_letters(count) ^ letters)

    def read_bracketed(self):
        """The letters of a label in brackets, or None if there is none. Some are kept, since states often have the same ones."""
        tokens = self.tokens
        if tokens.bytes != b"[":
            return None
        begin, end = tokens.behind, tokens.text.find(b"]", tokens.behind)
        letters = self.labels.get(tokens.text[begin:end])
        if letters is None:
            tokens.go_on()
            letters = self.read_label(tokens)
            if tokens.place == end and len(self.labels) < MOST_KEPT:
                self.labels[tokens.text[begin:end]] = letters
        else:
            tokens.behind = end
            tokens.go_on()
        tokens.take("mark", b"]")
        return letters

    def read_sets(self):
        if self.tokens.bytes != b"{":
            return ()
        self.tokens.go_on()
        numbers = self.read_numbers(self.sets)
        self.tokens.take("mark", b"}")
        return tuple(sorted(set(numbers)))

    def read_body(self):
        tokens = self.tokens
        while tokens.bytes == b"State:":
            tokens.go_on()
            label = self.read_bracketed()
            number = tokens.take_below(MOST_STATES if self.count is None else self.count)
            if number in self.states:
                raise Fault(f"a second State: {number} before byte {tokens.place}")
            name = tokens.take("string") if tokens.kind == "string" else b""
            self.states[number] = State(name, self.read_sets(), self.read_edges(number, label))
        if tokens.bytes == b"--ABORT--":
            self.refuse("--ABORT--")
        tokens.take("mark", b"--END--")
        if tokens.bytes == b"HOA:":
            self.refuse("a second automaton")
        tokens.take("end")

    def read_edges(self, state, label):
        """The edges of a state with that label; edges to one target with the same sets are joined."""
        found = []
        while self.tokens.bytes == b"[" or self.tokens.kind == "number":
            letters = self.read_bracketed()
            target = self.tokens.take_below(MOST_STATES if self.count is None else self.count)
            if self.tokens.bytes == b"&":
                self.refuse("universal branching")
            found.append((target, self.read_sets(), letters))
        given = [letters is not None for _, _, letters in found]
        if any(given) and (label is not None or not all(given)):
            raise Fault(f"state {state} has edges with labels and edges without")
        if found and label is None and not any(given):
            count = len(self.propositions)
            if len(found) != 1 << count:
                raise Fault(f"state {state} has {len(found)} edges without labels, and not one for each of {1 << count} letters")
            found = ((target, sets, 1 << letter) for letter, (target, sets, _) in enumerate(found))
        edges = {}
        for target, sets, letters in found:
            add_letters(edges, (target, sets), label if letters is None else letters)
        return {kind: self.kept.setdefault(letters, letters) for kind, letters in edges.items()}


def add_letters(groups, kind, letters):
    """Adds letters to those of a kind. The first letters stay the same object, which memory has once however many edges have it."""
    groups[kind] = groups[kind] | letters if kind in groups else letters


def refuse_choices(automaton):
    """Refuses an automaton that has two steps from a state by one letter."""
    for number, state in sorted(automaton.states.items()):
        groups, taken, twice = {}, 0, 0
        for (target, sets), letters in state.edges.items():
            add_letters(groups, (target, automaton.shape.counting({*state.sets, *sets})), letters)
        for letters in groups.values():
            twice |= taken & letters
            taken |= letters
        if twice:
            letter = (twice & -twice).bit_length() - 1
            held = " & ".join(("" if letter >> place & 1 else "!") + name for place, name in enumerate(automaton.names()))
            raise Fault(f"state {number} is not deterministic at letter {letter}" + (f": {held}" if held else ""))


def read_automaton(text):
    return Reader(text).automaton()
