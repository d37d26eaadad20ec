"""Specifications in TLSF as trees: the words of a text, its sections, definitions and expressions. An expression is (kind, line, ..):

    (`number`, line, value)  (`truth`, line, is true)  (`name`, line, text)  (`index`, line, bus, place)  (`call`, line, name, arguments)
    (`set`, line, elements)  (`range`, line, first, second or None, last)  (`measure`, line, word, operand)  (`prefix`, line, word, bounds, operand)
    (`infix`, line, word, left, right)  (`big`, line, word, indices, operand); an index is (name, the expression of its set)"""
import re
from typing import NamedTuple

from texts import Fault

SAME = {"NOT": "!", "AND": "&&", "OR": "||", "IMPLIES": "->", "EQUIV": "<->", "FORALL": "&&", "EXISTS": "||", "SUM": "+", "PROD": "*",
        "PLUS": "+", "MINUS": "-", "MUL": "*", "DIV": "/", "MOD": "%", "EQ": "==", "NEQ": "!=", "LE": "<", "LEQ": "<=", "GE": ">", "GEQ": ">=",
        "ELEM": "IN", "<-": "IN", "CAP": "(*)", "CUP": "(+)", "SETMINUS": "(\\)", "(-)": "(\\)"}
WORD = re.compile(r"""(?P<open>/\*)|(?P<skipped>\s+|//[^\n]*)|"(?P<string>[^"]*)"|(?P<number>\d+)|(?P<name>[A-Za-z_@][A-Za-z0-9_@']*)
    |(?P<mark><->|->|<-|&&|\|\||==|!=|<=|>=|\.\.|\(\*\)|\(\+\)|\(\\\)|\(-\)|[-+*/%!<>=~:;,.{}()\[\]|])""", re.X)
COMMENT_MARK = re.compile(r"/\*|\*/")
# how tightly operators bind, and which of them group to the right; U, R and W bind less tightly than && and ||, unlike in Spot's syntax
INFIX = {"R": 1, "U": 2, "W": 3, "M": 3, "<->": 4, "->": 5, "||": 6, "&&": 7, "IN": 9, "==": 10, "!=": 10, "<": 10, "<=": 10, ">": 10, ">=": 10,
         "(+)": 11, "(*)": 12, "(\\)": 13, "+": 15, "-": 15, "/": 16, "%": 16, "*": 17}
RIGHT = ("U", "W", "M", "<->", "->", "(\\)", "/", "%")
OF_FORMULA, OF_SET, OF_NUMBER = 8, 14, 18  # how tightly operators before an operand bind, by what they make
BIG = {"&&": OF_FORMULA, "||": OF_FORMULA, "(*)": OF_SET, "(+)": OF_SET, "+": OF_NUMBER, "*": OF_NUMBER}
SECTIONS = {"INITIALLY": "INITIALLY", "PRESET": "PRESET", "REQUIRE": "REQUIRE", "REQUIREMENTS": "REQUIRE", "ASSERT": "ASSERT", "INVARIANTS": "ASSERT",
            "ASSUME": "ASSUME", "ASSUMPTIONS": "ASSUME", "GUARANTEE": "GUARANTEE", "GUARANTEES": "GUARANTEE"}


class Word(NamedTuple):
    kind: str
    text: str
    line: int


class Signal(NamedTuple):
    is_output: bool
    name: str
    kind: object  # the name of an enumeration, or None
    width: object  # an expression, or None
    line: int


class Definition(NamedTuple):
    parameters: list
    choices: list  # pairs of a guard, or None, and an expression


class Specification(NamedTuple):
    about: dict  # the texts of INFO
    parameters: dict
    definitions: dict
    enumerations: dict  # for each the codes of each value
    signals: list
    sections: dict  # the expressions of each section of MAIN


def end_of_comment(text, place, line):
    """The place after a comment that begins here; comments nest."""
    depth = 0
    while True:
        mark = COMMENT_MARK.search(text, place)
        if mark is None:
            raise Fault(f"line {line}: a comment doesn't end")
        depth, place = depth + (1 if mark[0] == "/*" else -1), mark.end()
        if depth == 0:
            return place


def words_of(text):
    """The words of a text; the last one is its end."""
    found, place, line = [], 0, 1
    while place < len(text):
        match = WORD.match(text, place)
        if match is None:
            raise Fault(f"line {line}: no word begins with {text[place]!r}")
        end = end_of_comment(text, place, line) if match.lastgroup == "open" else match.end()
        if match.lastgroup not in ("open", "skipped"):
            word = match[match.lastgroup]
            is_mark = match.lastgroup != "string" and word in SAME
            found.append(Word("mark", SAME[word], line) if is_mark else Word(match.lastgroup, word, line))
        line, place = line + text.count("\n", place, end), end
    return [*found, Word("end", "the end", line)]


class Reader:
    """Reads one specification, word by word."""

    def __init__(self, text):
        self.words, self.place = words_of(text), 0

    @property
    def word(self):
        return self.words[self.place]

    def is_at(self, *texts):
        return self.word.kind not in ("string", "end") and self.word.text in texts

    def is_before(self, text):
        """Whether this word comes next but one."""
        return self.place + 1 < len(self.words) and self.words[self.place + 1].text == text

    def take(self, *texts):
        """Skips a word, one of these if any are given; answers its text."""
        if texts and not self.is_at(*texts):
            self.miss(" or ".join(texts))
        self.place += 1
        return self.words[self.place - 1].text

    def miss(self, what):
        raise Fault(f"line {self.word.line}: {what} is missing " + ("at the end" if self.word.kind == "end" else f"before {self.word.text!r}"))

    def take_if(self, *texts):
        return self.take() if self.is_at(*texts) else None

    def name(self):
        if self.word.kind != "name":
            self.miss("a name")
        return self.take()

    # expressions

    def expression(self, least=0):
        """An expression whose operators bind at least this tightly."""
        made = self.operand()
        while self.word.kind in ("mark", "name") and INFIX.get(self.word.text, -1) >= least:
            line, word = self.word.line, self.take()
            made = "infix", line, word, made, self.expression(INFIX[word] + (word not in RIGHT))
        return made

    def operand(self):
        kind, word, line = self.word
        if kind == "number":
            return "number", line, int(self.take())
        if word in BIG and self.is_before("["):
            self.take()
            return "big", line, word, self.indices(), self.expression(BIG[word])
        if self.is_at("!", "X", "F", "G"):
            self.take()
            return "prefix", line, word, self.bounds(), self.expression(OF_FORMULA)
        if self.is_at("SIZEOF", "SIZE", "MIN", "MAX"):
            self.take()
            return "measure", line, word, self.expression(OF_NUMBER)
        if self.take_if("-"):
            return "infix", line, "-", ("number", line, 0), self.expression(OF_NUMBER)
        if self.take_if("|"):
            return self.closed("|", ("measure", line, "SIZE", self.expression()))
        if self.take_if("("):
            return self.closed(")", self.expression())
        if self.take_if("{"):
            return self.closed("}", ("set", line, self.elements()))
        return self.named()

    def closed(self, mark, made):
        self.take(mark)
        return made

    def bounds(self):
        """The numbers in brackets after an operator: none, one, or two."""
        if not self.take_if("["):
            return []
        found = [self.expression()]
        if self.take_if(":"):
            found.append(self.expression())
        return self.closed("]", found)

    def elements(self):
        """The elements of a set, and ranges such as `0, 2 .. 8`, whose second number says how far it is from one to the next."""
        found = []
        while not self.is_at("}"):
            line = self.word.line
            found.append(self.expression())
            if self.take_if(".."):
                second = found.pop() if len(found) > 1 else None
                found.append(("range", line, found.pop(), second, self.expression()))
            if not self.is_at("}"):
                self.take(",", "}")
        return found

    def named(self):
        """A name, perhaps with arguments or indices, or a constant."""
        line, word = self.word.line, self.name()
        if word.lower() in ("true", "false"):
            return "truth", line, word.lower() == "true"
        if self.take_if("("):
            arguments = []
            while not self.is_at(")"):
                arguments.append(self.expression())
                if not self.is_at(")"):
                    self.take(",")
            return self.closed(")", ("call", line, word, arguments))
        made = "name", line, word
        while self.take_if("["):
            made = self.closed("]", ("index", line, made, self.expression()))
        return made

    def indices(self):
        """The indices of a big operator, each with its set: `i IN S`, or `A <= i < B`."""
        self.take("[")
        found = [self.index()]
        while self.take("]", ",") == ",":
            found.append(self.index())
        return found

    def index(self):
        line, made = self.word.line, self.expression()
        if made[0] == "infix" and made[2] == "IN" and made[3][0] == "name":
            return made[3][2], made[4]
        if made[0] == "infix" and made[2] in ("<", "<=") and made[3][0] == "infix" and made[3][2] in ("<", "<=") and made[3][4][0] == "name":
            _, _, below, (_, _, above, first, (_, _, name)), last = made
            one = "number", line, 1
            return name, ("range", line, first if above == "<=" else ("infix", line, "+", first, one), None,
                          last if below == "<=" else ("infix", line, "-", last, one))
        raise Fault(f"line {line}: an index has the form `i IN S` or `A <= i < B`")

    # sections

    def definition(self):
        """What follows the name of a definition: parameters, and expressions of which each but the last has a guard."""
        parameters, choices = [], []
        if self.take_if("("):
            parameters = [] if self.is_at(")") else [self.name()]
            while self.take(")", ",") == ",":
                parameters.append(self.name())
        self.take("=")
        while not self.take_if(";"):
            guard = ("truth", self.word.line, True) if self.take_if("otherwise") else self.expression()
            if self.is_at("~"):
                raise Fault(f"line {self.word.line}: patterns (~) aren't read")
            choices.append((guard, self.expression()) if self.take_if(":") else (None, guard))
        return Definition(parameters, choices)

    def enumeration(self):
        """The codes of each value of an enumeration; `*` in a code stands for both bits."""
        values = {}
        self.take("=")
        while not self.take_if(";"):
            name = self.name()
            self.take(":")
            codes = [self.code()]
            while self.take_if(","):
                codes.append(self.code())
            values[name] = codes
        return values

    def code(self):
        line, made = self.word.line, ""
        while self.word.kind == "number" or self.is_at("*"):
            made += self.take()
        if not made or {*made} - {*"01*"}:
            raise Fault(f"line {line}: a code has the digits 0 and 1, and *")
        return made

    def signal(self, is_output):
        line, kind, name, width = self.word.line, None, self.name(), None
        if self.word.kind == "name":
            kind, name = name, self.name()
        if self.take_if("["):
            width = self.closed("]", self.expression())
        self.take(";")
        return Signal(is_output, name, kind, width, line)

    def about(self):
        """The texts of INFO."""
        found = {}
        while not self.take_if("}"):
            key, value = self.name(), []
            self.take(":")
            while self.word.kind == "string" or not (self.is_at("}") or self.is_before(":")):
                value.append(self.take() if self.word.kind != "end" else self.take("}"))
            found[key] = " ".join(value)
        return found

    def section(self, key, made):
        """One entry of a section of GLOBAL or MAIN."""
        if key == "PARAMETERS":
            name = self.name()
            self.take("=")
            made.parameters[name] = self.expression()
            self.take(";")
        elif key == "DEFINITIONS" and self.take_if("enum"):
            name = self.name()
            made.enumerations[name] = self.enumeration()
        elif key == "DEFINITIONS":
            name = self.name()
            made.definitions[name] = self.definition()
        elif key in ("INPUTS", "OUTPUTS"):
            made.signals.append(self.signal(key == "OUTPUTS"))
        else:
            made.sections.setdefault(SECTIONS[key], []).append(self.expression())
            self.take(";")

    def specification(self):
        made = Specification({}, {}, {}, {}, [], {})
        while self.word.kind != "end":
            part = self.take("INFO", "GLOBAL", "MAIN")
            self.take("{")
            if part == "INFO":
                made.about.update(self.about())
                continue
            known = ("PARAMETERS", "DEFINITIONS") if part == "GLOBAL" else ("INPUTS", "OUTPUTS", *SECTIONS)
            while not self.take_if("}"):
                line, key = self.word.line, self.name()
                if key not in known:
                    raise Fault(f"line {line}: {part} has no section {key}")
                self.take("{")
                while not self.take_if("}"):
                    self.section(key, made)
        return made


def read_specification(text):
    return Reader(text).specification()
