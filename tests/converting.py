"""Checks what tools/pg makes of games that `parsolve` doesn't read: comments, min parity, identifiers over the limit; what it says about
each change, and what it refuses. The winners of random min-parity games are those of every pair of strategies, by the least priority."""
import gzip
import itertools
import random
import subprocess
import sys

import case
from case import TOP

MARK = "\ufeff"
AS_IT_STANDS = 'parity 4;\nstart 3;\n3 1 0 3,4,3 "three";\n4 0 1 3;\n'
MIN = "min parity made max parity: priority P became {} - P".format
DEAD_END = ("standard input: vertex {} has no successor at byte {}: a dead end isn't read. If its owner loses there, give it itself as its "
            "successor and the priority {}")
LARGE = "identifiers over 4294967295 renumbered, ".__add__
# for each game: the words, the result, and the text about the changes
MADE = [
    (AS_IT_STANDS, [], AS_IT_STANDS, None),
    ("0 0 0 0;", [], "parity 0;\n0 0 0 0;\n", None),
    ("parity 9; 7 65535 1 007 ;", [], "parity 7;\n7 65535 1 7;\n", None),
    ("start 1;1 2 0 1;", [], "parity 1;\nstart 1;\n1 2 0 1;\n", None),
    ("start 2;1 2 0 1;", [], "parity 1;\n1 2 0 1;\n", "start 2, which no line defines, left out"),
    ("/* a; /* b */ parity 1; // c */\n# d\n1/**/2 0# e ;\n1 ;", [], "parity 1;\n1 2 0 1;\n", "comments left out"),
    ('1 2 0 1 "/* no */ // comment # here";', [], 'parity 1;\n1 2 0 1 "/* no */ // comment # here";\n', None),
    ('1 2 0 1 "a"; // "\r1 is no line', [], None, "standard input: syntax error at byte 20"),
    ("parity 1;\r\n1 2 0 1;\r\n", [], "parity 1;\n1 2 0 1;\n", "carriage returns left out"),
    (MARK + "1 2 0 1;\r# x", [], "parity 1;\n1 2 0 1;\n", "a byte order mark, carriage returns, comments left out"),
    ("max-parity 1;1 3 0 1;", [], "parity 1;\n1 3 0 1;\n", None),
    ("min-parity 1;0 0 0 1;1 3 0 1;", [], "parity 1;\n0 4 0 1;\n1 1 0 1;\n", MIN(4)),
    ("parity 1;0 0 0 1;1 2 0 1;", ["--min"], "parity 1;\n0 2 0 1;\n1 0 0 1;\n", MIN(2)),
    ("min-parity 0;0 70001 0 0;", ["--min"], "parity 0;\n0 1 0 0;\n", MIN(70002)),
    ("4294967296 1 0 4294967295;4294967295 0 1 4294967296,4294967295;", [],
     "parity 4294967295;\n0 1 0 4294967295;\n4294967295 0 1 0,4294967295;\n", LARGE("1 of 2: 4294967296 became 0")),
    # the least numbers that no vertex has, in rising order, whichever line comes first
    ("start 10000000000;10000000000 0 0 0;2 0 0 5000000000;0 0 0 2;0005000000000 0 0 10000000000;", [],
     "parity 3;\nstart 3;\n3 0 0 0;\n2 0 0 1;\n0 0 0 2;\n1 0 0 3;\n", LARGE("2 of 4: 5000000000 became 1, 10000000000 became 3")),
    ("9" * 5000 + " 0 0 " + "9" * 5000 + ";", [], "parity 0;\n0 0 0 0;\n", LARGE(f"1 of 1: {'9' * 5000} became 0")),
    ("".join(f"{it}0000000000 0 0 50000000000;" for it in range(1, 6)), [], "parity 4;\n" + "".join(f"{it} 0 0 4;\n" for it in range(5)),
     LARGE("5 of 5: " + ", ".join(f"{it}0000000000 became {it - 1}" for it in range(1, 5)) + ", ..")),
    ("", [], None, "standard input: no vertex"),
    ("parity 1;", [], None, "standard input: no vertex"),
    ("0 0 0 0; /* no end", [], None, "standard input: syntax error at byte 9"),
    ("0 0 0 0; / 1", [], None, "standard input: syntax error at byte 9"),
    ("0 0 0;", [], None, DEAD_END.format(0, 5, 1)),
    ('0 0 0 0; 7 1 1 "a";', [], None, DEAD_END.format(7, 15, 0)),
    ("0 0 0", [], None, "standard input: syntax error at byte 5"),
    # lines with more blanks and zeros than they need, and with comments inside and between them
    ("00 0 00 00 , 1;01 1 1 0 ,\t01;", [], "parity 1;\n0 0 0 0,1;\n1 1 1 0,1;\n", None),
    ("0 0 0 0;1 1 1 0,/* a */1;2 0 0 0;// b\n# c\n/* d */3 0 0 1;", [],
     "parity 3;\n0 0 0 0;\n1 1 1 0,1;\n2 0 0 0;\n3 0 0 1;\n", "comments left out"),
    ('0 0 0 0 "\r";\n1 0 0 0;', [], 'parity 1;\n0 0 0 0 "\r";\n1 0 0 0;\n', None),
    ('0 0 0\r0 "a";1 0 0 0;', [], 'parity 1;\n0 0 0 0 "a";\n1 0 0 0;\n', "carriage returns left out"),
    ('0 0 0 0 "a"\r;1 0 0 0;', [], 'parity 1;\n0 0 0 0 "a";\n1 0 0 0;\n', "carriage returns left out"),
    ("0 0 0 0;/*\r*/1 0 0 0;", [], "parity 1;\n0 0 0 0;\n1 0 0 0;\n", "carriage returns, comments left out"),
    ("0 4294967295 0 0;", [], None, "standard input: vertex 0 has priority 4294967295, the limit is 65535"),
    ("0 0 0 0;1 4294967296 0 0;", [], None, "standard input: number too large at byte 10"),
    ("0 0 0 0 0;", [], None, "standard input: syntax error at byte 8"),
    ("0 0 2 0;", [], None, "standard input: number out of range at byte 4"),
    ("0 4294967296 0 0;", [], None, "standard input: number too large at byte 2"),
    ("0 65536 0 0;", [], None, "standard input: vertex 0 has priority 65536, the limit is 65535"),
    ("0 65535 0 0;1 0 0 0;", ["--min"], None, "standard input: vertex 1 has priority 0, which becomes 65536, the limit is 65535"),
    ("4 0 0 4;04 0 0 4;", [], None, "standard input: vertex 4 is defined twice"),
    ("10 0 0 8;9 0 0 9,7;", [], None, "standard input: vertex 9 has successor 7, which no line defines"),
    ("sum-parity 1;0 0 0 0;", [], None, "standard input: syntax error at byte 0"),
    ("start 0;parity 1;0 0 0 0;", [], None, "standard input: syntax error at byte 8"),
    ("max-parity 1;0 0 0 0;", ["--min"], None, "standard input: --min is given, and so is a header max-parity"),
]


def converted(text, *words):
    """(status, output, error stream) of the tool."""
    ran = subprocess.run([sys.executable, TOP / "tools/pg", *words], input=text if isinstance(text, bytes) else text.encode(), capture_output=True,
                         timeout=60)
    return ran.returncode, ran.stdout.decode(), ran.stderr.decode()


def games():
    """(what is checked, result, wanted result) for each game."""
    for text, words, made, said in MADE:
        told = "" if said is None else f"pg: {said}\n" if made is None else f"pg: note: standard input: {said}\n"
        yield f"{text[:60]} {words}", converted(text, *words), (int(made is None), made or "", told)
        if made is not None:
            yield f"{text[:60]}: the result, rewritten again", converted(made), (0, made, "")
    yield "the words", converted("", "--max")[0], 2
    yield "no such file", converted("", "nothing"), (1, "", "pg: nothing: No such file or directory\n")
    path = str(TOP / "examples/sender.pg")
    yield "a file", converted("", path), (0, (TOP / "examples/sender.pg").read_text(), "")


def packed():
    """The same for games that gzip packed."""
    one, other = gzip.compress(b"0 0 0 0;/* a"), gzip.compress(b" */1 0 0 0;")
    for text, wanted in ((gzip.compress(AS_IT_STANDS.encode()), (0, AS_IT_STANDS, "pg: note: standard input: gzip unpacked\n")),
                         (one + other, (0, "parity 1;\n0 0 0 0;\n1 0 0 0;\n", "pg: note: standard input: gzip unpacked; comments left out\n")),
                         (one[:-9], (1, "", "pg: standard input: the end of what gzip packed is missing\n")),
                         (b"\x1f\x8bother bytes, and enough of them", (1, "", "pg: standard input: it begins as gzip does, but can't be unpacked\n")),
                         (gzip.compress(b"0 0 0 1;"), (1, "", "pg: standard input: vertex 0 has successor 1, which no line defines\n"))):
        yield f"{text[:40]}", converted(text), wanted


def large():
    """The same for a large game, which is read in time that grows with its length."""
    lines = [f"{it} {it % 7} {it % 2} {it * 7 % 50000},{it * 11 % 50000};" for it in range(50000)]
    text = "parity 49999;\n" + "".join(f"{it}\n" for it in lines)
    yield "a large game", converted(text) == (0, text, ""), True
    made = converted(text.replace(",", " , ").replace(";\n", "; // a comment\n"))
    yield "with comments and blanks", made == (0, text, "pg: note: standard input: comments left out\n"), True


def random_game(dice):
    """A game of a few vertices: for each its priority, owner and successors."""
    count = dice.randint(1, 4)
    return [(dice.randrange(6), dice.randrange(2), dice.sample(range(count), dice.randint(1, min(3, count)))) for _ in range(count)]


def won_by_even(game, first):
    """Whether Even wins from a vertex if the least priority that recurs decides: by a strategy that wins against each one of Odd's."""
    def recurring(choice):
        at, met = first, []
        while at not in met:
            met.append(at)
            at = choice[at]
        return [game[it][0] for it in met[met.index(at):]]

    def strategies(player):
        own = [number for number, (_, owner, _) in enumerate(game) if owner == player]
        return [dict(zip(own, chosen)) for chosen in itertools.product(*(game[it][2] for it in own))]

    return any(all(min(recurring({**even, **odd})) % 2 == 0 for odd in strategies(1)) for even in strategies(0))


def winners(program):
    """The same for the winners of random min-parity games, as a program finds them in the rewritten games."""
    dice = random.Random(1)
    for number in range(30):
        game = random_game(dice)
        text = "".join(f"{it} {priority} {owner} {','.join(map(str, successors))};" for it, (priority, owner, successors) in enumerate(game))
        ran = subprocess.run([program, "solve"], input=converted(text, "--min")[1].encode(), capture_output=True, timeout=60)
        found = [line.rstrip(";").split()[1] == "0" for line in ran.stdout.decode().splitlines()[1:]]
        yield f"at random {number}", found, [won_by_even(game, it) for it in range(len(game))]


Tests = case.tests(__name__, games, packed, large, winners)
