"""Checks tools/tlsf: what sections, semantics, targets, operators, definitions and enumerations mean, by formulas worked out by hand; what it
refuses; that random formulas come back as they were; and that the program reads what it writes and finds the controllers."""
import pathlib
import random
import subprocess
import sys
import tempfile

import case
import formulas
from case import TOP

sys.path.insert(0, str(TOP / "tools"))
import ltl  # noqa: E402

SECTIONS = "INITIALLY { a; } PRESET { o; } REQUIRE { b; } ASSERT { p; } ASSUME { G F c; } GUARANTEE { F o; }"
OTHER_NAMES = "INITIALLY { a; } PRESET { o; } REQUIREMENTS { b; } INVARIANTS { p; } ASSUMPTIONS { G F c; } GUARANTEES { F o; }"
STEPS = "DEFINITIONS { later(x, n) = n == 0 : x  n % 2 == 1 : X later(x, n - 1)  otherwise : later(x, n - 1); both = a && b; }"
BITS = """DEFINITIONS { value(bus, v) = value'(bus, v, 0);
    value'(bus, v, i) = i >= SIZEOF bus : true  v % 2 == 1 : bus[i] && value'(bus, v / 2, i + 1)  otherwise : !bus[i] && value'(bus, v / 2, i + 1); }"""
BUS = "INFO { SEMANTICS: Mealy TARGET: Mealy } GLOBAL { PARAMETERS { n = 3; } %s } MAIN { INPUTS { r[n]; } OUTPUTS { g[n]; } GUARANTEE { %s } }"
ENUM = """INFO { SEMANTICS: Mealy TARGET: Mealy } GLOBAL { DEFINITIONS { enum color = Red: 00 Blue: 10, *1; } }
    MAIN { INPUTS { color x; } OUTPUTS { o; } GUARANTEE { %s } }"""


def specification(main, semantics="Mealy", target="Mealy", definitions=""):
    return f"""INFO {{ TITLE: "a {{ title" DESCRIPTION: "d" SEMANTICS: {semantics} TARGET: {target} TAGS: one, "two" }} GLOBAL {{ {definitions} }}
        MAIN {{ INPUTS {{ a; b; c; }} OUTPUTS {{ o; p; }} {main} }}"""


def guaranteed(text, **more):
    return specification(f"GUARANTEE {{ {text} }}", **more)


def used(text, *words):
    """(status, output, error stream) of the tool."""
    ran = subprocess.run([sys.executable, TOP / "tools/tlsf", *words], input=text.encode("utf-8", "surrogateescape"), capture_output=True, timeout=60)
    return ran.returncode, ran.stdout.decode("utf-8", "surrogateescape"), ran.stderr.decode()


MEANINGS = {  # the formula of each text
    specification(SECTIONS): "a -> o & (G b & G F c -> G p & F o)",
    specification(OTHER_NAMES): "a -> o & (G b & G F c -> G p & F o)",
    specification(SECTIONS, "Mealy,Strict"): "a -> o & p W !b & (G b & G F c -> F o)",
    specification("ASSERT { p; } GUARANTEE { F o; }", "Mealy,Strict"): "G p & F o",
    specification("ASSERT { o; p; } REQUIRE { a; b; }", "Moore,Strict", "Moore"): "(o & p) W !(a & b)",
    specification(""): "true",
    guaranteed("G (a -> o);", target="Moore"): "G (a -> X o)",
    guaranteed("G (a -> o);", semantics="Moore"): "G (X a -> o)",
    guaranteed("G (a -> o);", semantics="Moore", target="Moore"): "G (a -> o)",
    # U, W and R bind less tightly than && and ||, unlike in the syntax of the output
    guaranteed("a && b U c || o;"): "(a & b) U (c | o)",
    guaranteed("a -> b -> c;"): "a -> (b -> c)",
    guaranteed("a <-> b -> c;"): "a <-> (b -> c)",
    guaranteed("!a && G b || X c;"): "!a & G b | X c",
    guaranteed("a W b U c R o;"): "((a W b) U c) R o",
    guaranteed("NOT a AND b OR c IMPLIES o EQUIV p;"): "(!a & b | c -> o) <-> p",
    guaranteed("a && true; b || false; true -> c; !(false || false); F false || o; G true;"): "a & b & c & o",
    guaranteed("X[3] o; F[1:2] p; G[0:1] o; X[0] p; F[2:1] a || b;"): "X X X o & (X p | X X p) & o & X o & p & b",
    guaranteed("later(o, 4); both;", definitions=STEPS): "X X o & a & b",
    guaranteed("/* a comment /* inside */ a */ a; // b;\n b;"): "a & b",
    BUS % ("", "&&[0 <= i < n] g[i];"): "g_0 & g_1 & g_2",
    BUS % ("", "||[i IN {0,2..n}] g[i];"): "g_0 | g_2",
    BUS % ("", "&&[0 < i <= 2] g[i];"): "g_1 & g_2",
    BUS % ("", "FORALL[i IN {0,1..n-1}, j IN {0,1..n-1} (\\) {i}] (i < j -> (g[i] -> !g[j]));"): "(g_0 -> !g_1) & (g_0 -> !g_2) & (g_1 -> !g_2)",
    BUS % ("", "&&[i IN {}] g[i]; ||[i IN {}] g[i] || g[0];"): "g_0",
    BUS % ("", "&&[0 <= i < +[j IN {1,2}] (j - 1)] g[i]; g[SIZEOF r - 1];"): "g_0 & g_2",
    BUS % ("", "g[MIN {1, 2}]; g[MAX {0, n - 1}]; g[|{1} (+) {2}| - 2]; g[SIZE ({1, 2} (*) {2, 3}) * 2 - 2]; g[7 / 3];"): "g_1 & g_2 & g_0 & g_0 & g_2",
    BUS % ("", "&&[i IN {0, 1} (+) {2} (\\) {0}] g[i];"): "g_0 & g_1 & g_2",
    BUS % ("", "&&[i IN (+)[k IN {0, 1}] {k, k + 1}] g[i];"): "g_0 & g_1 & g_2",
    BUS % ("", "||[i IN {0,1..2}] ((i IN {0} || i >= 2 || i == 7) && g[i]);"): "g_0 | g_2",
    BUS % (BITS, "value(g, 5);"): "g_0 & !g_1 & g_2",
    ENUM % "G (x == Red -> o);": "G (!x_0 & !x_1 | x_0 & !x_1 | x_1) -> G (!x_0 & !x_1 -> o)",
    ENUM % "G (Blue != x -> o);": "G (!x_0 & !x_1 | x_0 & !x_1 | x_1) -> G (!(x_0 & !x_1 | x_1) -> o)",
    "INFO { TITLE: \"basic\" } MAIN { INPUTS { U'; Fa; } OUTPUTS { a@b; F1; xor; } GUARANTEES { (G ((U') -> (F (a@b)))); Fa; F1; xor; } }":
        "G (\"U'\" -> F \"a@b\") & \"Fa\" & F1 & \"xor\"",
}
REFUSED = {  # what the tool says about each text
    guaranteed("q;"): "line 2: q isn't defined",
    guaranteed("\n\nq(a);"): "line 4: q isn't defined",
    guaranteed("a U;"): "line 2: a name is missing before ';'",
    guaranteed("a b;"): "line 2: ; is missing before 'b'",
    guaranteed("a"): "line 2: ; is missing before '}'",
    guaranteed("a;").rstrip("} "): "line 2: a name is missing at the end",
    guaranteed("a $ b;"): "line 2: no word begins with '$'",
    guaranteed("/* a;"): "line 2: a comment doesn't end",
    guaranteed("X[!] a;"): "line 2: a name is missing before ']'",
    guaranteed("F[2] a;"): "line 2: write X[N], F[N:M] or G[N:M]",
    guaranteed("f(a);", definitions="DEFINITIONS { f(x) = f(x); }"): "line 1: f is used inside itself more than 400 times",
    guaranteed("f(a, b);", definitions="DEFINITIONS { f(x) = x; }"): "line 2: f has 1 parameters, not 2",
    guaranteed("f(1);", definitions="DEFINITIONS { f(x) = x > 1 : a; }"): "line 2: no guard of f is true",
    guaranteed("f(1);", definitions="DEFINITIONS { f(x) = a : b; }"): "line 1: a guard must be true or false whatever the signals",
    guaranteed("f(a);", definitions="DEFINITIONS { f(x) = x ~ a : b; }"): "line 1: patterns (~) aren't read",
    guaranteed("a + 1;"): "line 2: a number is needed, not a formula",
    guaranteed("1;"): "line 2: a formula is needed, not a number",
    guaranteed("a[0];"): "line 2: a bus is needed, not a formula",
    guaranteed("1 / 0 == 1;"): "line 2: a division by 0",
    guaranteed("&&[i] a;"): "line 2: an index has the form `i IN S` or `A <= i < B`",
    guaranteed("&&[i IN {2, 1 .. 0}] a;"): "line 2: the second number of a range must be greater than the first",
    guaranteed("MIN {} == 0;"): "line 2: MIN of no number",
    guaranteed("a;", semantics="Mealy,Finite"): "the semantics Finite, of runs that end, isn't read",
    guaranteed("a;", semantics="Other"): "the semantics Other isn't read; there are Mealy, Moore, and each with Strict",
    guaranteed("a;", target="Other"): "the target Other isn't read; there are Mealy and Moore",
    specification("WISHES { a; }"): "line 2: MAIN has no section WISHES",
    specification("", definitions="INPUTS { a; }"): "line 1: GLOBAL has no section INPUTS",
    BUS % ("", "g;"): "line 1: a formula is needed, not a bus",
    BUS % ("", "g[n];"): "line 1: bus g has no signal 3",
    ENUM % "x == 1;": "line 2: a number is needed, not a bus",
    "INFO { } MAIN { INPUTS { a; a; } }": "two signals are named a",
    "INFO { } MAIN { INPUTS { kind a; } }": "line 1: no enumeration is named kind",
    "INFO { TITLE: ": "line 1: } is missing at the end",
    "INFO { } OTHER { }": "line 1: INFO or GLOBAL or MAIN is missing before 'OTHER'",
    guaranteed("X[20000] a;"): "too much of it is inside something else",
    guaranteed("(" * 20_000): "too much of it is inside something else",
}


def meanings():
    """(what is checked, result, wanted result) for the formula of each text."""
    for text, formula in MEANINGS.items():
        status, output, told = used(text)
        yield text, (status, output.splitlines()[-1:], told.partition(": note: ")[0]), (0, [f"formula: {formula}"], "tlsf" if "TARGET: Moore" in text else "")


def lines():
    """The same for what the tool prints, with its options."""
    text = BUS % ("", "&&[0 <= i < n] g[i]; G F r[0];")
    yield "all", used(text), (0, "inputs: r_0, r_1, r_2\noutputs: g_0, g_1, g_2\nformula: g_0 & g_1 & g_2 & G F r_0\n", "")
    yield "--formula", used(text, "--formula"), (0, "g_0;\ng_1;\ng_2;\nG F r_0;\n", "")
    yield "--outs", used(text, "--outs", "-"), (0, "g_0,g_1,g_2\n", "")
    told = "tlsf: note: standard input: the formula doesn't name these outputs, so they are left out: p\n"
    yield "--outs without what isn't named", used(guaranteed("F o;"), "--outs"), (0, "o\n", told)
    yield "--param", used(text, "--outs", "--param", "n=1"), (0, "g_0\n", "")
    told = "standard input: the formula is for Moore machines, and parsolve synth makes Mealy machines; --mealy makes a formula for them\n"
    yield "--moore", used(text, "--formula", "--param", "n=1", "--moore"), (0, "X g_0;\nG F r_0;\n", f"tlsf: note: {told}")
    yield "--mealy", used(guaranteed("G (a -> o);", semantics="Moore", target="Moore"), "--formula", "--mealy"), (0, "G (X a -> o);\n", "")
    yield "no such parameter", used(text, "--param", "m=1"), (1, "", "tlsf: standard input: no parameter is named m; there are: n\n")
    yield "no number", used(text, "--param", "n"), (1, "", "tlsf: standard input: 'n' isn't NAME=NUMBER\n")
    for words in (["--formula", "--outs"], ["--mealy", "--moore"], ["a", "b"]):
        yield words, used(text, *words)[0], 2


def refusals():
    """The same for texts that are refused."""
    for text, told in REFUSED.items():
        yield told, used(text), (1, "", f"tlsf: standard input: {told}\n")


def bracketed(formula):
    """A formula in TLSF, with all brackets."""
    kind, *operands = formula
    if kind == "p":
        return operands[0]
    words = {"&": "&&", "|": "||", "1": "true", "0": "false"}
    if len(operands) == 2 and kind == "xor":
        return f"!({bracketed(operands[0])} <-> {bracketed(operands[1])})"
    sides = [f"({bracketed(it)})" for it in operands]
    return f" {words.get(kind, kind)} ".join(sides) if len(sides) == 2 else f"{words.get(kind, kind)} {''.join(sides)}"


def at_random():
    """Random formulas mean the same after the tool wrote them: on random runs, by a plain evaluator."""
    dice = random.Random(1)
    made = [formulas.random_formula(dice, dice.randint(1, 5), ["a", "b", "o"]) for _ in range(300)]
    status, output, told = used(guaranteed("".join(f"{bracketed(it)} || X X X X X X c;" for it in made)), "--formula")
    yield "the status", (status, told), (0, "")
    whole, runs = ltl.read_formula(output.encode()), [formulas.random_word(dice, ["a", "b", "o"]) for _ in range(300)]
    wanted = [all(formulas.satisfies(("|", it, ("X",) * 6 and after(6, ("p", "c"))), *run) for it in made) for run in runs]
    yield "all of them", [formulas.satisfies(whole, *run) for run in runs], wanted
    for number, formula in enumerate(made[:40]):
        _, output, _ = used(guaranteed(f"{bracketed(formula)};"), "--formula")
        read = ltl.read_formula(output.encode())
        yield f"formula {number}", [formulas.satisfies(read, *run) for run in runs], [formulas.satisfies(formula, *run) for run in runs]


def after(count, formula):
    return formula if count == 0 else ("X", after(count - 1, formula))


def controllers(program):
    """(what is checked, why it isn't so or None): the program reads formulas and outputs of the tool, and its circuits satisfy the formulas."""
    steps = ["{1} {2} --formula {3} > formula", "{0} automaton --outs \"$({1} {2} --outs {3})\" formula | {0} synth > answer"]
    moore = guaranteed("G (a <-> o);", semantics="Moore", target="Moore")
    for what, text, words, said in (("an arbiter", (TOP / "examples/arbiter.tlsf").read_text(), "--param n=3", "REALIZABLE"),
                                    ("Mealy", guaranteed("G (a <-> o);"), "", "REALIZABLE"), ("Moore", moore, "--mealy", "UNREALIZABLE"),
                                    ("quotes", guaranteed("G (a' -> F o');").replace("a;", "a';").replace("o;", "o';"), "", "REALIZABLE")):
        with tempfile.TemporaryDirectory() as folder:
            pathlib.Path(folder, "text").write_text(text)
            script = "\n".join(steps).format(program, sys.executable, TOP / "tools/tlsf", f"{words} text")
            ran = subprocess.run(["sh", "-ec", script], cwd=folder, capture_output=True, text=True, timeout=120)
            answer = pathlib.Path(folder, "answer")
            kind = answer.read_text().partition("\n")[0] if ran.returncode == 0 else ran.stderr
            verdict = subprocess.run([program, "verify", "--ltl", f"{folder}/formula", answer], capture_output=True, text=True, timeout=120).stdout
        yield what, (kind, verdict), (said, "ACCEPTED\n" if said == "REALIZABLE" else "")


Tests = case.tests(__name__, meanings, lines, refusals, at_random, controllers)
