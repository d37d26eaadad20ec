#!/usr/bin/env python3
"""Checks what tools/draw writes: texts for Graphviz, pictures, refusals, and tables of schedules; and the places that tools/where shows.

The texts for Graphviz of docs/pictures/ must be those that the tool writes; the pictures beside them depend on the version
of `dot`, and aren't compared.

    tests/drawing.py    makes docs/pictures/ again; `dot` must be installed
"""
import pathlib
import subprocess
import sys
import tempfile

import case
from case import TOP

PICTURES = {"two": ["examples/two.pg"], "sender": ["examples/sender.pg", "examples/sender.solution"],
            "request-grant": ["examples/request-grant.hoa"], "traffic-light": ["examples/traffic-light.hoa"],
            "priorities": ["examples/priorities.hoa"],
            "foresight": ["--automaton", "examples/foresight.hoa", "examples/foresight.pg", "examples/foresight.solution"]}
# pictures of texts that are in no file: a wrong solution, and the verdict of `check` on it
TEXTS = {"sender-wrong": {"game": (TOP / "examples/sender.pg").read_bytes(),
                          "wrong": (TOP / "examples/sender.solution").read_bytes().replace(b"\n0 0 2;", b"\n0 0 1;"),
                          "verdict": b"CYCLE 1 3,0,1\n"}}
OWNERS = "Diamonds belong to Even (player 0), boxes to Odd (player 1)"
WINS = "Even wins from the blue vertices, Odd from the orange ones\\nA heavy edge says where the winner goes"

GAME = b'start 7; 7 2 0 7,3,7 "seven \\ & &lt; \xc3\xa9\xff";\n3 65535\n1 7\n;'
GAME_GRAPH = f"""digraph game {{
    graph [label="3: 65535 is vertex 3 with priority 65535\\n{OWNERS}", nslimit=1, nslimit1=1];
    3 [label="3: 65535", shape=box];
    7 [label="7: 2\\nseven \\\\ & &amp;lt; \u00e9\ufffd", shape=diamond];
    3 -> 7;
    7 -> 3;
    7 -> 7;
}}
"""
THREE = b'parity 2;\n0 0 1 0,1;\n1 1 1 1,2 "odd";\n2 2 0 0,2;\n'
SOLUTION = b"paritysol 2;\n2 0 2;\n0 1 1;\n1 1 1;\n"
SOLVED_GRAPH = f"""digraph game {{
    graph [label="0: 0 is vertex 0 with priority 0\\n{OWNERS}\\n{WINS}", nslimit=1, nslimit1=1];
    0 [label="0: 0", shape=box, style=filled, fillcolor="#e69f00"];
    1 [label="1: 1\\nodd", shape=box, style=filled, fillcolor="#e69f00"];
    2 [label="2: 2", shape=diamond, style=filled, fillcolor="#a6d8f5"];
    0 -> 0 [color="#b8b8b8"];
    0 -> 1 [penwidth=3];
    1 -> 1 [penwidth=3];
    1 -> 2 [color="#b8b8b8"];
    2 -> 0 [color="#b8b8b8"];
    2 -> 2 [penwidth=3];
}}
"""
AUTOMATON = b"""/* a /* nested */ comment */ HOA: v1.1
Start: 1 Alias: @b 1 AP: 2 "a" "b \\"c\\"" properties: complete properties: deterministic
Acceptance: 2 Fin(1)&(Inf(0)) controllable-AP: 1
--BODY--
State: 1 "\xc3\xa9" {0 1} [!0&!(@b|0)] 2 {1} [0]/**/1 [!0&@b] 1 {1}
State: [t] 0 2 {0}
--END--
"""
AUTOMATON_GRAPH = """digraph automaton {
    graph [label="Acceptance: 2 Fin(1)&(Inf(0))\\nControllable: \\"b \\"c\\"\\"", nslimit=1, nslimit1=1];
    start [shape=point];
    start -> 1;
    0 [label="0"];
    1 [label="1\\n\u00e9\\n{0 1}"];
    2 [label="2"];
    0 -> 2 [label="t {0}"];
    1 -> 2 [label="!a&!\\"b \\"c\\"\\" {1}"];
    1 -> 1 [label="a\\n!a&\\"b \\"c\\"\\" {1}"];
}
"""
# a label of several lines: neither or both of two propositions hold
LONG_NAMES = ["the_first_of_the_propositions", "the_second_of_the_propositions"]
LONG = ('HOA: v1 Start: 0 AP: 2 "%s" "%s" Acceptance: 1 Inf(0) --BODY-- State: 0 [!0&!1|0&1] 0 {0} --END--' % (*LONG_NAMES,)).encode()
LONG_LABEL = "{0}&amp;{1}\\n| !{0}&!{1} {{0}}".format(*LONG_NAMES)
# verdicts on THREE and SOLUTION: the text about them, and the lines of their edges
VERDICTS = {
    b"WINS\n": ("WINS: each winner wins by the heavy edges", []),
    b"LEAVES 2 0\n": ("LEAVES: the red edge goes to a vertex of the other winner", ['2 -> 0 [color="#c00000", style=dashed]']),
    b"CYCLE 1 1\n": ("CYCLE: 1 is the greatest priority on the red cycle, so Odd wins it", ['1 -> 1 [penwidth=3, color="#c00000", style=dashed]']),
    b"CYCLE 2 0,1,2\n": ("CYCLE: 2 is the greatest priority on the red cycle, so Even wins it",
                         ['0 -> 1 [penwidth=3, color="#c00000", style=dashed]', '1 -> 2 [color="#c00000", style=dashed]',
                          '2 -> 0 [color="#c00000", style=dashed]']),
}
# the game of examples/request-grant.hoa, and the words for its vertices and for Even's edges
GAME_OF_GRANTS = b"""parity 10;
0 1 1 0 "dead";
1 1 1 4,5 "s0";
2 2 1 4,5 "s0/0";
3 3 1 4,5 "s0/1";
4 0 0 2 "s0:0";
5 0 0 7 "s0:1";
7 2 1 9,10 "s1/0";
8 3 1 9,10 "s1/1";
9 0 0 2,3 "s1:0";
10 0 0 7,8 "s1:1";
"""
WORDS = ["0: 1\\nthe run has ended", "1: 1\\nstate 0", "2: 2\\nstate 0 {0}", "3: 3\\nstate 0 {1}", "4: 0\\nstate 0: !request",
         "5: 0\\nstate 0: request", "7: 2\\nstate 1 {0}", "8: 3\\nstate 1 {1}", "9: 0\\nstate 1: !request", "10: 0\\nstate 1: request"]
LETTERS = ['4 -> 2 [label="t"]', '5 -> 7 [label="t"]', '9 -> 2 [label="grant"]', '9 -> 3 [label="!grant"]', '10 -> 7 [label="grant"]',
           '10 -> 8 [label="!grant"]']
# parts of THREE: the words, with a solution, and what must be drawn: where it begins, the dashed vertices, the edges, and the text
SELF = {0: '0 -> 0 [color="#b8b8b8"]', 1: "1 -> 1 [penwidth=3]", 2: "2 -> 2 [penwidth=3]"}
ALL = [SELF[0], "0 -> 1 [penwidth=3]", SELF[1], '1 -> 2 [color="#b8b8b8"]', '2 -> 0 [color="#b8b8b8"]', SELF[2]]
PARTS = [
    (b"start 0;", [], "start -> 0", [], ["0 -> 1 [penwidth=3]", SELF[1]], "2 of 3 vertices: those that are reached from 0"),
    (b"start 0;", ["--all"], "", [], ALL, ""),
    (b"start 9;", [], "", [], ALL, ""),
    (b"start 0;", ["--from", "2"], "start -> 2", [], [SELF[2]], "1 of 3 vertices: those that are reached from 2"),
    (b"start 0;", ["--depth", "0"], "start -> 0", ["0"], [], "1 of 3 vertices: those that are reached from 0"),
    (b"", ["--all", "--from", "2", "--depth", "1"], "start -> 2", ["0"], [SELF[0], '2 -> 0 [color="#b8b8b8"]', SELF[2]],
     "2 of 3 vertices: those that are reached from 2"),
    (b"", ["--all", "--from", "2"], "start -> 2", [], ALL, ""),
]
# the game of GAME_OF_GRANTS, won by the controller except where the run has ended
SOLUTION_OF_GRANTS = b"0 1 0;1 0;2 0;3 0;4 0 2;5 0 7;7 0;8 0;9 0 2;10 0 7;"
STRATEGY_OF_GRANTS = """the controller wins
state 0: the controller answers
    !request with anything -> state 0 {0}
    request with anything -> state 1 {0}
state 0 {0}: the controller answers
    !request with anything -> state 0 {0}
    request with anything -> state 1 {0}
state 1 {0}: the controller answers
    !request with grant -> state 0 {0}
    request with grant -> state 1 {0}
"""
STRATEGY_OF_FORESIGHT = """the environment wins
nothing said: the environment sets !request
    !grant -> no request to come
    grant -> a request to come
no request to come: the environment sets request
    anything -> the run has ended
a request to come: the environment sets !request
    anything -> the run has ended
"""
STRATEGY = """0: Odd wins, Odd goes to 1 "odd"
1 "odd": Odd wins, Odd goes to 1 "odd"
2: Even wins, Even goes to 2
"""
RING = b"".join(b"%d 0 0 %d;" % (vertex, (vertex + 1) % 300) for vertex in range(300))
CHAIN = b"".join(b"%d 0 0 %d;" % (vertex, vertex) for vertex in range(201))
STATES = b'HOA: v1 States: %d Start: 0 Acceptance: 0 t --BODY-- --END--'
HEAD = b"HOA: v1 Start: 0 Acceptance: 1 Inf(0) "
# an automaton of 16 states, with an edge from each to each
TOTAL = b'HOA: v1 Start: 0 AP: 4 "a" "b" "c" "d" Acceptance: 0 t --BODY--\n%s--END--' % b"".join(
    b"State: %d %s\n" % (state, b" ".join(b"%d" % target for target in range(16))) for state in range(16))
MANY = "too many for a picture: --from ID --depth N draws a part, and --text says the strategy in words"
MANY_STATES = "too many for a picture: with --automaton a part of its game can be drawn"


def chords(count):
    """A ring of 200 vertices, the first `count` of which also have an edge across it."""
    return b"".join(b"%d 0 0 %d%s;" % (it, (it + 1) % 200, b",%d" % ((7 * it + 90) % 200) if it < count else b"") for it in range(200))


REFUSED = [
    (f"many: more than 200 vertices, {MANY}", {"many": CHAIN}),
    (f"many: more than 250 edges, {MANY}", {"many": chords(51)}),
    (f"states: more than 200 states, {MANY_STATES}", {"states": STATES % 201}),
    (f"states: more than 200 states, {MANY_STATES}", {"states": HEAD + b"--BODY-- State: 200 --END--"}),
    (f"states: more than 250 edges, {MANY_STATES}", {"states": TOTAL}),
    ("empty: no vertex", {"empty": b" \n"}),
    ("damaged: syntax error at byte 8", {"damaged": b"0 0 0 0 1;"}),
    ("damaged: syntax error at byte 8", {"damaged": b'0 0 0 0 "name;'}),
    ("damaged: vertex 7 has no successor at byte 6: a dead end isn't read. If its owner loses there, give it itself as its successor and the priority 0",
     {"damaged": b'7 0 1 "name";'}),
    ("damaged: number out of range at byte 4", {"damaged": b"0 0 2 0;"}),
    ("damaged: number out of range at byte 2", {"damaged": b"0 65536 0 0;"}),
    ("damaged: number too large at byte 0", {"damaged": b"9" * 5000}),
    ("damaged: vertex 4 is defined twice", {"damaged": b"4 0 0 4;4 0 0 4;"}),
    ("damaged: vertex 0 has successor 9, which no line defines", {"damaged": b"0 0 0 0,9;"}),
    ("other: line of vertex 3 does not fit the game", {"game": THREE, "other": SOLUTION + b"3 0;"}),
    ("other: line of vertex 0 does not fit the game", {"game": THREE, "other": b"0 1 2;1 1 1;2 0 2;"}),
    ("other: the line of vertex 2 has no successor: a winner that owns a vertex needs a strategy there, not only its name",
     {"game": THREE, "other": b"0 1 1;1 1 1;2 0;"}),
    ("other: vertex 1 has no answer", {"game": THREE, "other": b"0 1 1;"}),
    ("other: vertex 0 is answered twice", {"game": THREE, "other": b"0 1 1;0 1 1;"}),
    ("automaton is an automaton, which has no solution", {"automaton": AUTOMATON, "solution": SOLUTION}),
    ("damaged: missing header Acceptance at byte 17", {"damaged": b"HOA: v1 Start: 0 --BODY-- --END--"}),
    ("damaged: a second Start:, at byte 38, isn't read", {"damaged": HEAD + b"Start: 1"}),
    ("damaged: state 0 is not deterministic at letter 0", {"damaged": HEAD + b"--BODY-- State: 0 [t] 0 [t] 0 {0} --END--"}),
    ("damaged: syntax error at byte 38", {"damaged": HEAD + b"/* /* */"}),
    ("nothing: No such file or directory", {"nothing": None}),
    ("said: a verdict is WINS, LEAVES V W or CYCLE P V,V,..", {"game": THREE, "solution": SOLUTION, "said": b"LOSES\n"}),
    ("said: a verdict is WINS, LEAVES V W or CYCLE P V,V,..", {"game": THREE, "solution": SOLUTION, "said": b"LEAVES 1\n"}),
    ("said: a verdict is WINS, LEAVES V W or CYCLE P V,V,..", {"game": THREE, "solution": SOLUTION, "said": b"CYCLE 1\n"}),
    ("said: a verdict is WINS, LEAVES V W or CYCLE P V,V,..", {"game": THREE, "solution": SOLUTION, "said": b"CYCLE 1 " + b"1" * 5000}),
    ("said: the game has no edge from 0 to 2", {"game": THREE, "solution": SOLUTION, "said": b"LEAVES 0 2\n"}),
    ("said: the game has no edge from 2 to 1", {"game": THREE, "solution": SOLUTION, "said": b"CYCLE 2 1,2\n"}),
]
TWO = b"parity 1;\n0 1 0 0,1;\n1 2 1 0;\n"
SCRIPT = b"workers 02;cut 1,2;\nlift 1 0;deliver2 0;\n\ndeliver 0 0; restart 1;lift 2 1;"
TABLE = """event          update  replica 0  replica 1  replica 2
at first       -       -          -          -
0 lift 1 0     0: 0 1  -          0 1        -
1 deliver 2 0  -       -          0 1        0 1
2 deliver 0 0  -       0 1        0 1        0 1
3 restart 1    -       0 1        -          0 1
4 lift 2 1     -       0 1        -          0 1
"""
FAULTS = {SCRIPT + b"lift 1 1;": "script: event 5: vertex 1 is not of worker 1",
          b"workers 1;lift 1;": "script: syntax error at byte 16"}


# (text, byte) and what tools/where must show: the line, the column, and the line with a mark
SHOWN = {
    (b"0 0 1;\n1 0 0 0;\n", 13): "line 2, column 7\n1 0 0 0;\n      ^\n",
    (b"0 0 1;\n1 0 0 0;\n", 6): "line 1, column 7\n0 0 1;\n      ^\n",
    (b"0 0 1;\n1 0 0 0;\n", 16): "line 3, column 1\n\n^\n",
    (b"", 0): "line 1, column 1\n\n^\n",
    (b'\t"\xc3\xa9\xff";x', 6): 'line 1, column 6\n "\u00e9\ufffd";x\n     ^\n',
    (b"\n" + b"a" * 70 + b"b" * 70, 71): "line 2, column 71\n.. " + "a" * 60 + "b" * 60 + " ..\n" + " " * 63 + "^\n",
}


def drawn(words, texts=None):
    """(status, output, error stream) of the tool on files with these names and texts; without a text there is no file."""
    with tempfile.TemporaryDirectory() as folder:
        for name, text in (texts or {}).items():
            if text is not None:
                pathlib.Path(folder, name).write_bytes(text)
        command = [sys.executable, str(TOP / "tools/draw"), *words, *(texts or {})]
        ran = subprocess.run(command, cwd=folder if texts else TOP, capture_output=True, timeout=120)
    return ran.returncode, ran.stdout.decode(), ran.stderr.decode()


def pictures_kept():
    """The name, files and texts of each picture of docs/pictures/."""
    yield from ((name, files, None) for name, files in PICTURES.items())
    yield from ((name, [], texts) for name, texts in TEXTS.items())


def graphs():
    """(what is checked, result, wanted result) for each text for Graphviz."""
    yield "a game", drawn(["--dot"], {"game": GAME}), (0, GAME_GRAPH, "")
    yield "a solution", drawn(["--dot"], {"game": THREE, "solution": SOLUTION}), (0, SOLVED_GRAPH, "")
    yield "an automaton", drawn(["--dot"], {"automaton": AUTOMATON}), (0, AUTOMATON_GRAPH, "")
    status, text, errors = drawn(["--dot"], {"automaton": LONG})
    yield "a long label", (status, lines_with(text, "0 -> 0"), errors), (0, [f'0 -> 0 [label="{LONG_LABEL}"]'], "")
    for name, files, texts in pictures_kept():
        graph = (TOP / f"docs/pictures/{name}.dot").read_text()
        yield f"docs/pictures/{name}.dot", drawn(["--dot", *files], texts), (0, graph, "")
    for text in (CHAIN[:CHAIN.rindex(b"200 0")], STATES % 200):
        yield "200 are drawn", drawn(["--dot"], {"many": text})[::2], (0, "")


def lines_with(text, *words):
    """The lines of a text that have all the words, without blanks at their ends and the semicolon."""
    return [line.strip().rstrip(";") for line in text.splitlines() if all(word in line for word in words)]


def verdicts():
    """The same for verdicts, and for the game of an automaton in its words."""
    for verdict, (said, edges) in VERDICTS.items():
        status, text, errors = drawn(["--dot"], {"game": THREE, "solution": SOLUTION, "said": verdict})
        yield verdict, (status, f"{OWNERS}\\n{WINS}\\n{said}" in text, lines_with(text, "->", "dashed"), errors), (0, True, edges, "")
    words = ["--dot", "--automaton", TOP / "examples/request-grant.hoa"]
    status, text, errors = drawn(words, {"game": GAME_OF_GRANTS})
    vertices = [line.split('"')[1] for line in lines_with(text, "shape=")]
    yield "words", (status, vertices, lines_with(text, "->", "label="), errors), (0, WORDS, LETTERS, "")
    for name in (b"s2", b"s0/2", b"s0:2", b"other", b"s" + b"1" * 5000):
        told = f"draw: game: the automaton's game has no vertex that is named {name.decode()}\n"
        yield name, drawn(words, {"game": b'0 0 0 0 "' + name + b'";'}), (1, "", told)


def parts():
    """The same for parts of games, and for strategies in words."""
    for begin, words, first, dashed, edges, said in PARTS:
        status, text, errors = drawn(["--dot", *words], {"game": begin + THREE[10:], "solution": SOLUTION})
        found = [line.split()[0] for line in lines_with(text, "dashed", "shape=")]
        rest = [line for line in lines_with(text, "->") if not line.startswith("start")]
        yield f"a part: {words}", (status, lines_with(text, "start ->"), found, rest, f"{WINS}\\n{said}" in text if said else WINS + '"' in text,
                                   errors), (0, [first] * bool(first), dashed, edges, True, "")
    status, text, _ = drawn(["--dot", "--from", "7", "--depth", "5"], {"ring": RING})
    yield "around a vertex", (status, [line.split()[0] for line in lines_with(text, "shape=diamond")]), (0, list("7 8 9 10 11 12".split()))
    game = {"game": THREE, "solution": SOLUTION}
    yield "a strategy", drawn(["--text"], game), (0, STRATEGY, "")
    yield "all of it", drawn(["--text", "--all"], game), (0, STRATEGY, "")
    yield "a part of it", drawn(["--text", "--from", "1"], game), (0, STRATEGY.splitlines(True)[1], "")
    yield "cut", drawn(["--text", "--from", "0", "--depth", "0"], game), (0, "0: Odd wins, Odd goes to ..\n", "")
    yield "no such vertex", drawn(["--dot", "--from", "9"], game), (1, "", "draw: game: there is no vertex 9\n")
    told = "draw: game: nothing says where it begins: --depth wants --from\n"
    yield "no beginning", drawn(["--dot", "--depth", "9"], game), (1, "", told)
    words = ["--text", "--automaton", TOP / "examples/request-grant.hoa"]
    yield "a controller", drawn(words, {"game": GAME_OF_GRANTS, "solution": SOLUTION_OF_GRANTS}), (0, STRATEGY_OF_GRANTS, "")
    words = ["--text", *PICTURES["foresight"]]
    yield "an environment", drawn(words), (0, STRATEGY_OF_FORESIGHT, "")
    yield "its steps", drawn([*words, "--depth", "1"]), (0, "the environment wins\nnothing said: the environment sets !request\n    ..\n", "")


def places():
    """The same for places."""
    def shown(text, *words):
        ran = subprocess.run([sys.executable, TOP / "tools/where", *map(str, words)], input=text, capture_output=True, timeout=60)
        return ran.returncode, ran.stdout.decode(), ran.stderr.decode()

    for (text, byte), wanted in SHOWN.items():
        yield f"byte {byte} of {text}", shown(text, "-", byte), (0, wanted, "")
    yield "a byte after the end", shown(b"abc", "-", 4), (1, "", "where: standard input: it has 3 bytes, and no byte 4\n")
    yield "no file", shown(b"", "nothing", 4), (1, "", "where: nothing: No such file or directory\n")
    for words in ([], ["-"], ["-", "x"], ["-", "-1"]):
        yield f"the words {words}", shown(b"", *words)[:2], (2, "")


def refusals():
    """The same for what is refused: with files, and by the command line."""
    for told, texts in REFUSED:
        yield told, drawn(["--dot"], texts), (1, "", f"draw: {told}\n")
    for words in ([], ["--line"], ["--replay", "a"], ["--program", "x", "a"], ["-", "-"], ["--replay", "--dot", "a", "b"],
                  ["--replay", "a", "b", "c"], ["a", "b", "c", "d"], ["--automaton", "-", "-"], ["--text", "a"], ["--from", "x", "a"],
                  ["--replay", "--all", "a", "b"], ["--text", "--dot", "a", "b"]):
        yield f"the words {words}", drawn(words)[:2], (2, "")


def pictures():
    """The same for a picture, if `dot` is installed."""
    if case.lacking("dot"):
        yield "a picture", case.lacking("dot")
        return
    status, output, errors = drawn(PICTURES["two"])
    yield "a picture", (status, "<svg" in output and output.endswith("</svg>\n"), errors), (0, True, "")
    status, output, errors = drawn([], {"many": chords(50)})
    yield "as many edges as are drawn", (status, output.count('class="edge"'), errors), (0, 250, "")


def tables(program):
    """The same for tables, for which the tool runs the program."""
    words = ["--replay", "--program", program]
    yield "a table", drawn(words, {"game": TWO, "script": SCRIPT}), (0, TABLE, "")
    for script, told in FAULTS.items():
        yield told, drawn(words, {"game": TWO, "script": script}), (1, "", f"draw: {told}\n")


Tests = case.tests(__name__, graphs, verdicts, parts, places, refusals, pictures, tables)


if __name__ == "__main__":
    for name, files, texts in pictures_kept():
        for kind, words in (("dot", ["--dot"]), ("svg", [])):
            status, output, errors = drawn([*words, *files], texts)
            if status:
                sys.exit(errors)
            (TOP / f"docs/pictures/{name}.{kind}").write_text(output)
