"""Tries the library for C, C++ and Python: its header matches the sources, the sessions of docs/library.md print what the page says,
its answers are those of the program, and tests/embedding.c finds nothing wrong, with and without the address sanitizer."""
import array
import ctypes
import importlib.util
import os
import pathlib
import random
import re
import subprocess
import sys
import tempfile

import case
import checks as of_program
import naive
from case import TOP

SOURCES, HEADER, MODULE = TOP / "crates/parsolve_c/src", TOP / "bindings/parsolve.h", TOP / "bindings/parsolve.py"
WARNINGS = ["-Wall", "-Wextra", "-Werror"]
# each type of the sources in C, argument by argument
IN_C = {"u32": ["uint32_t"], "usize": ["size_t"], "Global": [], "&Arrays": ["const struct parsolve_game *"],
        "&mut ParsolveFound": ["struct parsolve_found *"], "&mut u32": ["uint32_t *"], "&mut usize": ["size_t *"],
        "&[u8]": ["const uint8_t *", "size_t"], "&[u32]": ["const uint32_t *", "size_t"],
        "&mut [u8]": ["uint8_t *", "size_t"], "&mut [u32]": ["uint32_t *", "size_t"],
        "&'a [u32]": ["struct parsolve_numbers"], "&'a [u8]": ["struct parsolve_bytes"], "&'a mut [u8]": ["uint8_t *", "size_t"],
        "&mut ParsolveText<'a>": ["struct parsolve_text *"]}
STRUCTS = {"parsolve_game": (TOP / "crates/parsolve_c_csr/src/arrays.rt", "Arrays"),
           "parsolve_found": (SOURCES / "checking.rt", "ParsolveFound"), "parsolve_text": (SOURCES / "answering.rt", "ParsolveText")}


def all_sources():
    return "".join(path.read_text() for path in sorted(SOURCES.glob("*.rt")))


def header():
    """The header without its comments."""
    return re.sub(r"/\*.*?\*/", "", HEADER.read_text(), flags=re.S)


# ---- the header

def compared(what, ours, theirs):
    """(what is compared, why it differs or None)."""
    return what, None if ours == theirs and ours else f"{ours} in the sources, and {theirs} in the header"


def in_c(parameters, suffix):
    """The parameters of a list of the sources as C has them: (type, name), a slice with the length after it."""
    found = []
    for name, kind in parameters:
        types = IN_C[kind]
        found += list(zip(types, [name, name + suffix]))
    return found


def declared(text):
    """(type, name) of each declarator of C in a list."""
    return [(" ".join(kind.split()), name) for kind, name in re.findall(r"([\w\s]+?(?:\s\*|\s))(\w+)\s*(?:[,;]|$)", text)]


def tidy(found):
    return [(kind.strip(), name) for kind, name in found]


def exports():
    """(name, parameters, result) of each export, in the sources and in the header."""
    signature = re.compile(r'pub extern "C" fn (\w+)(?:<\W?a>)?\((.*?)\) -> (\w+)', re.S)
    ours = {name: (in_c(re.findall(r"(\w+): ([^,]+),", parameters), "_length"), IN_C[result][0])
            for name, parameters, result in signature.findall(all_sources())}
    prototype = re.compile(r"^(\w+) (parsolve_\w+)\(([^)]*)\);", re.M)
    theirs = {name: (declared(parameters), result) for result, name, parameters in prototype.findall(header())}
    return ours, theirs


def header_checks():
    """The names, numbers, structs and parameters of the header and of the Python module are those of the sources."""
    ours = dict(re.findall(r"^pub const (PARSOLVE_\w+): u32 = (\d+);", (SOURCES / "code.rt").read_text(), re.M))
    theirs = dict(re.findall(r"\b(PARSOLVE_\w+) = (\d+)", header()))
    yield compared("codes", ours, theirs)
    no_choice = re.search(r"pub const NO_CHOICE: u32 = ([\d_]+);", (TOP / "crates/parsolve_c_csr/src/solution.rt").read_text())[1]
    yield compared("NO_CHOICE", int(no_choice), 2**32 - 1 if "PARSOLVE_NO_CHOICE UINT32_MAX" in header() else None)
    for name, (path, struct) in STRUCTS.items():
        fields = re.search(rf"pub struct {struct}(?:<'a>)? \{{(.*?)\n\}}", path.read_text(), re.S)[1]
        shown = re.search(rf"struct {name} \{{(.*?)\}};", header(), re.S)[1]
        yield compared(f"struct {name}", tidy(in_c(re.findall(r"pub (\w+): ([^,]+),", fields), "_length")), tidy(declared(shown)))
    (ours, theirs) = exports()
    for name in sorted({*ours, *theirs}):
        mine, other = ours.get(name, ([], "")), theirs.get(name, ([], ""))
        yield compared(name, (tidy(mine[0]), mine[1]), (tidy(other[0]), other[1]))
    yield from module_checks(dict(re.findall(r"\b(PARSOLVE_\w+) = (\d+)", header())))


def module_checks(codes):
    """The same for the numbers of the Python module."""
    module = MODULE.read_text()
    commands = re.findall(r'"([\w -]+)"', re.search(r"^COMMANDS = \((.*?)\)", module, re.M | re.S)[1])
    yield compared("COMMANDS", {f"PARSOLVE_COMMAND_{it.upper().replace(' --', '_')}": str(at) for at, it in enumerate(commands)},
                   {name: number for name, number in codes.items() if name.startswith("PARSOLVE_COMMAND_")})
    names, numbers = re.search(r"^(OK, .*) = (.*)$", module, re.M).groups()
    yield compared("codes of the module", dict(zip(names.split(", "), numbers.split(", "))),
                   {it: codes[f"PARSOLVE_{it}"] for it in names.split(", ")})
    told = {int(code): text for code, text in re.findall(r'^    (\d+): "(.*)",$', module, re.M)}
    texts = dict(re.findall(r'case (PARSOLVE_\w+):\s+return "(.*)";', header()))
    faults = range(int(codes["PARSOLVE_LENGTHS"]), int(codes["PARSOLVE_CHOICE"]) + 1)
    yield compared("texts of the module", told, {int(codes[name]): text for name, text in texts.items() if int(codes[name]) in faults})
    yield compared("codes with a text", sorted(texts), sorted(it for it in codes if not it.startswith("PARSOLVE_COMMAND_")))


# ---- the folder

def done(words, timeout=600, **more):
    """(why a command failed or None, what it printed)."""
    try:
        ran = subprocess.run([str(it) for it in words], stdin=subprocess.DEVNULL, capture_output=True, text=True, timeout=timeout, **more)
    except subprocess.TimeoutExpired as why:
        return str(why), ""
    return None if ran.returncode == 0 else f"status {ran.returncode}: {ran.stdout}{ran.stderr}", ran.stdout


def ran(words, **more):
    """Why a command failed, or None."""
    return done(words, **more)[0]


def printed(words, **more):
    """What a command printed, or why it failed."""
    why, output = done(words, **more)
    return why or output


def names_checks(folder):
    """The exports are the only names that the library defines for others, and it uses only malloc's three and those that copy, set or
    compare memory."""
    if case.lacking("nm"):
        yield "names", case.lacking("nm")
        return
    wanted = sorted(exports()[1])
    for file, option in (("libparsolve.a", "-g"), ("libparsolve.so", "-D")):
        lines = [line.split() for line in printed(["nm", option, folder / "lib" / file]).splitlines()]
        defined = sorted(it[-1] for it in lines if len(it) == 3)
        yield f"names of {file}", None if defined == wanted else f"{defined}, and not {wanted}"
    used = {it[-1] for it in lines if len(it) == 2 and it[0] == "U"}
    foreign = {it.partition("@")[0] for it in used} - {"malloc", "realloc", "free", "memcpy", "memmove", "memset", "memcmp", "bcmp"}
    yield "names that it uses", f"{sorted(foreign)}" if foreign else None


def blocks():
    """The programs of docs/library.md in C, C++ and Python, by the names of their files, and its sessions: the commands, line by line,
    and their whole output."""
    text = (TOP / "docs/library.md").read_text().partition("## From C and Python")[2].partition("\n## ")[0]
    programs = {f"example.{end}": re.search(rf"^```{language}\n(.*?)^```$", text, re.M | re.S)[1]
                for language, end in (("c", "c"), ("cpp", "cpp"), ("python", "py"))}
    shown = re.findall(r"^    \$ (.*)\n((?:    (?!\$ ).*\n)*)", text, re.M)
    return programs, [command for command, _ in shown], re.sub("^    ", "", "".join(printed for _, printed in shown), flags=re.M)


def sessions_check(folder, work):
    """The sessions of the page, as they are written, in one shell; a link gives the folder a name without a blank."""
    _, commands, wanted = blocks()
    linked = work / "laid"
    linked.symlink_to(folder)
    env = {**os.environ, "FOLDER": str(linked), "PYTHONDONTWRITEBYTECODE": "1"}
    yield "the sessions", differs(printed(["sh", "-c", "\n".join(commands)], cwd=work, env=env), wanted)


def example_checks(folder, work):
    """The sessions and the programs of the page, if there are compilers, and the examples of the module."""
    for name, text in blocks()[0].items():
        (work / name).write_text(text)
    if case.lacking("pkg-config", "cc", "c++"):
        yield "the examples", case.lacking("pkg-config", "cc", "c++")
    else:
        yield from sessions_check(folder, work)
        yield from compiled_checks(folder, work)
    yield "the examples of the module", ran([sys.executable, "-m", "doctest", folder / "python/parsolve/__init__.py"],
                                            env=with_module(folder))
    version = re.search(r'^const VERSION: &str = "(.*)";$', (TOP / "crates/pg_cli_words/src/words.rt").read_text(), re.M)[1]
    laid = "".join((folder / it).read_text() for it in ("include/parsolve.h", "lib/pkgconfig/parsolve.pc", "python/pyproject.toml",
                                                         "python/parsolve/__init__.py"))
    yield "the version", None if laid.count(version) == 4 and "@" + "VERSION" not in laid else f"isn't {version} in each place"
    yield from installed(folder, work)


def compiled_checks(folder, work):
    """The page's program in C also compiles as C++, with the archive and with the shared object."""
    wanted, flags = printed([work / "example"]), ["-I", folder / "include", "-L", folder / "lib"]
    for language, compiler in (("c", ["cc", "-std=c99"]), ("c++", ["c++", "-std=c++11"])):
        for how, more in (("archive", ["-l:libparsolve.a"]), ("shared", ["-lparsolve", f"-Wl,-rpath,{folder}/lib"])):
            what, program = f"the example in {language}, {how}", work / f"example-{how}"
            why = ran([*compiler, *WARNINGS, "-x", language, work / "example.c", *flags, *more, "-o", program])
            yield what, why or differs(printed([program]), wanted)
    why = ran(["c++", "-std=c++11", *WARNINGS, work / "example.cpp", *flags, "-l:libparsolve.a", "-o", work / "vectors"])
    yield "the example with vectors", why or differs(printed([work / "vectors"]), printed([work / "example-cpp"]))


def installed(folder, work):
    """The package as pip installs it, if there is pip; nothing is fetched."""
    if not importlib.util.find_spec("pip"):
        yield "the package, installed", case.LeftOut("pip isn't installed")
        return
    target = work / "installed"
    why = ran([sys.executable, "-m", "pip", "install", "-q", "--no-index", "--target", target, folder / "python"])
    env = {**os.environ, "PYTHONPATH": str(target), "PYTHONDONTWRITEBYTECODE": "1"}
    wanted = printed([sys.executable, work / "example.py"], env=with_module(folder))
    yield "the package, installed", why or differs(printed([sys.executable, work / "example.py"], env=env), wanted)


def differs(output, wanted):
    return None if output == wanted else f"printed {output!r}, and not {wanted!r}"


def with_module(folder):
    return {**os.environ, "PYTHONPATH": str(folder / "python"), "PYTHONDONTWRITEBYTECODE": "1"}


def harness_checks(folder, work):
    """What tests/embedding.c tries."""
    if case.lacking("cc"):
        yield "tests/embedding.c", case.lacking("cc")
        return
    wraps = [f"-Wl,--wrap={name}" for name in ("malloc", "realloc", "free")]
    for how, flags in (("", ["-O1"]), (", sanitized", ["-O1", "-g", "-fsanitize=address"])):
        program = work / f"harness{len(flags)}"
        why = ran(["cc", "-std=c11", *WARNINGS, *flags, *wraps, "-I", folder / "include", TOP / "tests/embedding.c",
                   folder / "lib/libparsolve.a", "-lpthread", "-o", program])
        for what in ("faults", "memory", "threads"):
            yield f"{what}{how}", why or ran([program, what])


# ---- the same answers as the program

def arrays_of(game):
    """The arrays of a game whose identifiers are 0 to one less than its length."""
    return [game[v][0] for v in sorted(game)], [game[v][1] for v in sorted(game)], [game[v][2] for v in sorted(game)]


def renumbered(game):
    """The same game with the identifiers 0, 1, .."""
    number = {v: at for at, v in enumerate(sorted(game))}
    return {number[v]: (priority, owner, [number[w] for w in successors]) for v, (priority, owner, successors) in game.items()}


def solution_text(winners, strategy):
    lines = (f"{v} {winner}{'' if choice is None else f' {choice}'};\n" for v, (winner, choice) in enumerate(zip(winners, strategy)))
    return f"paritysol {len(winners) - 1};\n{''.join(lines)}"


def verdict_text(game, verdict):
    """A verdict of the module, as the program prints it."""
    words = {"Wins": lambda: "WINS", "Leaves": lambda: f"LEAVES {verdict.source} {verdict.target}",
             "Cycle": lambda: f"CYCLE {max(game[v][0] for v in verdict.vertices)} {','.join(map(str, verdict.vertices))}"}
    return words[type(verdict).__name__]() + "\n"


def says(program, command, text):
    """(status, output, error stream without notes, which the library doesn't report) of a command."""
    done = subprocess.run([program, *command.split()], input=text, capture_output=True, timeout=600)
    return done.returncode, done.stdout, case.without_notes(done.stderr)


def answered(parsolve, command, text):
    """The same for the library."""
    try:
        return 0, parsolve.answer(command, text), b""
    except parsolve.ParsolveError as why:
        return 1, b"", f"parsolve: {why}\n".encode()


def games(dice):
    """Games of every kind: small ones, larger ones, hard ones, and those of one vertex."""
    for _ in range(60):
        yield renumbered(of_program.random_game(dice))
    for _ in range(20):
        yield renumbered(of_program.random_game(dice, range(30), 12))
        yield of_program.hard_game(dice, dice.randint(5, 300))
    yield {0: (0, 0, [0])}
    yield {0: (65535, 1, [0, 0])}


def spoiled(dice, game, winners, strategy):
    """The solution, perhaps with another choice at a vertex, or another winner, who chooses if it owns the vertex."""
    winners, strategy, v = list(winners), list(strategy), dice.choice(sorted(game))
    if dice.randint(0, 3):
        winners[v] ^= dice.randint(0, 1)
        strategy[v] = dice.choice(game[v][2]) if winners[v] == game[v][1] else None
    return winners, strategy


def game_why(parsolve, program, dice, game):
    """Why the library's answers on a game, and on a solution of it, aren't the program's, or None."""
    priorities, owners, successors = arrays_of(game)
    made, text = parsolve.Game(priorities, owners, successors), naive.game_text(game)
    winners, strategy = made.solve()
    if says(program, "solve --any", text.encode()) != (0, solution_text(winners, strategy).encode(), b""):
        return f"solve --any on {text!r}: {winners} {strategy}"
    winners, strategy = spoiled(dice, game, winners, strategy)
    verdict = verdict_text(game, made.check(winners, strategy))
    both = f"{text}--\n{solution_text(winners, strategy)}"
    return None if says(program, "check", both.encode()) == (0, verdict.encode(), b"") else f"check on {both!r}: {verdict!r}"


COMMANDS_OF = {"pg": ("measure", "solve", "solve --any"), "hoa": ("game", "synth", "synth --small", "synth --counter"), "ltl": ("automaton",)}


def texts():
    """(command, input) for each command, answers and faults."""
    examples = {path.name: path.read_bytes() for path in (TOP / "examples").iterdir() if path.suffix in (".pg", ".hoa", ".ltl")}
    for name, text in sorted(examples.items()):
        for command in COMMANDS_OF[name.rpartition(".")[2]]:
            yield command, text
    game = b"0 2 1 0,1;\n1 1 0 0,1;\n"
    for command in ("measure", "solve", "solve --any", "check", "replay", "automaton", "means", "game", "synth", "synth --small", "synth --counter",
                    "verify", "verify --ltl"):
        yield from ((command, text) for text in (b"", b"\n", b"0 0 0 9;\n", game, game + b"--\n", game + b"--\n0 0;\n1 0 1;\n"))
    yield "replay", game + b"--\nworkers 1;\ncentral 1;\nlift 1 1;\ndeliver 1 0;\n"


def same_answers(parsolve, program):
    """(what is tried, why it failed or None)."""
    dice = random.Random(4)
    whys = (game_why(parsolve, program, dice, game) for game in games(dice))
    yield "the program's solutions and verdicts", next((why for why in whys if why), None)
    whys = (f"{command} on {text[:80]!r}" for command, text in texts() if says(program, command, text) != answered(parsolve, command, text))
    yield "the program's texts", next(whys, None)
    for part in (array_checks, refused_checks, text_checks):
        yield from part(parsolve)


class Liar(array.array):
    """An array that reports a wrong address and a wrong length."""

    @property
    def __array_interface__(self):
        return {"data": (8, False)}

    def __len__(self):
        return 1 << 40


class LongBytes(bytes):
    """A text that reports a wrong length."""

    def __len__(self):
        return 1 << 40


def unaligned(kind, numbers):
    """A view of the numbers that begins at an odd address."""
    return memoryview(bytearray(1) + array.array(kind, numbers).tobytes())[1:].cast(kind)


def kinds_of_arrays():
    """(kind, whether it is taken as it is, how to make an array of it from numbers of 32 or 8 bits)."""
    yield "array.array", True, array.array
    yield "an array that lies", True, Liar
    yield "a view that can't be written", True, lambda kind, numbers: memoryview(array.array(kind, numbers)).toreadonly()
    yield "a view that isn't aligned", True, unaligned
    yield "every second number", False, lambda kind, numbers: memoryview(array.array(kind, [it for n in numbers for it in (n, 9)]))[::2]
    yield "from the last to the first", False, lambda kind, numbers: memoryview(array.array(kind, numbers[::-1]))[::-1]
    yield "wider numbers", False, lambda kind, numbers: array.array("q", numbers)
    yield "numbers with a sign", False, lambda kind, numbers: array.array("i", numbers)
    yield "a tuple", False, lambda kind, numbers: tuple(numbers)
    try:
        import numpy
    except ImportError:
        return
    types = {"I": "u4", "B": "u1"}
    yield "NumPy", True, lambda kind, numbers: numpy.array(numbers, types[kind])
    yield "NumPy, every second", False, lambda kind, numbers: numpy.array([it for n in numbers for it in (n, 9)], types[kind])[::2]
    yield "NumPy, reversed", False, lambda kind, numbers: numpy.array(numbers[::-1], types[kind])[::-1]
    yield "NumPy, the other byte order", False, lambda kind, numbers: numpy.array(numbers, ">i8")


def array_checks(parsolve):
    """Arrays that fit are taken as they are, and others are copied."""
    if not importlib.util.find_spec("numpy"):
        yield "arrays of NumPy", case.LeftOut("NumPy isn't installed")
    numbers, kinds = (("I", [2, 1]), ("B", [1, 0]), ("I", [0, 2, 4]), ("I", [0, 1, 0, 1])), list(kinds_of_arrays())
    for kind, fits, make in kinds:
        parts = [make(*it) for it in numbers]
        game = parsolve.Game.of_rows(*parts)
        is_kept = all(one is other for one, other in zip(parts, (game.priorities, game.owners, game.starts, game.successors)))
        found = game.solve(), game.check(make("B", [0, 0]), make("I", [0, 0]))
        yield kind, None if is_kept == fits and found == (([0, 0], [None, 0]), parsolve.Wins()) else f"kept: {is_kept}, {found}"
        is_like = type(game.solve_arrays()[1]) is (type(parts[0]) if kind.startswith("NumPy") else array.array)
        yield f"{kind}: results", None if is_like else f"{game.solve_arrays()}"
    game = parsolve.Game(b"\2\1", b"\1\0", [b"\0\1", array.array("q", [0, 1])])
    for kind, _, make in kinds:
        game.priorities = make("I", [1, 1])
        yield f"{kind}, put into a game", None if game.solve() == ([1, 1], [0, None]) else f"{game.solve()}"
    game.priorities = array.array("B", [2, 1])
    yield "narrower numbers, put into a game", None if game.solve() == ([0, 0], [None, 0]) else f"{game.solve()}"


def refused(parsolve):
    """(exception, text, a call that must raise it)."""
    game, wide = parsolve.Game([2, 1], [1, 0], [[0, 1], [0, 1]]), "isn't from 0 to 4294967295"
    yield ValueError, f"priorities[1] {wide}", lambda: parsolve.Game([0, -1], [0, 0], [[0], [0]])
    yield ValueError, "owners[0] isn't from 0 to 255", lambda: parsolve.Game([0], [256], [[0]])
    yield ValueError, f"successors[1] {wide}", lambda: parsolve.Game([0], [0], [[0, 2**32]])
    yield ValueError, f"strategy[1] {wide}, nor None", lambda: game.check([0, 0], [None, -1])
    yield ValueError, f"strategy[0] {wide}, nor None", lambda: game.check([0, 0], array.array("i", [-1, 0]))
    yield TypeError, "'float' object", lambda: parsolve.Game([0.5], [0], [[0]])
    yield TypeError, "'str' object", lambda: parsolve.Game("0", [0], [[0]])
    yield TypeError, "winners: 2 dimensions", lambda: game.check(memoryview(bytes(2)).cast("B", (1, 2)), [None, 0])
    yield TypeError, "priorities: ", lambda: parsolve.Game(memoryview((ctypes.c_uint32 * 1)(0)), [0], [[0]])
    yield ValueError, "no command is named 'solved'; there are: measure, solve, check", lambda: parsolve.answer("solved", b"")
    yield TypeError, "a bytes-like object is required", lambda: parsolve.answer("solve", "0 0 0 0;")


def refused_checks(parsolve):
    """What doesn't fit is refused by name."""
    for kind, text, call in refused(parsolve):
        try:
            yield text, f"{call()}"
        except Exception as why:
            yield text, None if type(why) is kind and text in str(why) else repr(why)
    for parts, code, vertex in ((([], [], []), 3, None), (([0, 70000], [0, 0], [[0], [0]]), 6, 1), (([0], [0], [[]]), 9, 0)):
        try:
            yield f"code {code}", f"{parsolve.Game(*parts).solve()}"
        except parsolve.ParsolveError as why:
            yield f"code {code}", None if (why.code, why.vertex) == (code, vertex) else f"{why.code} {why.vertex}"


def text_checks(parsolve):
    """Texts in memory of every kind are read as they are, and an answer is made once, however long it is."""
    text, wanted = b"0 2 1 0,1;\n1 1 0 0,1;\n", b"paritysol 1;\n0 0;\n1 0 0;\n"
    for kind, given in (("bytearray", bytearray(text)), ("a view", memoryview(text)), ("reversed", memoryview(text[::-1])[::-1]),
                        ("every second byte", memoryview(bytes(it for byte in text for it in (byte, 0)))[::2]),
                        ("wider numbers", array.array("I", text + b"\n" * (-len(text) % 4))), ("a text that lies", LongBytes(text))):
        yield f"a text, {kind}", differs(parsolve.answer("solve", given), wanted)
    calls, export = [], parsolve._LIBRARY.parsolve_answer_new
    parsolve._LIBRARY.parsolve_answer_new = lambda *words: calls.append(export(*words)) or calls[-1]
    automaton = (TOP / "examples/arbiter.hoa").read_bytes()
    answer = parsolve.answer("synth", automaton)
    parsolve._LIBRARY.parsolve_answer_new = export
    yield "a long answer is made once", None if calls == [parsolve.OK] and len(answer) > len(automaton) + 4096 else f"{calls}, {len(answer)} bytes"


def imported(folder):
    """The Python module of the folder."""
    sys.dont_write_bytecode = True
    sys.path.insert(0, str(folder / "python"))
    import parsolve
    return parsolve


# ---- all of it

def untried():
    """Why the library isn't tried, or None: there is none and none may be proved now, or the tools that link it aren't installed."""
    found = case.fresh("parsolve_c")
    if isinstance(found, case.LeftOut):
        return None if case.IS_PROVING else found
    return None if "/release/" in found else case.lacking("cc", "ld", "ar", "objcopy")


def library(program):
    """The library of these sources, built or released; it is built first if tests may prove something."""
    if untried():
        yield "the library", untried()
        return
    with tempfile.TemporaryDirectory() as made:
        work, first, folder = pathlib.Path(made), pathlib.Path(made) / "first", pathlib.Path(made) / "a folder"
        why = ran([TOP / "build", "--library", first], timeout=7200)
        yield "./build --library", why
        if why is None:
            first.rename(folder)
            for part in (names_checks(folder), example_checks(folder, work), harness_checks(folder, work)):
                yield from part
            yield from same_answers(imported(folder), program)


Tests = case.tests(__name__, header_checks, library)
