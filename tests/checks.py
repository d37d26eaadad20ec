"""Checks of the built programs that aren't rows: random small games and schedules against the definitions, hard games against
plain lifting and a look at each edge, examples in the help, running out of memory."""
import os
import random
import re
import shlex
import socket
import subprocess
import tempfile

import case
import closed
import controllers
import limits
import naive
import refused
import rows as table
import serving

top = str(case.TOP)


def random_game(dice, priorities=range(5), most=6):
    """A game of at most `most` vertices, with identifiers that needn't be contiguous."""
    identifiers = dice.sample(range(12), dice.randint(1, most))
    return {v: (dice.choice(priorities), dice.randint(0, 1), dice.sample(identifiers, dice.randint(1, min(3, len(identifiers)))))
            for v in identifiers}


def hard_game(dice, count):
    """A game of many priorities and few edges, to vertices nearby or anywhere, on which measures climb far."""
    most, degree, is_local = dice.choice((count // 4, count // 2, count, 2 * count)), dice.randint(2, 3), dice.randint(0, 1)
    return {v: (dice.randint(0, most), dice.randint(0, 1),
                [(v + dice.randint(-4, 4)) % count if is_local else dice.randrange(count) for _ in range(dice.randint(1, degree))])
            for v in range(count)}


def answers_as_defined(program, command, text_of, make_game=random_game, count=150):
    """The program's answers on random games, with random numbers of workers, are those of the definitions. A game without
    such an answer is left out, and doesn't count."""
    dice = random.Random(1)
    while count > 0:
        game, workers = make_game(dice), dice.choice([[], ["--workers", str(dice.randint(0, 16))]])
        wanted = text_of(game)
        if wanted is None:
            continue
        count -= 1
        ran = subprocess.run([program, command, *workers], input=naive.game_text(game).encode(), capture_output=True, timeout=60)
        if ran.returncode != 0 or ran.stdout.decode() != wanted:
            return f"{command} {workers} on {naive.game_text(game)!r}: {ran.stdout!r}, wanted {wanted!r}"
    return None


def climbed_text(command, game, most=20_000):
    """The output of a command for a game, by at most `most` lifts of each side; None if these aren't enough."""
    try:
        if command == "measure":
            return naive.measures_text(naive.climbed(game, most))
        return naive.winners_text(naive.solution_of(game, lambda played: naive.climbed(played, most)))
    except naive.TooFar:
        return None


def workers_change_nothing(program, command, random_text, count=25):
    """Every number of workers gives the same bytes on random inputs, in the same process or in programs of their own."""
    dice = random.Random(3)
    options = [["--workers", str(workers)] for workers in range(17)]
    options += [["--workers", str(workers), "--apart", "/proc/self/exe"] for workers in (1, 2, 5)]
    for _ in range(count):
        text = random_text(dice)
        outputs = {subprocess.run([program, command, *words], input=text.encode(), capture_output=True,
                                  timeout=60, check=True).stdout.decode() for words in options}
        if len(outputs) != 1:
            return f"{command} on {text!r}: {sorted(outputs)!r}"
    return None


# an automaton of the words on which a recurs, and one of these words that doesn't satisfy F G a
RECURRING = b'HOA: v1\nStart: 0\nAP: 1 "a"\nAcceptance: 1 Inf(0)\n--BODY--\nState: 0\n[0] 0 {0}\n[!0] 0\n--END--\n'
DIFFERING = b"DIFFERS\nthe automaton accepts\nloop\na\n-\n"
WORKED_OUT = [("measure", "parity 1;\n0 1 0 0;\n1 3 0 0;\n", "0 T;\n1 T;\n"),
              ("solve", 'parity 2;\n0 0 1 0,1;\n1 1 1 1,2 "odd";\n2 2 0 0,2;\n', "paritysol 2;\n0 1 1;\n1 1 1;\n2 0 2;\n"),
              ("synth", refused.TURNS, "REALIZABLE\naag 1 0 1 1 0\n2 3\n3\no0 g\n")]


def workers_answer_as_worked_out(program):
    """Every number of workers in one process gives an answer that was worked out by hand."""
    for command, text, wanted in WORKED_OUT:
        for workers in range(17):
            ran = subprocess.run([program, command, "--workers", str(workers)], input=text, capture_output=True, text=True, timeout=60)
            if (ran.returncode, ran.stdout) != (0, wanted):
                return f"{command} by {workers} workers: status {ran.returncode}, {ran.stdout!r}, {ran.stderr!r}"
    return None


def large_game(dice):
    """The text of a game of up to sixty vertices, too large for a solver by the definitions."""
    count = dice.randint(20, 60)
    return naive.game_text({v: (dice.randint(0, 6), dice.randint(0, 1), dice.sample(range(count), dice.randint(1, 3)))
                            for v in range(count)})


def calm_game(dice):
    """The text of a game in which few vertices can rise, so that workers get these alone; without workers nobody does."""
    count = dice.randint(40, 200)
    return naive.game_text({v: (dice.choice((0, 0, 2, 4)) if dice.randint(0, 19) else dice.choice((1, 3)), dice.randint(0, 1),
                                [dice.randrange(count) if dice.randint(0, 3) else (v + 1) % count
                                 for _ in range(dice.randint(1, 3))]) for v in range(count)})


def near_game(dice):
    """The text of a large game whose edges lead to vertices nearby, mostly to later ones, and of which few have an odd priority.
    In most such games few vertices can rise, and workers in one process share them; others they solve in one piece."""
    count = dice.randint(4096, 5000)
    game = {}
    for v in range(count):
        priority = dice.choice((0,) * 60 + (1, 2, 3)) if v + 1 < count else 0
        later = range(v + priority % 2, min(v + 3, count))
        successors = dice.sample(later, min(dice.randint(1, 3), len(later)))
        if v and dice.randrange(200) == 0:
            successors.append(v - 1)
        game[v] = priority, dice.randint(0, 1), successors
    return naive.game_text(game)


def random_event(dice, game, script, made):
    """An event after `made` updates; few such events are refused."""
    workers, v = script[0], dice.choice(sorted(game))
    some, replica = dice.randint(1, max(workers, 1)), dice.randint(0, workers)
    if dice.randrange(80) == 0:
        return dice.choice([("lift", dice.randint(0, workers + 1), v), ("deliver", dice.randint(0, workers + 1), made),
                            ("restart", dice.choice([0, workers + 1]))])
    events = [("central", v)]
    if workers:
        events += [("lift", naive.worker_of(game, script, v), v)] * 5 + [("restart", some)]
    if made:
        events += [("deliver", replica, dice.randrange(made))] * 4
    return dice.choice(events)


def random_script(dice, game):
    """Workers, perhaps a cut, and up to fifty events; one more follows the first that is refused."""
    workers, events, ran = dice.choice([0, 1, 2, 3, 5, 16]), [], ([], [])
    cut = [dice.randint(1, workers) for _ in game] if workers and dice.randint(0, 1) else None
    for _ in range(dice.randint(0, 50)):
        events.append(random_event(dice, game, (workers, cut, events), len(ran[0])))
        ran = naive.replay(game, (workers, cut, events))
        if isinstance(ran, str):
            return workers, cut, [*events, ("central", min(game))]
    return workers, cut, events


# games at which Odd's best play for measures goes on from a vertex in two ways
TWICE = [{0: (1, 1, [1, 2]), 1: (3, 1, [3]), 2: (5, 1, [4]), 3: (4, 1, [0]), 4: (0, 0, [4])},
         {0: (0, 1, [1, 3]), 1: (1, 1, [2]), 2: (2, 0, [0]), 3: (3, 0, [4]), 4: (4, 0, [4])}]


def twice_game(dice):
    """Up to three of the games of TWICE, or of their duals, with an edge here and there from one to another and a change of a
    priority or of an owner."""
    game = {}
    for _ in range(dice.randint(1, 3)):
        part, first, more = dice.choice(TWICE), len(game), 2 * dice.randint(0, 2)
        part = naive.dual(part) if dice.randint(0, 3) == 0 else part
        game |= {first + v: (p + more, owner, [first + w for w in successors]) for v, (p, owner, successors) in part.items()}
    for _ in range(dice.randint(0, 3)):
        v, w = dice.choice(sorted(game)), dice.choice(sorted(game))
        p, owner, successors = game[v]
        game[v] = dice.choice([(p, owner, successors + [w]), (max(p + dice.choice((-2, -1, 1, 2)), 0), owner, successors),
                               (p, 1 - owner, successors)])
    return game


def games_of_two_vertices(priorities=range(4)):
    """Every game of two vertices of these priorities."""
    vertices = [(p, owner, successors) for p in priorities for owner in (0, 1) for successors in ([0], [1], [0, 1])]
    return [{0: first, 1: second} for first in vertices for second in vertices]


def all_small_games_as_defined(program, command, text_of):
    """The program's answers on every game of two vertices are those of the definitions."""
    for game in games_of_two_vertices():
        text, wanted = naive.game_text(game), text_of(game)
        ran = subprocess.run([program, command], input=text.encode(), capture_output=True, timeout=60)
        if ran.returncode != 0 or ran.stdout.decode() != wanted:
            return f"{command} on {text!r}: {ran.stdout!r}, wanted {wanted!r}"
    return None


def renamed_text(dice, game, to):
    """The game under other identifiers, its lines in any order, with a name on some."""
    lines = [f"{to[v]} {p} {owner} {','.join(str(to[w]) for w in successors)}" + dice.choice(("", ' "a;b"', ' "1 0"')) + ";\n"
             for v, (p, owner, successors) in game.items()]
    dice.shuffle(lines)
    return "".join(lines)


def names_change_nothing(program, command, count=40):
    """Under other identifiers, with names and with lines in another order the answer is the same; `solve` chooses by the order of
    identifiers, so there the order is kept."""
    dice = random.Random(5)
    for _ in range(count):
        game = hard_game(dice, dice.randint(2, 60))
        others = dice.sample(range(2**32), len(game))
        to = dict(zip(sorted(game), sorted(others) if command == "solve" else others))
        plain, other = (subprocess.run([program, command], input=text.encode(), capture_output=True, text=False, timeout=60, check=True)
                        .stdout.decode().splitlines() for text in (naive.game_text(game), renamed_text(dice, game, to)))
        if command == "solve":
            wanted = [" ".join([str(to[int(v)]), winner, *(str(to[int(w)]) for w in choice)])
                      for v, winner, *choice in (line.rstrip(";").split(" ") for line in plain[1:])]
        else:
            wanted = [f"{to[int(v)]} {shown}" for v, shown in (line.rstrip(";").split(" ") for line in plain)]
        found = [line.rstrip(";") for line in (other[1:] if command == "solve" else other)]
        if sorted(found) != sorted(wanted):
            return f"{command} on {naive.game_text(game)!r} under the identifiers {to}: {found}, wanted {wanted}"
    return None


def limited(program, kilobytes, *words):
    """The words of a command with this much address space."""
    return ["sh", "-c", f'ulimit -v {kilobytes}; exec "$0" "$@"', program, *words]


def many_priorities_in_a_gigabyte(program, count=65_536, kilobytes=1_000_000):
    """Games with as many priorities as there can be are solved in a gigabyte of address space: one with successors anywhere, whose
    solution is checked, and one cycle, whose greatest priority is odd, so that Odd wins everywhere."""
    dice = random.Random(6)
    anywhere = naive.game_text({v: (v, dice.randint(0, 1), [dice.randrange(count) for _ in range(dice.randint(1, 4))])
                                for v in range(count)})
    for words in (["solve"], ["solve", "--any"]):
        solved = subprocess.run(limited(program, kilobytes, *words), input=anywhere.encode(), capture_output=True, timeout=120)
        checked = subprocess.run(limited(program, kilobytes, "check"), input=anywhere.encode() + b"--\n" + solved.stdout,
                                 capture_output=True, timeout=120)
        if solved.returncode != 0 or checked.stdout != b"WINS\n":
            return f"{words}: status {solved.returncode}, {solved.stderr!r}, {checked.stdout!r}, {checked.stderr!r}"
    cycle = naive.game_text({v: (v, v % 2, [(v + 1) % count]) for v in range(count)})
    wanted = {"measure": "".join(f"{v} T;\n" for v in range(count)),
              "solve": f"paritysol {count - 1};\n" + "".join(f"{v} 1 {(v + 1) % count};\n" if v % 2 else f"{v} 1;\n" for v in range(count))}
    for command, answer in wanted.items():
        ran = subprocess.run(limited(program, kilobytes, command), input=cycle.encode(), capture_output=True, timeout=120)
        if ran.returncode != 0 or ran.stdout.decode() != answer:
            return f"{command} on a cycle: status {ran.returncode}, {ran.stderr!r}, {ran.stdout[:100]!r}"
    return None


def replays_as_defined(program, count=300):
    """The program's output for random schedules, or its reason to refuse an event, is that of the definitions."""
    dice = random.Random(2)
    refused = 0
    for _ in range(count):
        game = random_game(dice, (1, 1, 2, 3, 3, 4))
        script = random_script(dice, game)
        text = naive.game_text(game) + "--\n" + naive.script_text(script)
        defined = naive.replay(game, script)
        is_refused = isinstance(defined, str)
        refused += is_refused
        wanted = (1, "", defined) if is_refused else (0, naive.world_text(game, *defined), "")
        ran = subprocess.run([program, "replay"], input=text, capture_output=True, text=True, timeout=60)
        if (ran.returncode, ran.stdout, ran.stderr) != wanted:
            return f"replay on {text!r}: {ran.stdout!r} {ran.stderr!r}, wanted {wanted!r}"
    return None if 0 < refused < count / 2 else f"{refused} of {count} schedules were refused"


def controllers_as_defined(program, count=120):
    """The verdict of `synth` on random automata is right, and under its circuits every run is accepted."""
    dice = random.Random(2)
    for _ in range(count):
        why = controllers.check(program, controllers.random_automaton(dice))
        if why is not None:
            return why
    return None


def circuits_are_read(program):
    """An outside tool, if it is installed, reads the circuits of the examples."""
    if case.lacking("yosys"):
        return case.lacking("yosys")
    with tempfile.TemporaryDirectory() as folder:
        for name in ("request-grant", "owl-arbiter", "delay"):
            with open(os.path.join(top, "examples", f"{name}.hoa"), "rb") as file:
                line, _, circuit = subprocess.run([program, "synth"], stdin=file, capture_output=True).stdout.partition(b"\n")
            path = os.path.join(folder, f"{name}.aag")
            with open(path, "wb") as file:
                file.write(circuit)
            ran = subprocess.run(["yosys", "-q", "-p", f"read_aiger {path}; check -assert"], capture_output=True, timeout=60)
            if line != b"REALIZABLE" or ran.returncode != 0:
                return f"{name}: {line!r}, {ran.stdout!r}, {ran.stderr!r}"
    return None


def example_in_help(program, words):
    """The example in the help of a command, run at the top of the repository, gets an answer: the one in the help, if it shows one."""
    shown = subprocess.run([program, *words, "--help"], capture_output=True, text=True, timeout=60).stdout
    found = re.search(r"^Example: (.*?)(?:^prints (.*?))?\Z", shown, re.M | re.S)
    if found is None:
        return f"no example: {shown!r}"
    line, said = found.groups()
    line = re.sub(r"\bparsolve\b", lambda _: shlex.quote(program), line)
    ran = subprocess.run(["sh", "-c", line], cwd=top, capture_output=True, text=True, timeout=60)
    if ran.returncode != 0 or ran.stderr or not ran.stdout:
        return f"{line!r}: status {ran.returncode}, {ran.stdout!r}, {ran.stderr!r}"
    wanted = "".join(f"{it}\n" for it in re.findall("`([^`]*)`", said or ""))
    return None if said is None or ran.stdout == wanted else f"{line!r}: {ran.stdout!r}, the help says {wanted!r}"


def refuser(folder):
    """Compiles the object that refuses one growth of a program, and answers its path."""
    path = os.path.join(folder, "refuse.so")
    subprocess.run(["cc", "-shared", "-fPIC", "-O1", "-o", path, os.path.join(top, "tests/refuse.c"), "-ldl"], check=True)
    return path


def survives_want_of_memory(program, args, text, wanted):
    """The N-th growth is refused, for rising N until a run meets no refusal: each earlier run ends with status 1, no output
    and `out of memory`, or, if it could do without, with the right answer."""
    if case.lacking("cc"):
        return case.lacking("cc")
    with tempfile.TemporaryDirectory() as folder:
        preload = refuser(folder)
        for n in range(1, 10_000):
            met = os.path.join(folder, f"met-{n}")
            ran = subprocess.run([program, *args], input=text, capture_output=True, timeout=60,
                                 env={**os.environ, "LD_PRELOAD": preload, "REFUSE_AT": str(n), "REFUSE_MET": met})
            if ran.returncode == 0 and ran.stdout == wanted:
                if not os.path.exists(met):
                    return None if n > 1 else "no growth was refused"
            elif (ran.returncode, ran.stdout, ran.stderr) != (1, b"", b"parsolve: out of memory\n"):
                return f"growth {n} refused: status {ran.returncode}, {ran.stdout!r}, {ran.stderr!r}"
    return "no run met no refusal"


def survives_with_what_is_judged(program, args, text, judged):
    """The same for an answer that another command judges: `judged` gives its words, its input and the output that it must print."""
    answer = subprocess.run([program, *args], input=text, capture_output=True, timeout=60).stdout
    words, both, wanted = judged(answer)
    verdict = subprocess.run([program, *words], input=both, capture_output=True, timeout=60).stdout
    return survives_want_of_memory(program, args, text, answer) if verdict == wanted else f"{answer!r}: {verdict!r}"


def ends_by_name(program, limits, words, wanted):
    """Under each limit of the shell the answer comes, or the program says that memory ran out, or it can't be loaded; it isn't killed."""
    answered = 0
    for limit in limits:
        ran = subprocess.run(["sh", "-c", f'ulimit {limit}; exec "$0" "$@"', program, *words], cwd=top, capture_output=True, timeout=60,
                             stdin=subprocess.DEVNULL)
        answered += ran.returncode == 0
        is_told = (ran.returncode, ran.stdout, ran.stderr) == (1, b"", b"parsolve: out of memory\n") or ran.returncode in (126, 127)
        if not is_told and (ran.returncode, ran.stdout) != (0, wanted):
            return f"ulimit {limit}, {words}: status {ran.returncode}, {ran.stdout!r}, {ran.stderr!r}"
    return None if answered else f"{words} is answered under none of these limits"


def little_memory_is_told(program):
    """With little address space, or a short stack, the program says that memory ran out, and isn't killed."""
    least = os.path.getsize(program) // 1024 + 800  # under less the system can't map the program's file
    with tempfile.TemporaryDirectory() as folder:
        solution = os.path.join(folder, "solution")
        with open(solution, "wb") as file:
            file.write(b"0 0 1;\n1 0;\n")
        for words, wanted in ((["solve", "examples/two.pg"], b"paritysol 1;\n0 0 1;\n1 0;\n"), (["check", "examples/two.pg", solution], b"WINS\n")):
            for limits in ([f"-v {kilobytes}" for kilobytes in range(least, least + 4000, 4)], [f"-s {kilobytes}" for kilobytes in range(96, 256, 4)]):
                why = ends_by_name(program, limits, words, wanted)
                if why is not None:
                    return why
    return None


def files_are_input(program):
    """Files that the words name are the input, as bytes on standard input are: two files are its two texts, under one limit."""
    game, solution, most = b"parity 1;\n0 1 0 0,1;\n1 2 1 0;", b"0 0 1;\n1 0;\n", 268_435_456
    sound, long = (0, b"WINS\n", b""), (1, b"", b"parsolve: input is longer than 268435456 bytes\n")
    with tempfile.TemporaryDirectory() as folder:
        def file(name, text, blanks=0):
            with open(os.path.join(folder, name), "wb") as it:
                it.write(b" " * blanks + text)

        # a name with lines `--`, and such a line where none is allowed, which is a fault of the game
        file("named", game[:-1] + b' "\n--\n--\n0 0 0 0;\n--";'), file("lines", game + b"\n--\n")
        apart = (1, b"", b"parsolve: syntax error at byte %d\n" % len(game + b"\n"))
        file("2", game), file("ended", game + b"\n"), file("solution", solution), file("--help", game)
        file("script", b"workers 0;\n"), file("unended", b"parity 0;\n0 0 0")
        room = most - len(game + b"\n--\n" + solution)
        file("full", game, room), file("over", game, room + 1), file("whole", game, most - len(game))
        socket.socket(socket.AF_UNIX).bind(os.path.join(folder, "socket"))
        solved = (0, b"paritysol 1;\n0 0 1;\n1 0;\n", b"")
        for words, wanted in ((["check", "2", "solution"], sound), (["check", "ended", "solution"], sound),
                              (["check", "full", "solution"], sound), (["check", "over", "solution"], long),
                              (["solve", "whole"], solved), (["solve", "2", "--workers", "2"], solved),
                              (["solve", "--workers", "2", "./--help"], solved), (["solve", "--any", "2"], solved),
                              (["solve", "socket"], (1, b"", b"parsolve: cannot open socket: No such device or address (os error 6)\n")),
                              (["check", "named", "solution"], sound), (["check", "lines", "solution"], apart),
                              (["replay", "named", "script"], (0, b"replica 0 taken -;\n0 0;\n1 0;\n", b"")),
                              (["check", "solution", "2"], (1, b"", b"parsolve: syntax error at byte 5\n")),
                              (["check", "2", "2"], (1, b"", b"parsolve: syntax error at byte 0\n")),
                              (["check", "unended", "solution"], (1, b"", b"parsolve: syntax error at byte 15\n")),
                              (["solve", "--workers", "2"], (1, b"", b"parsolve: no vertex\n"))):
            ran = subprocess.run([program, *words], cwd=folder, stdin=subprocess.DEVNULL, capture_output=True, timeout=120)
            if (ran.returncode, ran.stdout, case.without_notes(ran.stderr)) != wanted:
                return f"{words}: status {ran.returncode}, {ran.stdout!r}, {ran.stderr!r}"
    return None


def example_game(program, name):
    """The game of an example: the file itself, or what `game` prints for an automaton."""
    with open(os.path.join(top, "examples", name), "rb") as file:
        text = file.read()
    if name.endswith(".hoa"):
        return subprocess.run([program, "game"], input=text, capture_output=True, timeout=60).stdout
    return text


def solution_loses(program, game, *words):
    """Why `check` doesn't call the solution sound that `solve` prints for a game, or None."""
    solved = subprocess.run([program, "solve", *words], input=game, capture_output=True, timeout=60)
    checked = subprocess.run([program, "check"], input=game + b"--\n" + solved.stdout, capture_output=True, timeout=60)
    is_won = solved.returncode == 0 and checked.stdout == b"WINS\n"
    return None if is_won else f"status {solved.returncode}, {checked.stdout!r}, {checked.stderr!r}"


def solutions_win(program):
    """`check` calls the solutions sound that `solve` and `solve --any` print for each example."""
    for name in ("two.pg", "mutex.pg", "grid.pg", "request-grant.hoa", "owl-arbiter.hoa"):
        for words in ([], ["--any"]):
            why = solution_loses(program, example_game(program, name), *words)
            if why is not None:
                return f"{name} {words}: {why}"
    return None


def winners_of(solution):
    """The winner of each vertex in a text of a solution."""
    return re.findall(r"^(\d+) ([01])", solution, re.M)


def any_solutions_win(program, games):
    """For games, each given as a text and a solution by which the winners are known, `solve --any` prints a solution with these winners,
    and `check` calls it sound."""
    for text, known in games:
        ran = subprocess.run([program, "solve", "--any"], input=text, capture_output=True, text=True, timeout=60)
        if winners_of(ran.stdout) != winners_of(known):
            return f"solve --any on {text!r}: {ran.stdout!r}, {ran.stderr!r}, the winners are those of {known!r}"
        why = solution_loses(program, text.encode(), "--any")
        if why is not None:
            return f"solve --any on {text!r}: {why}"
    return None


def solved_by_rows():
    """The games that `solve` answers in rows/, with their answers there."""
    return [(table.input_of(row).decode().rstrip("\n") + "\n", table.bytes_of(row, "stdout").decode()) for row in case.rows_in("solve.toml")["row"]
            if row["args"] == ["solve"] and "blanks" not in row and ("stdout" in row or "stdout_file" in row)]


def solved_by_definition(games):
    """Games with their solutions by the definitions."""
    return ((naive.game_text(game), naive.solution_text(game)) for game in games)


def climbed_games(dice, count):
    """Hard games with their solutions by plain lifting, if that ends."""
    while count > 0:
        game = hard_game(dice, dice.randint(20, 50))
        known = climbed_text("solve", game)
        if known is not None:
            count -= 1
            yield naive.game_text(game), known


def solved_games():
    """(the kind of games, a call that makes them, with solutions) for `solve --any`."""
    yield "the games of rows", lambda dice: solved_by_rows()
    yield "random games", lambda dice: solved_by_definition(random_game(dice) for _ in range(100))
    yield "random games of many priorities", lambda dice: solved_by_definition(random_game(dice, range(13), 8) for _ in range(100))
    yield "every game of two vertices", lambda dice: solved_by_definition(games_of_two_vertices())
    yield "hard games on which plain lifting ends", lambda dice: climbed_games(dice, 60)


def hard_games_are_solved(program, size, count=5):
    """On hard games of `size` vertices, the measures that are printed are closed maps, of which one has a list at each vertex, and the
    solution is sound; so is that of `solve --any`."""
    dice = random.Random(4)
    for number in range(count):
        game = hard_game(dice, size)
        text = naive.game_text(game).encode()
        why = closed.check(program, game) or solution_loses(program, text) or solution_loses(program, text, "--any")
        if why is not None:
            return f"hard game {number}: {why}"
    return None


def row_lines(first, count, priority):
    """A row of Even's vertices of one priority, each with the next one as its successor and the last with itself: its lines in
    a game, and in a solution. Even wins them all, by going on, exactly if the priority is even."""
    nexts = [(v, min(v + 1, first + count - 1)) for v in range(first, first + count)]
    game = [f"{v} {priority} 0 {w};\n" for v, w in nexts]
    return game, [f"{v} 0 {w};\n" if priority % 2 == 0 else f"{v} 1;\n" for v, w in nexts]


def any_solution_survives(program, text):
    """The solution that `solve --any` prints for a game is sound; if memory runs out, it prints the same or nothing."""
    solved = subprocess.run([program, "solve", "--any"], input=text, capture_output=True, timeout=60).stdout
    return solution_loses(program, text, "--any") or survives_want_of_memory(program, ["solve", "--any"], text, solved)


def long_rows_as_worked_out(program, count=1000):
    """Measures climb far along a row of odd priority in the game, along one of even priority in its dual, and along both in
    both; so each way to find the halves of a solution is taken."""
    for rows in ([(0, 1)], [(0, 2)], [(0, 1), (count, 2)]):
        parts = [row_lines(first, count, priority) for first, priority in rows]
        game, wanted = ("".join(line for part in parts for line in part[which]) for which in (0, 1))
        wanted = f"paritysol {count * len(rows) - 1};\n" + wanted
        for words in ([], ["--workers", "0"], ["--workers", "5"]):
            ran = subprocess.run([program, "solve", *words], input=game.encode(), capture_output=True, timeout=120)
            if ran.returncode != 0 or ran.stdout.decode() != wanted:
                return f"solve {words} on rows {rows}: status {ran.returncode}, {ran.stdout[:200]!r}"
    return None


def rings_and_loops(count=300_000, nested=4001):
    """(Odd's vertices, each by its priority and successors, the priority of the bad cycle and its length, or None if Even wins
    all): rings, whose first vertex has another priority, and loops in loops, where the way back from an even vertex is good."""
    for first, others, bad in ((2, 1, None), (3, 2, (3, count))):
        yield [(others if v else first, [(v + 1) % count]) for v in range(count)], bad
    for back, bad in ((0, None), (nested // 2 + 1, (nested // 2 + 1, nested // 2 + 2))):
        yield [(v, [(v + 1) % nested, *([0] if v % 2 == 0 or v == back else [])]) for v in range(nested)], bad


def cycle_in(verdict):
    """The priority of a bad cycle, and how many vertices it has, if it names none twice."""
    found = re.fullmatch(r"CYCLE (\d+) ([\d,]+)\n", verdict)
    names = found[2].split(",") if found else []
    return (int(found[1]), len(names)) if found and len(set(names)) == len(names) else None


def long_cycles_are_judged(program):
    """On long cycles the verdict is that Even wins, or names a bad one whole, and no stack gets deep."""
    for vertices, bad in rings_and_loops():
        text = naive.game_text({v: (priority, 1, successors) for v, (priority, successors) in enumerate(vertices)})
        solution = "".join(f"{v} 0;\n" for v in range(len(vertices)))
        ran = subprocess.run([program, "check"], input=f"{text}--\n{solution}", capture_output=True, text=True, timeout=120)
        if cycle_in(ran.stdout) != bad or (bad is None and ran.stdout != "WINS\n"):
            return f"check on {text[:60]!r}..: status {ran.returncode}, {ran.stdout[:100]!r}, {ran.stderr!r}, wanted {bad}"
    return None


def label_of(number, bits):
    """The label of the letters whose first bits are those of the number."""
    return "&".join(["t", *(f"{'' if number >> bit & 1 else '!'}{bit}" for bit in range(bits))])


def largest_games():
    """(automaton, how many vertices and edges its game has, or None if it is too large by one), by the definition of the game."""
    # dead, the initial arrival, those that the letters lead to, and sixteen answers of each state
    head = 'HOA: v1 States: 65535 Start: 0 AP: 4 "a" "b" "c" "d" Acceptance: 0 t --BODY-- State: 0 '
    for arrivals, size in ((14, (1_048_576, 1_048_801)), (15, None)):
        yield head + " ".join(f"[{label_of(it, 4)}] {it + 1}" for it in range(arrivals)) + " --END--", size
    # 224 arrivals and 31 states with 32,768 input letters each; at state 2 an answer can lead to two places
    head = "HOA: v1 States: 31 Start: 0 AP: 16 " + " ".join(f'"{it}"' for it in "abcdefghijklmnop") + " controllable-AP: 15 Acceptance: 7 " \
        "Inf(6) | (Fin(5) & (Inf(4) | (Fin(3) & (Inf(2) | (Fin(1) & Inf(0)))))) --BODY-- State: 1 "
    edges = " ".join(f"[{label_of(it, 15)}] {it // 8} {f'{{{it % 8 - 1}}}' if it % 8 else ''}" for it in range(1, 224))
    both = "15&!(" + "&".join(map(str, range(15))) + ")"
    for last, size in ((both, (1_016_033, 8_388_608)), ("15", None)):
        yield f"{head}{edges} State: 2 [{last}] 0 --END--", size


def games_are_limited(program):
    """The largest games are printed, and those that are too large by a vertex or an edge refused."""
    for automaton, size in largest_games():
        ran = subprocess.run([program, "game"], input=automaton.encode(), capture_output=True, timeout=120)
        found = (ran.stdout.count(b";") - 1, ran.stdout.count(b",") + ran.stdout.count(b";") - 1) if ran.returncode == 0 else None
        if found != size or size is None and case.without_notes(ran.stderr) != b"parsolve: game of the automaton too large\n":
            return f"{automaton[:60]}..: {found}, and not {size}; {ran.stderr!r}"
    return None


def cases(program):
    """(name, check) of each check."""
    game = b"parity 2;\n0 1 0 1;\n1 3 0 2;\n2 4 0 0;\n"
    three = b"parity 2;\n0 0 1 0,1;\n1 1 1 1,2 \"odd\";\n2 2 0 0,2;\n"
    solution = b"paritysol 2;\n0 1 1;\n1 1 1;\n2 0 2;\n"
    odd = b"parity 1;\n0 1 0 0;\n1 3 0 0;\n"
    script = b"--\nworkers 2;\ncut 1,2;\nlift 1 0;\nlift 2 1;\ndeliver 0 1;\nrestart 1;\ndeliver 1 0;\ncentral 0;\n"
    world = (b"update 0 0 0,1;\nupdate 1 1 1,0;\nupdate 2 0 0,1;\nreplica 0 taken 1,2;\n0 0,1;\n1 1,0;\n"
             b"replica 1 taken 0;\n0 0,1;\n1 0,0;\nreplica 2 taken 1;\n0 0,0;\n1 1,0;\n")
    automaton = (b'HOA: v1\nStart: 0\nAP: 1 "g"\ncontrollable-AP: 0\nAcceptance: 1 Inf(0)\n--BODY--\n'
                 b"State: 0\n[0] 1 {0}\nState: 1\n[!0] 0 {0}\n--END--\n")
    automaton_game = (b'parity 6;\n0 1 1 0 "dead";\n1 1 1 3 "s0";\n2 2 1 3 "s0/0";\n3 0 0 0,5 "s0:0";\n'
                      b'5 2 1 6 "s1/0";\n6 0 0 0,2 "s1:0";\n')
    delay = (b'HOA: v1\nStart: 0\nAP: 2 "r" "g"\ncontrollable-AP: 1\nAcceptance: 2 Fin(1) & Inf(0)\n--BODY--\nState: 0\n'
             b"[!0&!1] 0 {0}\n[0&!1] 1 {0}\nState: 1\n[!0&1] 0 {0}\n[0&1] 1 {0}\n--END--\n")
    circuit = (b"REALIZABLE\naag 8 1 1 1 6\n2\n4 15\n17\n6 5 3\n8 5 2\n10 4 3\n12 4 2\n14 13 9\n16 13 11\n"
               b"i0 r\no0 g\n")
    yield "the largest games of automata", lambda: games_are_limited(program)
    yield "measure on random games", lambda: answers_as_defined(program, "measure", naive.measure_text)
    yield "solve on random games", lambda: answers_as_defined(program, "solve", naive.solution_text)
    for command in ("measure", "solve"):
        text_of = naive.measure_text if command == "measure" else naive.solution_text
        yield (f"{command} on random games of many priorities", lambda c=command, t=text_of:
               answers_as_defined(program, c, t, lambda dice: random_game(dice, range(13), 8)))
        yield (f"{command} on every game of two vertices", lambda c=command, t=text_of:
               all_small_games_as_defined(program, c, t))
        yield (f"{command} on games at which Odd goes on in two ways", lambda c=command:
               answers_as_defined(program, c, lambda game: climbed_text(c, game), twice_game))
        yield f"{command} under other identifiers", lambda c=command: names_change_nothing(program, c)
        yield (f"{command} on hard games on which plain lifting ends", lambda c=command:
               answers_as_defined(program, c, lambda game: climbed_text(c, game),
                                  lambda dice: hard_game(dice, dice.randint(20, 50)), count=60))
        for size, count in ((100, 3), (300, 2), (1000, 1)):
            yield (f"{command} on hard games of {size} vertices, by every number of workers",
                   lambda c=command, n=size, count=count: workers_change_nothing(
                       program, c, lambda dice: naive.game_text(hard_game(dice, n)), count))
        yield f"{command} by every number of workers", lambda c=command: workers_change_nothing(program, c, large_game)
        yield (f"{command} where few vertices can rise, by every number of workers",
               lambda c=command: workers_change_nothing(program, c, calm_game))
        yield (f"{command} where edges lead to vertices nearby, by every number of workers",
               lambda c=command: workers_change_nothing(program, c, near_game, count=5))
    yield "answers that were worked out, by every number of workers", lambda: workers_answer_as_worked_out(program)
    yield ("synth by every number of workers", lambda: workers_change_nothing(
        program, "synth", lambda dice: controllers.automaton_text(controllers.random_automaton(dice))))
    yield "replay on random schedules", lambda: replays_as_defined(program)
    yield "solutions of the examples", lambda: solutions_win(program)
    yield "65,536 priorities in a gigabyte", lambda: many_priorities_in_a_gigabyte(program)
    for size in (100, 300, 1000):
        yield f"hard games of {size} vertices", lambda n=size: hard_games_are_solved(program, n)
    yield "synth on random automata", lambda: controllers_as_defined(program)
    for what, games in solved_games():
        yield f"solve --any on {what}", lambda make=games: any_solutions_win(program, make(random.Random(8)))
    yield "solve on long rows", lambda: long_rows_as_worked_out(program)
    yield "files as input", lambda: files_are_input(program)
    yield "little memory", lambda: little_memory_is_told(program)
    yield "misplaced tokens", lambda: refused.misplaced_tokens(program)
    yield "frames to a worker program", lambda: serving.check(program)
    yield "texts that end too early", lambda: refused.texts_that_end_too_early(program)
    for what, games in (("vertices", limits.games_of_many_vertices), ("edges", limits.games_of_many_edges)):
        yield f"games of as many {what} as there can be, and of more", lambda g=games: limits.of_games(program, g())
    yield "automata at the limits and just over them", lambda: limits.of_automata(program)
    yield "check on long cycles and on loops in loops", lambda: long_cycles_are_judged(program)
    for words in ([], ["measure"], ["solve"], ["check"], ["replay"], ["automaton"], ["means"], ["game"], ["synth"]):
        yield f"the example in {' '.join([*words, '--help'])}", lambda w=words: example_in_help(program, w)
    yield "circuits of the examples", lambda: circuits_are_read(program)
    # Even's vertices in a row; Even wins from the last one, and one in 40 of those before it has priority 1: so a measure is how
    # many of these come later. Two workers share the game of 250 vertices, half of it each; that of 5,000 is solved in one piece
    rows = {count: "".join(f"{v} {int(v % 40 == 39 and v < count - 1)} 0 {min(v + 1, count - 1)};\n"
                           for v in range(count)).encode() for count in (250, 5000)}
    counts = {count: b"".join(b"%d %d;\n" % (v, len(range(v + (39 - v) % 40, count - 1, 40))) for v in range(count))
              for count in rows}
    # the program as LLVM builds it gets its memory from malloc and realloc alone
    for what, text, wanted in (("measure", game, b"0 1,1;\n1 1,0;\n2 0,0;\n"), ("solve", three, solution),
                               ("measure of a row by two workers", rows[250], counts[250]),
                               ("measure of a long row", rows[5000], counts[5000]),
                               ("solve --any", three, solution), ("solve --any of one parity", odd, b"paritysol 1;\n0 1;\n1 1;\n"),
                               ("check", three + b"--\n" + solution, b"WINS\n"), ("replay", odd + script, world),
                               ("game", automaton, automaton_game), ("synth", delay, circuit),
                               ("verify", delay + b"--\n" + circuit, b"ACCEPTED\n"),
                               ("means", RECURRING + b"--\nG F a", b"SAME\n"), ("means", RECURRING + b"--\nF G a", DIFFERING)):
        command = what.partition(" of ")[0].split()
        yield f"running out of memory in {what}", lambda c=command, t=text, w=wanted: survives_want_of_memory(program, c, t, w)
    yield "running out of memory in automaton", lambda: survives_with_what_is_judged(
        program, ["automaton"], b"G (a -> F b)", lambda text: [["means"], text + b"--\nG (a -> F b)", b"SAME\n"])
    yield "running out of memory in synth --small", lambda: survives_with_what_is_judged(
        program, ["synth", "--small"], delay, lambda text: [["verify"], delay + b"--\n" + text, b"ACCEPTED\n"])
    foresight = (case.TOP / "examples/foresight.hoa").read_bytes()
    yield "running out of memory in synth --counter", lambda: survives_with_what_is_judged(
        program, ["synth", "--counter"], foresight,
        lambda text: [["verify", "--environment"], foresight + b"--\n" + text, b"REFUTES\n"])
    # a game that takes some 60,000 plain lifts, and for which jumps are made in the game and in its dual
    hard = hard_game(random.Random(167), 60)
    for command in ("measure", "solve"):
        yield f"running out of memory in {command} of a hard game", lambda c=command: survives_want_of_memory(
            program, [c], naive.game_text(hard).encode(), climbed_text(c, hard, most=200_000).encode())
    yield "running out of memory in solve --any of a hard game", lambda t=naive.game_text(hard).encode(): any_solution_survives(program, t)
    # one game at which Odd goes on in two ways above another one
    twice = {5 * k + v: (p + 6 * k, owner, [5 * k + w for w in successors] + [5 * (1 - k)] * (v == 3 and k == 0))
             for k, part in enumerate(TWICE) for v, (p, owner, successors) in part.items()}
    for command in ("measure", "solve"):
        yield f"running out of memory in {command} where Odd goes on in two ways", lambda c=command: survives_want_of_memory(
            program, [c], naive.game_text(twice).encode(), climbed_text(c, twice).encode())
    apart = ["measure", "--workers", "1", "--apart", "/proc/self/exe"]
    yield "running out of memory with --apart", lambda: survives_want_of_memory(program, apart, game, b"0 1,1;\n1 1,0;\n2 0,0;\n")


def named():
    """The same; if there is no program, each is left out."""
    if case.PROGRAM is None:
        return [("nothing", lambda: case.LeftOut("no program is of these sources"))]
    return cases(case.PROGRAM)


Tests = case.tests_by_name(__name__, named())
