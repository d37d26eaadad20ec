"""Checks that no game of the benches is lifted to its end: gives some games of each family of bench/families.py, other gadgets in each run,
and games of automata of bench/random_automata.py to the program `certified`, which reports how their least progress measures are found."""
import io
import secrets
import subprocess
import sys

import case
from case import TOP

sys.path.insert(0, str(TOP / "bench"))
import families  # noqa: E402
import random_automata  # noqa: E402

# family and sizes, and perhaps a seed; for automata the states, propositions and sets
CASES = """
few 1000000 100
few 1000000 1000
ring 60000 65536
few 100000 65536
few 100000 1000
bipartite 100000 1000
bipartite_wide 30000 20000
geometric 100000 12
lists 1024 0
switches 192 0
switches 192 1
two_ladders 640 0
two_ladders 1280 0
rounds 34 0
rounds 256 0
looks 112 0
looks 256 0
regions 96 0
regions 192 0
settled 50000 4
climb 7 8
climbers 20 500
jurdzinski 30 30
ladder 25000 0
clique 300 0
recladder 500 0
elevator 600 20
sparse 50000 40
sparse 50000 1000
random 50000 1
random 50000 3
random 50000 30
random 20000 20000
chain 50000 10
grid 200 6
wide 50000 200
hubs 50000 20
loops 50000 4
repeats 1000 4
hard 300 0
hard 1000 0
hard 5000 0
hard 20000 0
hard 20000 0 2
priorities 65536 64
priorities 16384 8192
steps 9000 0
spread 50000 20
two_ladders 80 0
maze 1280 5
flat_hub 50000 0
rising_hub 50000 0
friedmann 100 0
twice 2560 0
path 64000 0
ring 60000 1000
memory 1280 0
longway 400 40
longway 8000 250
budget 200 0
even 200 0
automaton 2000 3 2
automaton 500 4 12
"""
# one lift closes the map of the first; in the second all vertices are top, and in its dual zero; in the third Odd goes on in two ways
SMALL = ["parity 1;\n0 1 0 0,1;\n1 2 1 0;\n", "".join(f"{v} 1 0 {v};\n" for v in range(20)),
         "0 1 1 1,2;\n1 3 1 3;\n2 5 1 4;\n3 4 1 0;\n4 0 0 4;\n"]
GADGETS = 2000
FOUND = "measure certified\nsolve certified\n"


def automaton_game(parsolve, numbers):
    """The text of the game of an automaton."""
    text = io.StringIO()
    random_automata.write(text, *numbers)
    return subprocess.run([parsolve, "game"], input=text.getvalue(), capture_output=True, text=True, check=True, timeout=120).stdout


def game_of(parsolve, family, numbers):
    """The text of a game."""
    if family == "automaton":
        return automaton_game(parsolve, numbers)
    if family == "small":
        return SMALL[next(numbers)]
    text = io.StringIO()
    families.write(text, family, *numbers)
    return text.getvalue()


def fault(certified, parsolve, case):
    """Why the measures of a case's game aren't found as they should be, or None."""
    family, *numbers = case.split()
    try:
        game = game_of(parsolve, family, map(int, numbers))
        ran = subprocess.run([certified], input=game, capture_output=True, text=True, timeout=600)
    except (OSError, subprocess.SubprocessError) as why:
        return str(why)
    return None if (ran.returncode, ran.stdout) == (0, FOUND) else f"status {ran.returncode}: {ran.stdout!r} {ran.stderr!r}"


def untried(cases):
    """Why the cases aren't all that there should be, or None."""
    names = set(families.FAMILIES) - {case.split()[0] for case in cases}
    return f"no case of {' or '.join(sorted(names))}" if names else None


def tried(cases):
    """Why a case fails, by its name, or None; if `certified` isn't built, nothing is tried."""
    certified = case.fresh("certified")
    if isinstance(certified, case.LeftOut):
        raise certified
    whys = ((name, fault(certified, case.PROGRAM, name)) for name in cases)
    return next((f"{name}: {why}" for name, why in whys if why), None)


def named():
    """(what is tried, the call)."""
    seed = secrets.randbelow(2**32)
    cases = [*CASES.strip().split("\n"), *(f"small {number}" for number in range(len(SMALL)))]
    yield "every family", lambda: untried([*cases, "gadget"])
    yield from ((it, lambda it=it: tried([it])) for it in cases)
    for first in range(seed, seed + GADGETS, 100):
        yield f"gadgets of the seeds from {first} on", lambda first=first: tried(f"gadget 21 7 {first + i}" for i in range(100))


Tests = case.tests_by_name(__name__, named())
