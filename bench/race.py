#!/usr/bin/env python3
"""Times a program beside others that solve games: the processor seconds and the peak memory of its `solve`, `solve --any`, `measure` and
`check`, and of each other program on the same games. The last columns say how many times the seconds and the memory of the quickest other
program `solve` takes, and `solve --any`.

    bench/race.py PROGRAM [OTHER..] [--only WORD] [--repeats N] [--limit SECONDS]

OTHER is a command line, as one word, that reads a game and prints a solution, such as 'other solve'. A run over the limit of processor
seconds is late, and so is a check without a solution. A solution that PROGRAM's `check` doesn't call sound is WRONG, whichever
program printed it. The quickest of the runs counts. WORD picks the cases whose names contain it; the games are those of families.py.
"""
import argparse
import os
import shlex
import subprocess
import sys
import tempfile

from bench import here, once

# family and sizes, and perhaps a seed
CASES = """
settled 1000000 4
loops 1000000 4
elevator 12500 20
grid 1000 6
chain 1000000 10
ladder 500000 0
hubs 1000000 20
wide 1000000 200
sparse 1000000 40
sparse 1000000 1000
sparse 1000000 4000
spread 1000000 20
random 1000000 1
random 1000000 3
random 1000000 30
random 200000 100
random 20000 20000
random 65000 65000
few 100000 1000
few 100000 50000
few 1000000 4
few 1000000 1000
hard 1000 0
hard 5000 0
hard 20000 0
clique 2000 0
climb 7 8
steps 9000 0
steps 36000 0
recladder 2000 0
two_ladders 80 0
jurdzinski 30 30
priorities 65536 64
priorities 65536 1024
priorities 65536 32768
priorities 700000 128
friedmann 100 0
regions 192 0
memory 5120 0
maze 1280 5
budget 200 0
even 200 0
flat_hub 1000000 0
rising_hub 1000000 0
geometric 1000000 12
bipartite 100000 1000
bipartite_wide 100000 60000
lists 1024 0
longway 8000 250
"""


def options():
    words = argparse.ArgumentParser(description=__doc__, formatter_class=argparse.RawDescriptionHelpFormatter)
    words.add_argument("program")
    words.add_argument("others", nargs="*", type=shlex.split)
    words.add_argument("--only", default="")
    words.add_argument("--repeats", type=int, default=2)
    words.add_argument("--limit", type=int, default=20)
    return words.parse_intermixed_args()


class Race:
    """One case: a game in a file, and the solutions that programs print for it."""

    def __init__(self, given, folder, sizes):
        self.given, self.game, self.text = given, os.path.join(folder, "game"), os.path.join(folder, "text")
        self.solution = os.path.join(folder, "solution")
        with open(self.game, "wb") as out:
            subprocess.run([sys.executable, os.path.join(here, "families.py"), *sizes], stdout=out, check=True)

    def best(self, words, source):
        """The quickest of the runs, or None if one is late."""
        runs = []
        for _ in range(self.given.repeats):
            runs.append(once(words, source, self.given.limit))
            if runs[-1] is None:
                return None
        return min(runs)

    def check(self, words):
        """The figures of `check` on what a program prints for the game, or None if it isn't called sound."""
        with open(self.game, "rb") as game, open(self.solution, "wb") as out:
            subprocess.run(words, stdin=game, stdout=out, stderr=subprocess.DEVNULL, check=True)
        with open(self.text, "wb") as out:
            subprocess.run(["sh", "-c", 'cat "$1"; echo --; cat "$2"', "sh", self.game, self.solution], stdout=out, check=True)
        with open(self.text, "rb") as text:
            said = subprocess.run([self.given.program, "check"], stdin=text, stdout=subprocess.PIPE, stderr=subprocess.DEVNULL)
        return self.best([self.given.program, "check"], self.text) if said.stdout == b"WINS\n" else None

    def solve(self, words):
        """(the figures of a program that solves the game or None if it is late, those of `check` or None, whether it is wrong)"""
        solved = self.best(words, self.game)
        checked = solved and self.check(words)
        return solved, checked, bool(solved) and not checked


def figures(ran, is_wrong=False):
    if ran is None or is_wrong:
        return f"{'WRONG' if is_wrong else 'late':>8} {'-':>6}"
    return f"{ran[0]:8.3f} {ran[2]:6.0f}"


def times(ran, quickest):
    """How many times the seconds and the memory of the quickest other a run takes."""
    return f"{ran[0] / max(quickest[0], 0.001):7.1f} {ran[2] / quickest[2]:7.1f}" if ran else f"{'-':>7} {'-':>7}"


def row(race, given):
    found, _, is_found_wrong = race.solve([given.program, "solve", "--any"])
    solved, checked, is_wrong = race.solve([given.program, "solve"])
    cells = [figures(solved, is_wrong), figures(found, is_found_wrong), figures(race.best([given.program, "measure"], race.game)),
             figures(checked)]
    others = []
    for words in given.others:
        other, _, is_other_wrong = race.solve(words)
        cells.append(figures(other, is_other_wrong))
        if other and not is_other_wrong:
            others.append(other)
    if others:
        cells += [times(solved, min(others)), times(found, min(others))]
    return " | ".join(cells)


def main():
    given = options()
    names = ["solve", "--any", "measure", "check", *(words[-1][:8] for words in given.others)]
    print(" | ".join([f"{'case':24}", *(f"{name:>8} {'MB':>6}" for name in names)] + [f"{'times':>7} {'memory':>7}"] * (2 * bool(given.others))))
    for case in CASES.strip().split("\n"):
        if given.only in case:
            with tempfile.TemporaryDirectory() as folder:
                print(f"{case:24} | {row(Race(given, folder, case.split()), given)}", flush=True)


if __name__ == "__main__":
    main()
