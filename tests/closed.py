#!/usr/bin/env python3
"""Checks that `measure` prints closed maps for a game and for its dual, of which exactly one has a list at each vertex. That
takes one look at each edge, so games can be large; the words are those of naive.py.

    tests/closed.py PROGRAM < GAME      says why not, or nothing
"""
import subprocess
import sys

import naive


def read_game(text):
    """A game as it is printed, with no names."""
    game = {}
    for line in text.splitlines():
        if not line.startswith("parity"):
            v, p, owner, successors = line.rstrip(";").split(" ")
            game[int(v)] = int(p), int(owner), [int(w) for w in successors.split(",")]
    return game


def read_measures(text):
    """Vertices and their measures, in the order in which they are printed."""
    for line in text.splitlines():
        v, shown = line.rstrip(";").split(" ")
        yield int(v), naive.TOP if shown == "T" else [int(x) for x in shown.split(",") if x != "-"]


def fits(bounds, m):
    return m is naive.TOP or len(m) == len(bounds) and all(0 <= x <= most for x, (_, most) in zip(m, bounds))


def why_open(game, text):
    """Why printed measures aren't a closed map of the game within its bounds, or None."""
    listed, bounds = list(read_measures(text)), naive.bounds_of(game)
    if [v for v, _ in listed] != sorted(game):
        return "other vertices"
    f = dict(listed)
    for v, (p, owner, successors) in game.items():
        if not fits(bounds, f[v]):
            return f"vertex {v} has a measure outside the bounds"
        some_or_all = any if owner == 0 else all
        if not some_or_all(naive.covers(bounds, p, f[v], f[w]) for w in successors):
            return f"vertex {v} isn't served"
    return None


def check(program, game):
    """Why what `measure` prints for a game and for its dual is wrong, or None."""
    tops = []
    for name, played in (("the game", game), ("the dual", naive.dual(game))):
        ran = subprocess.run([program, "measure"], input=naive.game_text(played).encode(), capture_output=True, timeout=120)
        text = ran.stdout.decode()
        why = why_open(played, text) if ran.returncode == 0 else f"status {ran.returncode}, {ran.stderr!r}"
        if why is not None:
            return f"{name}: {why}"
        tops.append({v for v, m in read_measures(text) if m is naive.TOP})
    both = min(tops[0] & tops[1], default=None)
    neither = min(game.keys() - tops[0] - tops[1], default=None)
    if both is not None:
        return f"vertex {both} has top in both"
    return None if neither is None else f"vertex {neither} has a list in both"


if __name__ == "__main__":
    if len(sys.argv) != 2:
        sys.exit(__doc__)
    sys.exit(check(sys.argv[1], read_game(sys.stdin.read())))
