#!/usr/bin/env python3
"""Automata of any size, the same on every machine.

    bench/random_automata.py STATES PROPOSITIONS SETS [SEED]      prints a complete deterministic automaton with a parity
                                                           condition on its edges; the first half of the propositions is
                                                           controllable
    bench/random_automata.py --labels BYTES PROPOSITIONS LITERALS [SEED]
                                                           prints an automaton of one state with this many bytes of edges that
                                                           lead back to it, whose labels are sums of this many literals,
                                                           or `f` if there are none
"""
import sys

from families import Dice


def header(states, propositions, sets):
    names = " ".join(f'"p{k}"' for k in range(propositions))
    controllable = " ".join(map(str, range(propositions // 2)))
    yield "HOA: v1"
    yield f"States: {states}"
    yield "Start: 0"
    yield f"AP: {propositions} {names}"
    yield f"controllable-AP: {controllable}"
    yield f"acc-name: parity max even {sets}"
    yield f"Acceptance: {sets} {condition(sets)}"
    yield "--BODY--"


def condition(sets):
    """The condition that the greatest set that recurs is even."""
    said = "Inf(0)"
    for k in range(1, sets):
        said = f"Inf({k}) | ({said})" if k % 2 == 0 else f"Fin({k}) & ({said})"
    return said


def label(letter, propositions):
    return " & ".join(("" if letter >> k & 1 else "!") + str(k) for k in range(propositions))


def write(out, states, propositions, sets, seed=1):
    """Each state has an edge for each letter, with any target and at most one set."""
    dice = Dice(seed)
    for line in header(states, propositions, sets):
        out.write(line + "\n")
    for state in range(states):
        out.write(f"State: {state}\n")
        for letter in range(2**propositions):
            met = dice.below(sets + 1)
            mark = f" {{{met}}}" if met < sets else ""
            out.write(f"[{label(letter, propositions)}] {dice.below(states)}{mark}\n")
    out.write("--END--\n")


def write_labels(out, size, propositions, literals, seed=1):
    """One state, and edges from it to itself: the same letters get the same step again and again."""
    dice = Dice(seed)
    for line in header(1, propositions, 1):
        out.write(line + "\n")
    out.write("State: 0\n")
    written = 0
    while written < size:
        said = " | ".join("!" * dice.below(2) + str(dice.below(propositions)) for _ in range(literals)) or "f"
        written += out.write(f"[{said}] 0\n")
    out.write("--END--\n")


if __name__ == "__main__":
    labels = sys.argv[1:2] == ["--labels"]
    numbers = sys.argv[1 + labels:]
    if len(numbers) not in (3, 4):
        sys.exit(__doc__)
    (write_labels if labels else write)(sys.stdout, *map(int, numbers))
