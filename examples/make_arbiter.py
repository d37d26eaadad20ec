#!/usr/bin/env python3
"""Prints examples/arbiter.hoa: an arbiter of four clients that share a resource, as a deterministic automaton.

Client c asks with `request_c`, which the environment sets, and is served by `grant_c`, which the controller sets. A client
that asks waits until it is served, and nobody waits forever. At most one client is served in a step, and only one that
asks or waits; a step that breaks this has no edge.

A state says who waits, and whose turn it is. The turn stays with a client until it is served, and then goes round to the next
one that waits. Set 0 is on each edge with which the turn goes on, or after which nobody waits: so it recurs exactly if
nobody waits forever.
"""
import itertools

COUNT = 4
HEAD = """HOA: v1
name: "each request is granted in the end, one at a time"
States: {states}
Start: 0
AP: {count} {names}
acc-name: Buchi
Acceptance: 1 Inf(0)
properties: trans-labels explicit-labels trans-acc deterministic
controllable-AP: {own}
--BODY--"""


def turn_after(turn, waiting):
    """The first client from this one on, going round, that waits; None if nobody does."""
    return next((c % COUNT for c in range(turn, turn + COUNT) if c % COUNT in waiting), None)


def label(waiting, asking, served):
    """The letters in which just these of the other clients ask, and this client is served, if one is."""
    asked = [("" if c in asking else "!") + str(c) for c in range(COUNT) if c not in waiting]
    grants = [("" if c == served else "!") + str(COUNT + c) for c in range(COUNT)]
    return "&".join(asked + grants)


def labels(turn, waiting):
    """The labels that lead to each next state, by that state and whether the set is met."""
    found = {}
    others = sorted(set(range(COUNT)) - waiting)
    for asking in itertools.chain.from_iterable(itertools.combinations(others, n) for n in range(len(others) + 1)):
        for served in [None, *sorted({*waiting, *asking})]:
            after = frozenset({*waiting, *asking} - {served})
            state = turn_after(turn or 0, after), after
            found.setdefault((state, state[0] != turn or not after), []).append(label(waiting, asking, served))
    return found


def body():
    """The number of states, and the lines of the body."""
    numbers, states, lines = {(None, frozenset()): 0}, [(None, frozenset())], []
    for turn, waiting in states:  # it grows as states are met
        lines.append(f'State: {numbers[turn, waiting]} "turn {turn}, waiting {sorted(waiting)}"' if waiting else "State: 0")
        for (state, is_met), those in labels(turn, waiting).items():
            if state not in numbers:
                numbers[state] = len(numbers)
                states.append(state)
            lines.append(f"[{' | '.join(those)}] {numbers[state]}{' {0}' * is_met}")
    return len(states), lines


count, rows = body()
names = " ".join(f'"{what}_{c}"' for what in ("request", "grant") for c in range(COUNT))
print(HEAD.format(states=count, count=2 * COUNT, names=names, own=" ".join(map(str, range(COUNT, 2 * COUNT)))))
print("\n".join(rows))
print("--END--")
