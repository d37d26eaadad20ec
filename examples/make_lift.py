#!/usr/bin/env python3
"""Prints examples/lift.hoa: a lift between three floors, as a deterministic automaton.

Somebody at floor f calls it with `call_f`, which the environment sets. The controller sets `up`, `down` and `open`, at most one of them
in a step: the lift goes to the next floor, or its door opens. It can't go up from the uppermost floor, nor down from the lowest one,
and its door opens only at a floor from which it was called. A step that breaks this has no edge. A call waits until the door opens at
its floor, and no call waits forever.

A state says where the lift is, from which floors it is called, and whose turn it is. The turn stays at a floor until that is served, and
then goes round to the next one that waits. Set 0 is on each edge with which the turn goes on, or after which no call waits: so it
recurs exactly if no call waits forever.
"""
import itertools

FLOORS = range(3)
HEAD = """HOA: v1
name: "a lift: each call is served in the end"
States: {states}
Start: 0
AP: 6 "call_0" "call_1" "call_2" "up" "down" "open"
acc-name: Buchi
Acceptance: 1 Inf(0)
properties: trans-labels explicit-labels trans-acc deterministic
controllable-AP: 3 4 5
--BODY--"""
MOVES = {"up": "3&!4&!5", "down": "!3&4&!5", "open": "!3&!4&5", "stay": "!3&!4&!5"}


def after(floor, waiting, move):
    """Where the lift is after a move, and the floors from which it is called then; None if it can't make the move."""
    goal = floor + {"up": 1, "down": -1}.get(move, 0)
    if goal not in FLOORS or (move == "open" and floor not in waiting):
        return None
    return goal, waiting - {floor} if move == "open" else waiting


def turn_after(turn, waiting):
    """The first floor from this one on, going round, from which it is called; None if there is none."""
    return next((f % len(FLOORS) for f in range(turn, turn + len(FLOORS)) if f % len(FLOORS) in waiting), None)


def labels(floor, waiting, turn):
    """The labels that lead to each next state, by that state and whether the set is met."""
    found = {}
    for calls in itertools.product((False, True), repeat=len(FLOORS)):
        asked = waiting | {f for f in FLOORS if calls[f]}
        for move, label in MOVES.items():
            made = after(floor, asked, move)
            if made:
                state = *made, turn_after(turn or 0, made[1])
                inputs = "&".join(("" if calls[f] else "!") + str(f) for f in FLOORS if f not in waiting)
                key = state, state[2] != turn or not made[1]
                found.setdefault(key, {})["&".join(filter(None, (inputs, label)))] = None
    return found


def body():
    """The number of states, and the lines of the body."""
    first = 0, frozenset(), None
    numbers, states, lines = {first: 0}, [first], []
    for floor, waiting, turn in states:  # it grows as states are met
        calls = f", called from {sorted(waiting)}, turn {turn}" if waiting else ""
        lines.append(f'State: {numbers[floor, waiting, turn]} "floor {floor}{calls}"')
        for (state, is_met), those in labels(floor, waiting, turn).items():
            if state not in numbers:
                numbers[state] = len(numbers)
                states.append(state)
            lines.append(f"[{' | '.join(those)}] {numbers[state]}{' {0}' * is_met}")
    return len(states), lines


count, rows = body()
print(HEAD.format(states=count))
print("\n".join(rows))
print("--END--")
