#!/usr/bin/env python3
"""Prints examples/mutex.pg: an arbiter between two clients that share a resource.

The environment (player 1, Odd) lets clients ask; the arbiter (player 0, Even) then grants the resource to one of them,
or to none, never to both. A token names the client whose turn it is, and goes on as soon as that client isn't waiting.

    env  T AB   the environment's turn: the token is at client T, A and B say whether clients 1 and 2 wait. Priority 1
    pass T AB   the same just after the token went on: priority 2
    ctl  T AB   the arbiter's turn: priority 0

Every client that asks is served again and again exactly if the token goes on forever, that is if priority 2 recurs:
the greatest recurring priority is then 2, otherwise 1. The arbiter wins everywhere by serving the token's client.
"""
def number(kind, turn, a, b):
    return {"env": 0, "pass": 8, "ctl": 16}[kind] + (turn - 1) * 4 + 2 * a + b

def after(turn, a, b):
    """The environment's vertex when the arbiter has left A and B waiting."""
    waits = a if turn == 1 else b
    return number("env", turn, a, b) if waits else number("pass", 3 - turn, a, b)

lines = {}
for turn in (1, 2):
    for a in (0, 1):
        for b in (0, 1):
            asked = {number("ctl", turn, x, y) for x in (a, 1) for y in (b, 1)}
            for kind, priority in (("env", 1), ("pass", 2)):
                lines[number(kind, turn, a, b)] = (priority, 1, asked, f"{kind} {turn} {a}{b}")
            granted = {after(turn, a, b)} | ({after(turn, 0, b)} if a else set()) | ({after(turn, a, 0)} if b else set())
            lines[number("ctl", turn, a, b)] = (0, 0, granted, f"ctl {turn} {a}{b}")

print(f"parity {max(lines)};")
for v, (priority, owner, successors, name) in sorted(lines.items()):
    print(v, priority, owner, ",".join(map(str, sorted(successors))), f'"{name}";')
