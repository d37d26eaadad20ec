#!/usr/bin/env python3
"""Prints examples/grid.pg: a walk on a square board of 18 by 18 fields that wraps round at its edges.

From each field the owner goes right, down, or (on every seventh field) back to the start. Owners and priorities are
drawn by a linear congruential generator, so that the file is the same on every machine.
"""
SIDE, MOST = 18, 4
state = 7

def draw(n):
    global state
    state = (state * 1103515245 + 12345) % 2 ** 31
    return state // 65536 % n

print(f"parity {SIDE * SIDE - 1};")
for v in range(SIDE * SIDE):
    row, column = divmod(v, SIDE)
    successors = {row * SIDE + (column + 1) % SIDE, (row + 1) % SIDE * SIDE + column} | ({0} if v % 7 == 0 else set())
    print(v, draw(MOST + 1), draw(2), ",".join(map(str, sorted(successors))) + ";")
