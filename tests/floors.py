#!/usr/bin/env python3
"""Draws the crates of crates.txt as floors of a house, each group of crates above those that it uses, and checks that docs/map.md has the drawing.
Run by itself, it puts the drawing into the page."""
import argparse
import re
import sys
import textwrap

import case
from case import TOP

MAP = TOP / "docs/map.md"
BLOCK = re.compile(r"^```text\n(.*?)^```$", re.M | re.S)
WIDTH = 120
# each group, and how the names of its crates begin; the longest such beginning decides
GROUPS = {
    "programs": "parsolve", "commands": "pg_cli", "satisfaction": "pg_satisfies", "meaning": "pg_means", "verification": "pg_verify",
    "circuits": "pg_aiger pg_synth pg_small", "formulas": "pg_ltl pg_translate", "solutions": "pg_check pg_solver", "search": "pg_search",
    "workers": "pg_wire pg_coord pg_worker pg_world", "measures": "pg_measure pg_map", "automata": "pg_hoa",
    "games": "pg_list_lemmas pg_arena pg_text pg_check_order"}


def group_of(crate):
    """The crate's group, or None."""
    found = [(len(start), group) for group, starts in GROUPS.items() for start in starts.split() if crate.startswith(start)]
    return max(found)[1] if found else None


def crates():
    """The crates without those of tests, each with what it uses."""
    lines = (TOP / "crates.txt").read_text().partition("\n# tests")[0]
    return {name: uses.split() for name, uses in re.findall(r"^(\w+)[^:\n]*:(.*)", lines, re.M)}


def uses():
    """For each group the other groups that its crates use."""
    found, listed = {group: set() for group in GROUPS}, crates()
    for name, used in listed.items():
        found[group_of(name)] |= {group_of(it) for it in used if it in listed} - {group_of(name)}
    return found


def all_below(group, used):
    """The groups below a group, however far."""
    return used[group].union(*(all_below(it, used) for it in used[group]))


def floors(used):
    """The groups by their floors, the topmost floor first."""
    height = {}
    while left := [group for group in used if group not in height]:
        for group in left:
            if used[group] <= height.keys():
                height[group] = 1 + max((height[it] for it in used[group]), default=0)
    return [[group for group in used if height[group] == floor] for floor in range(max(height.values()), 0, -1)]


def box(group, width, used):
    """The lines of a group's box: its crates, and the groups on which it stands directly."""
    under = [it for it in GROUPS if it in used[group] and not any(it in all_below(other, used) for other in used[group])]
    names = ", ".join(name for name in crates() if group_of(name) == group)
    return [group, *textwrap.wrap(names, width - 2), *([f"stands on: {', '.join(under)}"] if under else [])]


def floor_lines(groups, used):
    """The lines of a floor, whose boxes are side by side."""
    width = (WIDTH - 1) // len(groups)
    boxes = [box(group, width - 1, used) for group in groups]
    tall = max(map(len, boxes))
    yield "+" + "+".join(f"- {lines[0]} ".ljust(width - 1, "-") for lines in boxes) + "+"
    for row in range(1, tall):
        yield "|" + "|".join(f" {lines[row] if row < len(lines) else ''}".ljust(width - 1) for lines in boxes) + "|"


def drawing():
    used = uses()
    lines = [line for groups in floors(used) for line in floor_lines(groups, used)]
    return "\n".join([*lines, "+" + "-" * (len(lines[-1]) - 2) + "+"]) + "\n"


def drawn():
    """Each crate is in a group, and docs/map.md has the drawing."""
    for name in crates():
        yield name, None if group_of(name) else "is in no group of tests/floors.py"
    found = BLOCK.search(MAP.read_text())
    yield "docs/map.md", None if found and found[1] == drawing() else "doesn't have the floors of crates.txt: run tests/floors.py"


Tests = case.tests(__name__, drawn)


if __name__ == "__main__":
    argparse.ArgumentParser(description=__doc__, formatter_class=argparse.RawDescriptionHelpFormatter).parse_args()
    MAP.write_text(BLOCK.sub(lambda _: f"```text\n{drawing()}```", MAP.read_text(), count=1))
    sys.exit()
