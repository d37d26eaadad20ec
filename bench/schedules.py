#!/usr/bin/env python3
"""Schedules of any size for games of the family `loops`, the same on every machine.

    bench/schedules.py KIND VERTICES WORKERS EVENTS [SEED]  prints a script of this many events, without faults
    bench/schedules.py times [PROGRAM]                      what events cost as the game grows, and as the script does

The kinds are `mixed`, and `delivered` and `lifted`, in which every second event is a restart.
"""
import os
import subprocess
import sys
import tempfile

from families import Dice

here = os.path.dirname(os.path.abspath(__file__))


def mixed(vertices, workers, count, dice):
    """Half of the events are lifts, each of which makes an update in `loops`, and few restarts; the others deliver recent
    updates, or any, to a replica."""
    made = 0
    for _ in range(count):
        kind = dice.below(1000)
        if kind == 0:
            yield f"restart {1 + dice.below(workers)}"
        elif kind < 500 or made == 0:
            v = dice.below(vertices)
            made += 1
            yield f"central {v}" if kind < 50 else f"lift {1 + v * workers // vertices} {v}"
        else:
            late = min(made, 1000) if dice.below(4) else made
            yield f"deliver {dice.below(workers + 1)} {made - 1 - dice.below(late)}"


def delivered(vertices, workers, count, dice):
    """The coordinator lifts up to 100 vertices. Then a worker takes one of these updates and restarts, over and over."""
    made = min(vertices, 100, count)
    for v in range(made):
        yield f"central {v}"
    for number in range(count - made):
        worker = 1 + number // 2 % workers
        yield f"restart {worker}" if number % 2 else f"deliver {worker} {dice.below(made)}"


def lifted(vertices, workers, count, dice):
    """A worker lifts a vertex, which makes an update in `loops`, and restarts, over and over."""
    for number in range(count):
        if number % 2 == 0:
            v = dice.below(vertices)
            worker = 1 + v * workers // vertices
        yield f"restart {worker}" if number % 2 else f"lift {worker} {v}"


KINDS = {"mixed": mixed, "delivered": delivered, "lifted": lifted}

# numbers of vertices and of events for `times`
SIZES = [(1000, 200000), (10000, 200000), (100000, 50000), (100000, 100000), (100000, 200000)]


def write(out, kind, vertices, workers, count, seed=1):
    """Writes a script with an even cut."""
    out.write(f"workers {workers};\n")
    for event in KINDS[kind](vertices, workers, count, Dice(seed)):
        out.write(f"{event};\n")


def write_game(out, vertices):
    """Writes the game of a script, and the line that separates the two."""
    out.flush()
    subprocess.run([sys.executable, os.path.join(here, "families.py"), "loops", str(vertices), "4"], stdout=out, check=True)
    out.write("--\n")


def seconds(program, source):
    """The seconds that the quickest of three runs takes, or None if the program fails or needs more than two minutes."""
    from bench import once
    runs = [once([program, "replay"], source, 120) for _ in range(3)]
    return None if None in runs else min(run[1] for run in runs)


def times(program, workers=6):
    """Prints the time of a script, the part of it that its events take (the rest is the time of a script of one event), and the
    ratio of this part to the number of events."""
    print(f"{'kind':10} {'vertices':>9} {'events':>9} {'seconds':>9} {'of events':>10} {'us an event':>12}")
    with tempfile.TemporaryDirectory() as folder:
        source = os.path.join(folder, "input")

        def run(kind, vertices, count):
            with open(source, "w") as out:
                write_game(out, vertices)
                write(out, kind, vertices, workers, count)
            return seconds(program, source)

        for kind in ["delivered", "lifted"]:
            for vertices, count in SIZES:
                whole, one = run(kind, vertices, count), run(kind, vertices, 1)
                if whole is None or one is None:
                    print(f"{kind:10} {vertices:9} {count:9} {'-':>9} {'-':>10} {'-':>12}", flush=True)
                else:
                    events = max(whole - one, 0)
                    print(f"{kind:10} {vertices:9} {count:9} {whole:9.2f} {events:10.2f} {events / count * 1e6:12.2f}", flush=True)


if __name__ == "__main__":
    if len(sys.argv) in (2, 3) and sys.argv[1] == "times":
        times(sys.argv[2] if len(sys.argv) == 3 else os.path.join(os.path.dirname(here), "crates/parsolve/out/parsolve"))
    elif len(sys.argv) in (5, 6) and sys.argv[1] in KINDS:
        write(sys.stdout, sys.argv[1], *map(int, sys.argv[2:]))
    else:
        sys.exit(__doc__)
