#!/usr/bin/env python3
"""Builds and runs the programs of bench/programs: how fast texts are read and written, vertices are lifted and frames
coded.

    bench/programs.py read_speed        tokens, read_game and write_game on texts of a million lines
    bench/programs.py lift_speed        lifts a second on rows of 1, 10 and 200 components
    bench/programs.py worker_speed      lifts a second of a worker, by both of its ways to lift, on the same rows
    bench/programs.py frame_speed       encode, decode and read_frame on frames of a million numbers
    bench/programs.py hoa_speed         read_automaton on automata of many states, and of many letters
    bench/programs.py game_speed        game_of on such automata
    bench/programs.py apart_speed       200 rounds over two links in memory, on a game of a million vertices

A program is a crate of one file, `NAME.rt.txt`; it is built in a copy of the repository's crates, with what was proved of
them, so that only the program and what isn't proved yet is proved. The copy is removed at the end; if a second word names a
folder, it is made there and kept for the next run.
"""
import pathlib
import random
import shutil
import subprocess
import sys
import tempfile

BENCH = pathlib.Path(__file__).resolve().parent
TOP = BENCH.parent
STANDS_ON = {"read_speed": "pg_text pg_arena", "lift_speed": "pg_arena pg_measure pg_map", "frame_speed": "pg_wire anyhow", "hoa_speed": "pg_hoa itoa",
             "worker_speed": "pg_arena pg_measure pg_wire pg_worker", "game_speed": "pg_hoa pg_synth pg_arena itoa",
             "apart_speed": "pg_arena pg_coord_partition pg_coord_rounds pg_coord anyhow"}
LINES = 1_000_000


def build(name, copy):
    """The program, built in a copy of the repository's crates."""
    for crate in (TOP / "crates").iterdir():
        for part in ("src", "specs", "proofs", "out"):
            if (crate / part).is_dir():
                target = copy / "crates" / crate.name / part
                shutil.rmtree(target, ignore_errors=True)
                shutil.copytree(crate / part, target)
    program = copy / "crates" / name
    (program / "src").mkdir(parents=True, exist_ok=True)
    shutil.copy(BENCH / "programs" / f"{name}.rt.txt", program / "src" / "main.rt")
    (copy / "crates.txt").write_text((TOP / "crates.txt").read_text() + f"{name}: {STANDS_ON[name]}\n")
    shutil.copy(TOP / "HANDLES", copy / "HANDLES")
    subprocess.run(["git", "init", "-q", str(copy)], check=True)
    subprocess.run(["rt", "run"], cwd=program, stdin=subprocess.DEVNULL, check=True)
    return program / "out" / name


def text(identifiers, name):
    """A game text with three successors for each vertex."""
    dice = random.Random(7)
    lines = [f"parity {max(identifiers)};\n"]
    for identifier in identifiers:
        successors = ",".join(str(dice.choice(identifiers)) for _ in range(3))
        lines.append(f"{identifier} {dice.randrange(9)} {dice.randrange(2)} {successors}{name and f' {name}'};\n")
    return "".join(lines).encode()


def inputs(name):
    """(what it is, the input) of each run."""
    if name != "read_speed":
        return [("", b"")]
    rising, sparse = list(range(LINES)), random.Random(8).sample(range(2**32), LINES)
    return [("rising identifiers", text(rising, "")), ("rising identifiers and names", text(rising, '"a name of a vertex"')),
            ("random identifiers", text(sparse, ""))]


def measure(name, copy):
    """Builds the program in this folder, and runs it three times on each input."""
    program = build(name, pathlib.Path(copy))
    for what, given in inputs(name):
        print(f"-- {what}", flush=True)
        for _ in range(3):
            subprocess.run([program], input=given, check=True)


def main():
    if len(sys.argv) not in (2, 3) or sys.argv[1] not in STANDS_ON:
        sys.exit(__doc__)
    if len(sys.argv) == 3:
        measure(sys.argv[1], sys.argv[2])
    else:
        with tempfile.TemporaryDirectory() as copy:
            measure(sys.argv[1], copy)


main()
