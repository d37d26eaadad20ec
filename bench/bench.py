#!/usr/bin/env python3
"""Times the program on generated inputs: the size of the text, and the seconds (of the clock and of processors) and the peak
memory of the quickest run, and its processor milliseconds for each megabyte of the text. `check` gets a solution too, and `replay`
a script of 200,000 events with 6 workers.

    bench/bench.py [PROGRAM] [--only WORD] [--repeats N] [--limit SECONDS] [--words WORDS] [--beside OTHER]

By default PROGRAM is crates/parsolve/out/parsolve. WORD picks the cases whose names contain it; WORDS are further words for
PROGRAM. OTHER is a program with the same commands (it can lack some): its figures are printed beside PROGRAM's, and how many times
OTHER's processor seconds and memory PROGRAM takes. A run over the limit is ended, and its case isn't repeated. The games are those of
families.py, the automata those of random_automata.py, the scripts those of schedules.py.
"""
import argparse
import os
import subprocess
import sys
import tempfile
import time

from families import WON_BY_EVEN

here = os.path.dirname(os.path.abspath(__file__))

# workers and events of the scripts of `replay`
SCHEDULE = ["6", "200000"]

# command, family and sizes, and perhaps a seed
CASES = """
measure settled 1000000 4
measure sparse 10000 20
measure sparse 100000 40
measure sparse 1000000 40
measure elevator 12500 20
measure grid 1000 6
measure chain 100000 10
measure chain 1000000 10
measure wide 10000 100
measure wide 100000 200
measure climb 6 6
measure climb 7 8
measure recladder 11 0
measure random 5000 3
measure random 200000 2
measure ladder 1000 0
measure hubs 1000000 20
solve ladder 500 0
solve ladder 2000 0
solve clique 300 0
solve clique 2000 0
solve jurdzinski 4 5
solve jurdzinski 5 8
solve random 2000 3
solve hubs 10000 10
solve hubs 100000 10
solve hubs 1000000 20
check hubs 100000 10
check hubs 1000000 20
check priorities 4096 2048
check priorities 16384 8192
check priorities 65536 32768
check priorities 700000 128
check priorities 700000 8192
check steps 9000 0
check steps 36000 0
replay loops 10000 4
game automaton 60000 3 2
game automaton 200 12 2
synth automaton 2000 3 2
synth automaton 300 6 4
solve repeats 4 1000000
solve repeats 4 4000000
game labels 8000000 8 0
game labels 32000000 8 0
game labels 1000000 8 16
game labels 4000000 8 16
game labels 1000000 16 16
game labels 4000000 16 16
game labels 1000000 8 20000
game labels 4000000 8 20000
game labels 1000000 16 20000
game labels 4000000 16 20000
measure hard 40 0 2
measure hard 100 0 2
measure hard 300 0 2
measure hard 1000 0 2
measure hard 5000 0 2
solve hard 40 0 2
solve hard 100 0 2
solve hard 300 0 2
solve hard 1000 0 2
solve hard 5000 0 2
solve jurdzinski 30 30
solve recladder 2000 0
solve random 200000 100
solve random 1000000 30
solve random 20000 20000
synth automaton 500 4 8
synth automaton 500 4 12
synth automaton 500 4 20
synth automaton 2000 4 8
synth automaton 2000 4 12
synth automaton 2000 4 20
"""


def options():
    words = argparse.ArgumentParser(description=__doc__, formatter_class=argparse.RawDescriptionHelpFormatter)
    words.add_argument("program", nargs="?", default=os.path.join(os.path.dirname(here), "crates/parsolve/out/parsolve"))
    words.add_argument("--only", default="")
    words.add_argument("--repeats", type=int, default=3)
    words.add_argument("--limit", type=int, default=60)
    words.add_argument("--words", default="")
    words.add_argument("--beside")
    return words.parse_args()


def once(words, source, limit):
    """(processor seconds, seconds, megabytes at the peak) of one run, or None if it took more processor seconds than the limit or
    wasn't answered."""
    with open(source, "rb") as text, open(os.devnull, "wb") as sink:
        start = time.time()
        child = subprocess.Popen(["sh", "-c", 'ulimit -t "$0"; exec "$@"', str(limit), *words], stdin=text, stdout=sink)
        _, status, usage = os.wait4(child.pid, 0)
    seconds, child.returncode = time.time() - start, os.waitstatus_to_exitcode(status)
    if child.returncode != 0:
        return None
    return usage.ru_utime + usage.ru_stime, seconds, usage.ru_maxrss / 1024


def best(words, source, given):
    """The quickest of the runs."""
    runs = []
    for _ in range(given.repeats):
        runs.append(once(words, source, given.limit))
        if runs[-1] is None:
            return None
    return min(runs)


def prepare(source, command, sizes, given):
    """Writes the input of a case, and answers whether that was possible within the limit: `check` needs a solution. Other
    processes do this, since the peak of a run is at least that of the process that starts it."""
    family, *numbers = sizes
    makers = {"automaton": ["random_automata.py", *numbers], "labels": ["random_automata.py", "--labels", *numbers]}
    maker = makers.get(family, ["families.py", *sizes])
    with open(source, "wb") as out:
        subprocess.run([sys.executable, os.path.join(here, maker[0]), *maker[1:]], stdout=out, check=True)
    if command == "replay":
        with open(source, "ab") as out:
            out.write(b"--\n")
            out.flush()
            schedule = [sys.executable, os.path.join(here, "schedules.py"), "mixed", sizes[1], *SCHEDULE]
            subprocess.run(schedule, stdout=out, check=True)
    if command != "check":
        return True
    words = ["timeout", str(given.limit), given.program, "solve"]
    if family in WON_BY_EVEN:
        words = [sys.executable, os.path.join(here, "families.py"), "--solution", *sizes]
    with open(source, "rb") as game, open(source + ".solution", "wb") as out:
        solved = subprocess.run(words, stdin=game, stdout=out)
    with open(source, "ab") as out:
        out.write(b"--\n")
        out.flush()
        subprocess.run(["cat", source + ".solution"], stdout=out, check=True)
    return solved.returncode == 0


def figures(ran):
    if ran is None:
        return f"{'-':>8} {'-':>8} {'-':>8}"
    used, seconds, peak = ran
    return f"{used:8.2f} {seconds:8.2f} {peak:8.1f}"


def for_a_megabyte(ran, size):
    return f"{'-':>8}" if ran is None else f"{1000 * ran[0] / size:8.1f}"


def beside(ran, other):
    if ran is None or other is None:
        return figures(other)
    return f"{figures(other)} {ran[0] / max(other[0], 0.001):6.2f} {ran[2] / other[2]:6.2f}"


def main():
    given = options()
    columns = f"{'proc. s':>8} {'seconds':>8} {'peak MB':>8}"
    print(f"{'case':28} {'text MB':>8} {columns} {'ms a MB':>8}" + (f" | {columns} {'times':>6} {'memory':>6}" if given.beside else ""))
    with tempfile.TemporaryDirectory() as folder:
        source = os.path.join(folder, "input")
        for case in CASES.strip().split("\n"):
            command, *sizes = case.split()
            if given.only not in case:
                continue
            is_ready = prepare(source, command, sizes, given)
            size = os.path.getsize(source) / 1e6
            ran = best([given.program, command, *given.words.split()], source, given) if is_ready else None
            line = f"{case:28} {size:8.2f} {figures(ran)} {for_a_megabyte(ran, size)}"
            if given.beside:
                line += " | " + beside(ran, best([given.beside, command], source, given))
            print(line, flush=True)


if __name__ == "__main__":
    main()
