#!/usr/bin/env python3
"""Times `verify --ltl` on families of circuits and formulas, each of a size.

    bench/formulas.py                   the cases of docs/speed.md
    bench/formulas.py FAMILY SIZE ..    these cases
    bench/formulas.py --beside PROGRAM  another program on the same cases too

    answers N   a wire from each of N requests to its grant; each request is granted eventually
    fair N      the same circuit; if each request comes again and again, so does each grant
    token N     a token goes round N clients, and a client with the token is granted its request; a request that stays is granted eventually,
                and no two clients are granted together
    chain N     a chain of N gates that the formula doesn't name, beside one wire that it names
"""
import pathlib
import subprocess
import sys
import tempfile
import time

TOP = pathlib.Path(__file__).resolve().parent.parent
CASES = [("answers", 60), ("answers", 250), ("fair", 16), ("fair", 60), ("token", 8), ("token", 16), ("token", 22), ("chain", 100_000), ("chain", 1_000_000)]
SECONDS = 60


def symbols(**names):
    return [f"{kind}{place} {name}" for kind, listed in names.items() for place, name in enumerate(listed)]


def wires(count):
    """A circuit whose grants g0, .. are its requests r0, .."""
    literals = [str(2 * it) for it in range(1, count + 1)]
    return [f"aag {count} {count} 0 {count} 0", *literals, *literals,
            *symbols(i=[f"r{it}" for it in range(count)], o=[f"g{it}" for it in range(count)])]


def joined(operator, parts):
    return f" {operator} ".join(f"({part})" for part in parts)


def answers(count):
    return joined("&", (f"G (r{it} -> F g{it})" for it in range(count))), wires(count)


def fair(count):
    return f"{joined('&', (f'G F r{it}' for it in range(count)))} -> {joined('&', (f'G F g{it}' for it in range(count)))}", wires(count)


def token(count):
    """The latch of client 0 holds the negation of whether it has the token, so that it has it at first."""
    holds = [2 * (count + 1 + it) for it in range(count)]
    gates = [2 * (2 * count + 1 + it) for it in range(count)]
    has = [literal ^ (place == 0) for place, literal in enumerate(holds)]
    lines = [f"aag {3 * count} {count} {count} {count} {count}", *(str(2 * it) for it in range(1, count + 1)),
             *(f"{holds[it]} {has[it - 1] ^ (it == 0)}" for it in range(count)), *map(str, gates),
             *(f"{gates[it]} {has[it]} {2 * (it + 1)}" for it in range(count)),
             *symbols(i=[f"r{it}" for it in range(count)], o=[f"g{it}" for it in range(count)])]
    stays = joined("&", (f"G (r{it} & !g{it} -> X r{it})" for it in range(count)))
    alone = (f"G !(g{it} & g{other})" for it in range(count) for other in range(it))
    return f"({stays}) -> ({joined('&', [*(f'G (r{it} -> F g{it})' for it in range(count)), *alone])})", lines


def chain(count):
    gates = (f"{2 * (it + 3)} {2 * (it + 2)} 2" for it in range(count))
    return "G (r <-> g)", [f"aag {count + 2} 2 0 2 {count}", "2", "4", "2", str(2 * (count + 2)), *gates, *symbols(i=["r", "other"], o=["g", "end"])]


FAMILIES = {"answers": answers, "fair": fair, "token": token, "chain": chain}


def timed(program, folder):
    """The first line of the answer, processor seconds and megabytes."""
    began = time.monotonic()
    try:
        ran = subprocess.run(["/usr/bin/time", "-f", "%U %S %M", program, "verify", "--ltl", f"{folder}/formula", f"{folder}/circuit"],
                             capture_output=True, text=True, timeout=SECONDS)
    except subprocess.TimeoutExpired:
        return f"over {time.monotonic() - began:.0f} s"
    *errors, figures = ran.stderr.splitlines()
    user, system, memory = figures.split()
    said = ran.stdout.partition("\n")[0] or (errors or ["?"])[0]
    return f"{said}  {float(user) + float(system):.2f} s  {int(memory) / 1000:.0f} MB"


def main(words):
    programs = [TOP / "crates/parsolve/out/parsolve"]
    if not programs[0].exists():
        programs = [TOP / "release/bin/parsolve"]
    if words[:1] == ["--beside"]:
        programs, words = programs + words[1:2], words[2:]
    cases = list(zip(words[::2], map(int, words[1::2]))) or CASES
    for family, size in cases:
        formula, lines = FAMILIES[family](size)
        with tempfile.TemporaryDirectory() as folder:
            pathlib.Path(folder, "formula").write_text(formula)
            pathlib.Path(folder, "circuit").write_text("\n".join(lines) + "\n")
            print(f"{family} {size}:", *(timed(program, folder) for program in programs), sep="  ", flush=True)


if __name__ == "__main__":
    main(sys.argv[1:])
