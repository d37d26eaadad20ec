"""Checks share/: the manual pages and the completions are those that tools/share makes of the help texts of the program and the tools; and what
reads them, if it is installed, finds no fault in them."""
import pathlib
import shutil
import subprocess
import sys
import tempfile

import case
from case import TOP

SHARE = TOP / "share"
BASH, FISH = SHARE / "bash-completion/completions", SHARE / "fish/vendor_completions.d"
READERS = {  # each must read its files and print nothing
    "bash -n": BASH.glob("*"), "zsh -n": SHARE.glob("zsh/site-functions/*"), "fish -n": FISH.glob("*"),
    "groff -man -Tutf8 -ww -z": SHARE.glob("man/man1/*"),
}
COMMANDS = ["automaton", "check", "game", "means", "measure", "replay", "solve", "synth", "verify", "worker"]
# words that were typed, the last of which is completed, and what must be offered
TYPED = [(["parsolve", ""], [*COMMANDS, "--help", "--version", "-h", "-V"]), (["parsolve", "s"], ["solve", "synth"]),
         (["parsolve", "me"], ["means", "measure"]), (["parsolve", "means", "--"], ["--status", "--stats", "--json", "--help"]),
         (["parsolve", "automaton", "--"], ["--outs", "--stats", "--json", "--help"]),
         (["parsolve", "solve", "--"], ["--workers", "--apart", "--any", "--stats", "--json", "--help"]),
         (["parsolve", "check", "--"], ["--status", "--stats", "--json", "--help"]),
         (["parsolve", "synth", "--"], ["--workers", "--apart", "--small", "--counter", "--outs", "--stats", "--json", "--help"]),
         (["parsolve", "worker", "--p"], ["--port"]), (["parsolve", "solve", "--workers", ""], []),
         (["parsolve", "solve", "--apart", "examples/mor"], ["examples/mortal-worker"]),
         (["parsolve", "solve", "examples/tw"], ["examples/two.pg"]), (["parsolve", "worker", "examples/tw"], []),
         (["parsolve", "check", "examples/two.pg", "examples/mutex.so"], ["examples/mutex.solution"]),
         (["parsolve-circuit", "s"], ["simulate", "small"]), (["parsolve-circuit", "play", "--"], ["--letters", "--circuit", "--program", "--help"]),
         (["parsolve-circuit", "small", "examples/del"], ["examples/delay.hoa"]), (["parsolve-pg", "--"], ["--min", "--help"]),
         (["parsolve-pg", "examples/tw"], ["examples/two.pg"]), (["parsolve-tlsf", "--f"], ["--formula"])]


def made(program):
    """(what is checked, why it isn't so or None) for each file of share/."""
    with tempfile.TemporaryDirectory() as folder:
        subprocess.run([sys.executable, TOP / "tools/share", "--program", program, folder], check=True, timeout=120)
        for path in sorted(pathlib.Path(folder).rglob("*")):
            if path.is_file():
                kept = SHARE / path.relative_to(folder)
                is_same = kept.exists() and kept.read_text() == path.read_text()
                yield f"share/{path.relative_to(folder)}", None if is_same else "tools/share makes it again"


def read():
    """(what is checked, result, wanted result) for each tool that reads one of them."""
    for reader, paths in READERS.items():
        name, *words = reader.split()
        for path in sorted(paths):
            if case.lacking(name):
                yield f"{name} reads {path.name}", case.lacking(name)
                continue
            ran = subprocess.run([name, *words, path], capture_output=True, text=True, timeout=60)
            yield f"{name} reads {path.name}", (ran.returncode, ran.stdout, ran.stderr), (0, "", "")


def completed():
    """The same for what bash and fish offer, fish if it is installed."""
    for typed, wanted in TYPED:
        script = f'source "$1"; shift; COMP_WORDS=("$@"); COMP_CWORD=$(($# - 1)); _{typed[0].replace("-", "_")}; printf "%s\\n" "${{COMPREPLY[@]}}"'
        ran = subprocess.run(["bash", "-c", script, "bash", BASH / typed[0], *typed], cwd=TOP, capture_output=True, text=True, timeout=60)
        yield f"bash completes {typed}", sorted(ran.stdout.split()), sorted(wanted)
        if shutil.which("fish") and typed[-1][:1] != "-" and wanted and typed[-1]:
            script = f"source {FISH / typed[0]}.fish; complete -C '{' '.join(typed)}'"
            ran = subprocess.run(["fish", "-c", script], cwd=TOP, capture_output=True, text=True, timeout=60)
            yield f"fish completes {typed}", sorted(line.split("\t")[0] for line in ran.stdout.splitlines()), sorted(wanted)


Tests = case.tests(__name__, made, read, completed)
