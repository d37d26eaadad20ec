"""Puts the program of docs/library.md into a fresh repository beside the crates that it uses, and has a gate there prove and run it, and
refuse its wrong body. What a gate has proved of the same files on this machine isn't proved again."""
import pathlib
import re
import shutil
import subprocess
import tempfile

import case
from case import TOP

RIGHT, WRONG = "strategies(alloc, game, &maps.of_game, &maps.of_dual)", "strategies(alloc, game, &maps.of_dual, &maps.of_game)"


def program():
    """(line of crates.txt, source) of the program, as the page shows them."""
    text = (TOP / "docs/library.md").read_text()
    return re.search(r"^    (\w+: pg_.*)$", text, re.M)[1], re.search(r"^```rust\n(.*?)^```$", text, re.M | re.S)[1]


def uses():
    """The crates that each crate uses, by crates.txt."""
    rows = (line.partition("#")[0].partition(":") for line in (TOP / "crates.txt").read_text().splitlines())
    return {name.split()[0]: below.split() for name, _, below in rows if name.strip()}


def closure(names, known):
    """These crates of the repository and all below them."""
    found = set()
    waiting = [it for it in names if it in known]
    while waiting:
        crate = waiting.pop()
        if crate not in found:
            found.add(crate)
            waiting += [it for it in known[crate] if it in known]
    return sorted(found)


def copy_crates(folder, names):
    """A repository of these crates and all below them, as they are, with nothing built."""
    known = uses()
    crates = closure(names, known)
    for crate in crates:
        for part in ("src", "specs", "proofs"):
            if (TOP / "crates" / crate / part).is_dir():
                shutil.copytree(TOP / "crates" / crate / part, folder / "crates" / crate / part)
    (folder / "crates.txt").write_text("".join(f"{it}: {' '.join(known[it])}\n" for it in crates))
    shutil.copy(TOP / "HANDLES", folder)
    subprocess.run(["git", "init", "-q", str(folder)], check=True)


def lay_out(folder, line, source):
    """A repository of the program and the crates that it uses, with what the program prints and its wrong body as a must-fail edit."""
    name, _, below = line.partition(":")
    copy_crates(folder, below.split())
    with open(folder / "crates.txt", "a") as listed:
        listed.write(line + "\n")
    crate = folder / "crates" / name
    (crate / "src").mkdir(parents=True)
    (crate / "must-fail").mkdir()
    (crate / "src/main.rt").write_text(source)
    (crate / "stdout").write_text("sound\n")
    (crate / "must-fail/exchanged.edit").write_text(f"file: src/main.rt\nold: {RIGHT}\nnew: {WRONG}\n")


def judge():
    """(what is checked, why it failed or None)."""
    line, source = program()
    with tempfile.TemporaryDirectory() as made:
        lay_out(pathlib.Path(made), line, source)
        ran = subprocess.run(["rt", "ci"], cwd=made, stdin=subprocess.DEVNULL, stdout=subprocess.PIPE, stderr=subprocess.STDOUT, text=True)
        yield "the program", None if ran.returncode == 0 else f"status {ran.returncode}: {ran.stdout}"
        is_refused = re.search(r"must-fail judge/exchanged.edit: refused.*strategies-requires-clause-closed", ran.stdout)
        yield "its wrong body", None if is_refused else ran.stdout


Tests = case.tests(__name__, judge)
