#!/usr/bin/env python3
"""Tries the wrong bodies of edits/: the prover must refuse each, since its function doesn't meet its contract.

An edit, edits/CRATE/NAME.edit, has lines `file: PATH` in the crate, `old: TEXT`, which occurs once in that file, and `new: TEXT`. If there are
several, they are made one after the other. `function: NAME` names a function that the text isn't in. A line `always` has the edit tried each
time. Edits of different functions of a crate are made in one copy of it. There the prover looks at the functions that were edited and at no
other: each other function that has a proof gets a hole in place of it, so that it counts by its contract. An edit is judged by the lines
about its own function alone, or about one of them if it changes several:
- refused: a goal of the function isn't proved, or an answer of its proof doesn't fit its goal any more;
- it waits for another copy if only functions that it calls are refused there;
- anything else is a failure: the function is proved, its proof only misses names that the edit took away, the prover reaches a limit, or
  the edit can't be made, compiled or read.
The libraries that the crate uses must be there, as ./build or the gate left them. `./test --proofs` tries the edits with a line `always`, and
all edits of a quarter of the crates, other ones with each commit, and of those in which more than comments changed since the release before
the last; with --all it tries every edit. `./test` finds edits whose text isn't there, without a prover.
"""
import argparse
import os
import pathlib
import re
import resource
import shutil
import signal
import subprocess
import sys
import tempfile
import time
from concurrent.futures import ThreadPoolExecutor

import scripts
from case import TOP

EDITS = TOP / "edits"
PARTS = 4  # each commit tries the edits of one of this many parts of the crates
ROOM = 3_000_000_000  # bytes of memory that a check can take
FUNCTION = re.compile(r"(    )?(?:pub(?:\(\w+\))? )?(?:const )?(?:extern \"C\" )?fn (\w+)")
OPEN = re.compile(r"note: (src/\S+?):(\d+):\d+: it is not proved that")
BROKEN = re.compile(r"(?:\./)?proofs/(\S+?)\.antt:\d+:\d+: error: (?:`([^`]*)`: )?(.*)")
MISSED = re.compile(r"has no field|is not in scope|has no `|was not admitted")
CALLEES = re.compile(r"which (?:is|are) not proved")
HOLE = """use Rattle.{crate}.proofs.{path}.Statement.{{statement}}

pub {name}_spec : {{M : Type 1}} → statement M
{name}_spec = ?
"""
REFUSED, WAITS, SILENT = "refused", "only functions that it calls are refused", "the prover says nothing of"


class BadEdit(Exception):
    """Why an edit can't be tried."""


# ---- what an edit is

class Edit:
    """A wrong body: the texts that it changes, the functions that they are in, and whether it is tried each time."""

    def __init__(self, path, folder):
        self.name, self.pairs, self.is_always, functions, file, old = f"{path.parent.name}/{path.stem}", [], False, [], None, None
        for line in path.read_text().splitlines():
            word, _, text = line.partition(":")
            text = text.removeprefix(" ")
            if line == "always":
                self.is_always = True
            elif word == "function":
                functions.append(text)
            elif word == "file":
                file = text
            elif word == "old":
                old = text
            elif word == "new" and file and old:
                self.pairs.append((file, old, text))
            else:
                raise BadEdit(f"{self.name}: the line {line!r} isn't one of an edit")
        functions += [function_at(folder, *place) for place in self.make(folder, {})]
        self.functions = list(dict.fromkeys(filter(None, functions)))
        if not self.functions:
            raise BadEdit(f"{self.name}: it changes no function")

    def make(self, folder, texts):
        """Makes the changes, one after the other, in `texts`, which has the files that are changed already; yields for each change its file, the
        text before it and its line."""
        for file, old, new in self.pairs:
            text = texts.get(file) or (folder / file).read_text()
            if text.count(old) != 1:
                raise BadEdit(f"{self.name}: the text {old!r} is in {file} {text.count(old)} times, and not once")
            yield file, text, text.count("\n", 0, text.index(old))
            texts[file] = text.replace(old, new)


def name_of(path):
    """The last name of a path, and that of its first argument: (`From`, `AllocError`) of `core::From<AllocError>`. A tuple has the names
    of its parts: (`From`, `Tuple2U32Fault`) of `From<(u32, Fault)>`."""
    found = re.match(r"\W*([\w:]+)(?:<([\w:]+|\([^()]*\)))?", path)
    return [tuple_name(it) if it.startswith("(") else it.rpartition("::")[2] for it in found.groups("")]


def tuple_name(kind):
    """What the prover calls a tuple: `Tuple2U32Fault` for `(u32, Fault)`."""
    parts = [it.strip().rpartition("::")[2] for it in kind.strip("()").split(",")]
    return f"Tuple{len(parts)}" + "".join(it[0].upper() + it[1:] for it in parts)


def impl_name(head):
    """What the prover calls an impl: `MeasureOrd` for `impl Ord for Measure`."""
    head, depth = re.sub(r"^impl", "", head), 0
    if head.startswith("<"):
        for at, letter in enumerate(head):
            depth += (letter == "<") - (letter == ">" and head[at - 1] != "-")
            if depth == 0:
                break
        head = head[at + 1:]
    trait, _, kind = head.rpartition(" for ")
    return name_of(kind)[0] + "".join(name_of(trait) if trait else [])


def module_of(file):
    """The names above what a file of src/ defines."""
    return [it for it in file.removeprefix("src/").removesuffix(".rt").split("/") if it not in ("lib", "main")]


def home_of(folder, kind, file):
    """The module of a type of the crate: that of the file that defines it."""
    for path in sorted((folder / "src").rglob("*.rt")):
        if re.search(rf"^(pub(\(\w+\))? )?(struct|enum) {kind}\b", path.read_text(), re.M):
            return module_of(str(path.relative_to(folder)))
    return module_of(file)


def function_at(folder, file, text, line):
    """The function that a line of a file with this text is in, by the name that the prover gives it, or None. An attribute belongs to the
    function below it: the prover names the attribute's line if something isn't proved where the function returns."""
    lines = text.split("\n")
    while lines[line].lstrip().startswith("#["):
        line += 1
    lines = lines[:line + 1]
    heads = [it for it in lines if re.match(r"(pub )?(impl|trait)\b|}|" + FUNCTION.pattern, it)]
    names = [it for it in heads if FUNCTION.match(it)]
    if not names:
        return None
    name, above = FUNCTION.match(names[-1]), []
    if name[1]:
        head = next(it for it in reversed(heads) if re.match(r"(pub )?(impl|trait)\b", it)).partition(" {")[0]
        above = [impl_name(head) if head.startswith("impl") else re.search(r"trait (\w+)", head)[1]]
        if head.startswith("impl") and " for " not in head:
            return "::".join([*home_of(folder, above[0], file), *above, name[2]])
    return "::".join([*module_of(file), *above, name[2]])


# ---- copies of a crate

class Copy:
    """A copy of a crate with some edits of different functions."""

    def __init__(self, crate, edits, room):
        self.crate, self.edits, self.room = crate, edits, pathlib.Path(room)
        self.functions = {it for edit in edits for it in edit.functions}
        for part in ("src", "specs", "proofs"):
            if os.path.isdir(f"{crate.folder}/{part}"):
                shutil.copytree(f"{crate.folder}/{part}", self.room / part)
        for file, text in made(edits, self.room).items():
            (self.room / file).write_text(text)
        self.dig()

    def dig(self):
        """Puts a hole in place of the proof of each function that isn't edited. A proof that functions which call one another share stays."""
        proofs = self.room / "proofs"
        for folder in {it.parent for it in proofs.rglob("*.antt") if it.stem in ("Answers", "Invariants")}:
            path = folder.relative_to(proofs).parts
            if "::".join(path) not in self.functions and not path[-1].startswith(("+", "The")):
                shutil.rmtree(folder)
                folder.mkdir()
                (folder / "Proof.antt").write_text(HOLE.format(crate=self.crate.name, path=".".join(path), name=path[-1]))

    def check(self, rtlib):
        """What the prover says about the edited functions."""
        only = [word for it in sorted(self.functions) for word in ("--only", it)]
        words = self.crate.words(["--jobs", "1", "--allow-holes", *only], keeps=False)
        for _ in range(2):  # a prover that is killed, most likely for its memory, is started once more
            ran = subprocess.run([*rtlib.guarded(), rtlib.RATTLE, "check", *words], cwd=self.room, stdin=subprocess.DEVNULL,
                                 stdout=subprocess.PIPE, stderr=subprocess.STDOUT, errors="replace")
            if ran.returncode != -signal.SIGKILL:
                break
        return ran.stdout

    def judged(self, said):
        """The result of each edit."""
        return {edit: self.of_edit(edit, said) for edit in self.edits}

    def of_edit(self, edit, said):
        found = [self.of_function(it, said) for it in edit.functions]
        return next((it for it in (REFUSED, WAITS) if it in found), found[0])

    def of_function(self, function, said):
        """The result of the edit of a function: refused, waits, or why it shows nothing."""
        verdict = re.search(rf"^fn {self.crate.name}::{re.escape(function)}: (.*)", said, re.M)
        if verdict is None:
            errors = [it for it in said.splitlines() if re.search(r"error[\[:]", it)]
            return f"{SILENT} {function}: {(errors or ['no error'])[0][:200]}"
        if not verdict[1].startswith(("not proved", "no proof")):
            return f"{function}: {verdict[1][:200]}"
        broken = self.broken(function, verdict[1], said)
        if self.is_open(function, said) or any(not MISSED.search(it) for it in broken):
            return REFUSED
        if broken:
            return f"{function}: its proof only misses names that the edit took away ({broken[0][:120]})"
        return WAITS if CALLEES.search(verdict[1]) else f"{function}: {verdict[1][:200]}"

    def is_open(self, function, said):
        """Whether a goal of the function isn't proved."""
        places = ((file, (self.room / file).read_text(), int(line) - 1) for file, line in OPEN.findall(said))
        return any(function_at(self.room, *it) == function for it in places)

    def broken(self, function, verdict, said):
        """What is wrong in the proof of the function, by the prover's errors: those in its own folder, and those in what it uses that is
        no other function's."""
        own, found = function.replace("::", "/") + "/", []
        for file, name, error in BROKEN.findall(said):
            is_own = f"{file}/".startswith(own)
            is_shared = f"`Rattle.{self.crate.name}.proofs.{file.replace('/', '.')}.{name}`" in verdict and not file.endswith(
                ("/Answers", "/Invariants"))
            found += [error] if is_own or is_shared else []
        return found


# ---- all of it

def made(edits, folder):
    """The texts of the files that these edits change, after all of them."""
    texts = {}
    for edit in edits:
        list(edit.make(folder, texts))
    return texts


def go_together(edits, folder):
    """Whether these edits can be made in one copy: they are of different functions, and none changes the text of another."""
    functions = [it for edit in edits for it in edit.functions]
    try:
        made(edits, folder)
    except BadEdit:
        return False
    return len(functions) == len(set(functions))


def share_out(edits, folder):
    """The edits as lists of those that go into one copy."""
    copies = []
    for edit in edits:
        copy = next((it for it in copies if go_together([*it, edit], folder)), None)
        if copy is None:
            copies.append(copy := [])
        copy.append(edit)
    return copies


def tried(crate, edits, rtlib):
    """The result of each edit: all are made in one copy, and those that wait there once more in another. If the prover says nothing about
    one, each half is tried by itself, since the prover reads no function of a copy that doesn't compile."""
    with tempfile.TemporaryDirectory(prefix="edits-") as room:
        copy = Copy(crate, edits, room)
        found = copy.judged(copy.check(rtlib))
    if len(edits) > 1 and any(it.startswith(SILENT) for it in found.values()):
        half = len(edits) // 2
        return {**tried(crate, edits[:half], rtlib), **tried(crate, edits[half:], rtlib)}
    waiting = [edit for edit, what in found.items() if what == WAITS]
    print(f"edits: {crate.name}: {sum(it == REFUSED for it in found.values())} of {len(edits)} in a copy are refused", flush=True)
    return {**found, **tried(crate, waiting, rtlib)} if 0 < len(waiting) < len(edits) else found


def read(crate, faults):
    """The crate's edits; what is wrong with one is added to the faults."""
    edits = []
    for path in sorted((EDITS / crate.name).glob("*")):
        try:
            edits.append(Edit(path, pathlib.Path(crate.folder)))
        except (BadEdit, OSError, ValueError) as why:
            faults.append(str(why))
    return edits


def git(*words):
    """The output of git, or nothing if this is no repository or a shallow one."""
    ran = subprocess.run(["git", *words], cwd=TOP, capture_output=True, text=True)
    return ran.stdout.split() if ran.returncode == 0 else []


def changed():
    """The crates in which more than comments changed since the release before the last, in their sources, definitions, proofs or edits."""
    releases = git("log", "-2", "--format=%H", "--", "release/ABOUT")
    if len(releases) != 2:
        return set()
    paths = git("diff", "--numstat", "--no-renames", "-I^ *(//|--)", releases[-1], "--", "crates", "edits")[2::3]
    return {path.split("/")[1] for path in paths}


def turn():
    """The crates whose turn it is: other ones with each commit."""
    return set(sorted(os.listdir(EDITS))[int((git("rev-list", "--count", "HEAD") or ["0"])[0]) % PARTS::PARTS])


def chosen(names, is_whole):
    """(crates all of whose edits are tried, crates of which some are), if these are named: crates, or edits as CRATE/NAME."""
    every = set(os.listdir(EDITS))
    whole = {it for it in names if "/" not in it} if names else every if is_whole else every & (turn() | changed())
    return whole, {it.partition("/")[0] for it in names} | whole if names else every


def copies_of(crates, whole, names, faults):
    """(crate, edits) of each copy, the largest ones first; what is wrong with an edit is added to the faults."""
    copies, known = [], {it.name for it in crates}
    for crate in crates:
        edits = read(crate, faults)
        known |= {it.name for it in edits}
        edits = [it for it in edits if crate.name in whole or it.name in names or (it.is_always and not names)]
        copies += [(crate, it) for it in share_out(edits, pathlib.Path(crate.folder))]
    faults += [f"there is no {it}" for it in sorted({*names, *whole} - known)]
    return sorted(copies, key=lambda it: len(it[1]), reverse=True)


def run(names=(), is_whole=False):
    """Tries all edits of these crates, and these edits, CRATE/NAME; if none is named, every edit or a part of them. Answers how many passed and
    failed."""
    rtlib, start, spent = scripts.script("build").toolchain(is_still=True), time.monotonic(), processor_seconds()
    rtlib.guarded()  # this ends the prover when this process ends; it can't start once there are threads
    whole, wanted = chosen(names, is_whole)
    if not names and not is_whole:
        print(f"edits: all of {', '.join(sorted(whole))}; of the other crates those that are tried each time", flush=True)
    faults = []
    copies = copies_of([it for it in rtlib.crates_below(str(TOP)) if it.name in wanted], whole, names, faults)
    lacking = {below.name for crate, _ in copies for below in crate.below() if not below.is_built()}
    if lacking:
        print(f"edits: not built: {', '.join(sorted(lacking))}; run ./build")
        return 0, 1
    processors = len(os.sched_getaffinity(0))
    most = max([n for n in range(1, processors + 1) if rtlib.fits(*[ROOM] * n)], default=1)
    with ThreadPoolExecutor(most) as pool:
        results = [it for found in pool.map(lambda it: tried(*it, rtlib), copies) for it in found.items()]
    faults += [f"{edit.name}: {what}" for edit, what in results if what != REFUSED]
    for fault in faults:
        print(f"edits: {fault}")
    print(f"edits: {len(copies)} copies, {(time.monotonic() - start) / 60:.0f} minutes, {(processor_seconds() - spent) / 60:.1f} processor minutes")
    passed, failed = sum(what == REFUSED for _, what in results), len(faults)
    print(f"edits: {passed} passed, {failed} failed")
    return passed, failed


def processor_seconds():
    used = resource.getrusage(resource.RUSAGE_CHILDREN)
    return used.ru_utime + used.ru_stime


def options():
    words = argparse.ArgumentParser(description=__doc__, formatter_class=argparse.RawDescriptionHelpFormatter)
    words.add_argument("names", metavar="CRATE[/NAME]", nargs="*", help="try this edit, or all of this crate; if none is named, all of every crate")
    return words.parse_args()


if __name__ == "__main__":
    sys.exit(1 if run(options().names, is_whole=True)[1] else 0)
