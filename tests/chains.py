"""Which definitions a law needs: the chains of docs/contracts.md, each from its laws down to the definitions that they need.

A definition needs those that its text names, in its own module or through `use`. Names that Rust declares (`declared`) and those of the
kit (`Rattle.std`) aren't counted.
"""
import functools
import pathlib
import re
from typing import NamedTuple

CRATES = pathlib.Path(__file__).resolve().parent.parent / "crates"
HEAD = re.compile(r"^(?:(?:abbrev|pub|unfoldable|opaque|record|data)\s+)*([^\s:(]+)")
USE = re.compile(r"^\s*(?:pub\s+|unfoldable\s+)*use\s+Rattle\.(\w+)\.specs\.([\w.]+)\.\{([^}]*)\}", re.M)
# each chain, in the order in which to read them: the laws that it is for, by file and name
CHAINS = {
    "solve": ["pg_cli_command/specs/Laws.antt PrintedWinnersWin", "pg_cli_command/specs/Laws.antt AnyPrintedWinnersWin"],
    "check": ["pg_cli_command/specs/Checking.antt IsChecked", "pg_check/specs/Laws.antt SoundIffWins"],
    "measure": ["pg_cli_command/specs/Measuring.antt IsMeasured", "pg_cli_command/specs/Measuring.antt IsMeasureOf",
                "pg_cli_command/specs/Winners.antt MeasuresTellWinners"],
    "synth": ["pg_cli_command/specs/Controllers.antt CircuitAccepted", "pg_cli_command/specs/Controllers.antt NoneAccepted"],
    "means": ["pg_cli_command/specs/FormulaLaws.antt MeansDecides", "pg_cli_command/specs/FormulaLaws.antt ControllerSatisfies",
              "pg_cli_command/specs/FormulaLaws.antt NoneSatisfies"],
    "workers": ["pg_cli_command/specs/Replaying.antt IsReplayed", "pg_world/specs/Laws.antt SameTaken", "pg_world/specs/Laws.antt NeverAbove"],
}


class Module(NamedTuple):
    uses: dict  # (file, name) of what is used, by the name that it has here
    texts: dict  # of each definition, without comments
    lines: dict  # how many lines each definition has, with the comment above it


@functools.lru_cache(None)
def module(file):
    text, uses, texts, lines = (CRATES / file).read_text(), {}, {}, {}
    for crate, path, names in USE.findall(text):
        target = f"{crate}/specs/{path.replace('.', '/')}.antt"
        for name, _, own in (it.strip().partition(" as ") for it in names.split(",")):
            if (CRATES / target).is_file():
                uses[own or name] = target, name
    name, comments = None, 0
    for line in text.splitlines():
        if line.startswith("--"):
            name, comments = None, comments + 1
        elif not line.strip() or re.match(r"\s*(?:pub\s+|unfoldable\s+)*use\b|\}", line):
            name, comments = None, 0
        else:
            name = name if line[0].isspace() and name else HEAD.match(line)[1]
            texts[name] = texts.get(name, "") + line.partition("--")[0] + "\n"
            lines[name], comments = lines.get(name, 0) + 1 + comments, 0
    return Module(uses, texts, lines)


def needed(laws):
    """The definitions that these need, themselves included, as (file, name)."""
    found, waiting = set(), [tuple(law.split()) for law in laws]
    while waiting:
        here = file, name = waiting.pop()
        own = module(file)
        if here in found or name not in own.texts:
            continue
        found.add(here)
        for word in set(re.findall(r"[^\s(){}.,;λ]+", own.texts[name])):
            waiting.append(own.uses.get(word, (file, word)))
    return found


def line_count(file):
    return len((CRATES / file).read_text().splitlines())


class Chain(NamedTuple):
    files: set
    new: set  # those that no chain before it needs
    lines: int  # of its files
    own: int  # of the definitions in them that it needs


def chains():
    """Each chain by its name, in their order."""
    made, known = {}, set()
    for name, laws in CHAINS.items():
        definitions = needed(laws)
        files = {file for file, _ in definitions}
        made[name] = Chain(files, files - known, sum(map(line_count, files)), sum(module(file).lines[it] for file, it in definitions))
        known |= files
    return made


def missing():
    """The laws of CHAINS that aren't in the files that it names."""
    return [law for laws in CHAINS.values() for law in laws if law.split()[1] not in module(law.split()[0]).texts]
