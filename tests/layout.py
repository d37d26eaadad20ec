#!/usr/bin/env python3
"""Checks how the definitions are laid out, and that the documents that list them are true.

To believe what is proved, you read the believed modules: the files of a crate's `specs/`, except `Lib` and what `Mirrors`
and `Lemmas` list. So
- no believed module names a mirror, a lemma or a proof, of its own crate or of another (except `Rattle.std.proofs.Common`,
  which holds constructors of the logic), and no `Lib` passes one on;
- docs/contracts.md lists each believed module once, with the number of its lines, in the first chain that needs it, and the public calls
  whose contracts name a mirror all the same; the numbers of its chains are right;
- each name of docs/definitions.md is defined in the file named beside it;
- each call and law that the README and the pages of docs/ name exists, and so does each clause, definition and edit of
  docs/promises.md, whose first table names the edits that every gate tries;
- each edit of edits/ can be made in the sources;
- no two crates have a public type of one name;
- five crates of the kit are used where the product is meant to use them, and the README says that they are trusted.

    tests/layout.py    corrects both documents if no text must be written: numbers of lines, files that are gone or new, the file of a
                       definition that has moved
"""
import argparse
import re
import textwrap

import case
import chains
import edits as wrong_bodies
from case import TOP

CRATES, README, CONTRACTS, DEFINITIONS = TOP / "crates", TOP / "README.md", TOP / "docs/contracts.md", TOP / "docs/definitions.md"
PROMISES = TOP / "docs/promises.md"
APART = {"Mirrors", "Lemmas"}
EXCEPTIONS = re.compile(r"Public calls whose contracts name one: ((?:[^.]|\n)*)\.")
KIT = {"byteorder": "pg_wire", "clap": "pg_cli_words", "indexmap": "pg_synth", "itoa": "pg_cli_command pg_synth pg_text",
       "thiserror": "parsolve_c_csr pg_check pg_coord_rounds pg_wire pg_worker pg_world"}
ROW = re.compile(r"^\| `(\w+/specs/[\w/]+\.antt)` \| (\d+) \|", re.M)


def modules():
    """(believed modules, files that list others, modules that are kept apart), by crate; those of tests promise nothing."""
    believed, lists, apart = [], [], []
    for path in sorted(CRATES.glob("*/specs/**/*.antt")):
        below = path.relative_to(CRATES).with_suffix("").parts[2:]
        if path.parts[-1] == "Lib.antt" or path.stem in APART:
            lists.append(path)
        elif APART & set(below):
            apart.append(path)
        else:
            believed.append(path)
    return believed, lists, apart


def is_of_tests(path):
    return path.relative_to(CRATES).parts[0].endswith("_tests")


def shown(path):
    return str(path.relative_to(CRATES))


def line_count(path):
    return len(path.read_text().splitlines())


def code_of(path):
    """The text without its comments."""
    return re.sub(r"--.*", "", path.read_text())


def forbidden(code):
    """The paths in the code that lead to a mirror, a lemma or a proof."""
    paths = re.findall(r"[\w«»-]+(?:\.[\w«»-]+)+", code)
    return sorted({path for path in paths if (APART | {"proofs"}) & set(path.split("."))
                   and not path.startswith("Rattle.std.proofs.Common")})


def imports():
    """(what is checked, what is wrong with it) for each believed module and each list of modules."""
    believed, lists, _ = modules()
    for path in believed:
        for name in forbidden(code_of(path)) or [None]:
            yield shown(path), name and f"names {name}: a believed module may not"
    for path in lists:
        uses = "\n".join(re.findall(r"^\s*(?:pub\s+|unfoldable\s+)*use\s.*", code_of(path), re.M))
        for name in forbidden(uses) or [None]:
            yield shown(path), name and f"passes on {name}"


def rows_of_contracts():
    """The same for the table of docs/contracts.md."""
    rows = ROW.findall(CONTRACTS.read_text())
    names = [name for name, _ in rows]
    for path in modules()[0]:
        if shown(path) not in names and not is_of_tests(path):
            yield shown(path), "is in no row of docs/contracts.md: add one where readers should meet it"
    for name, lines in rows:
        path = CRATES / name
        if not path.is_file():
            yield name, "is in docs/contracts.md, but there is no such file"
        elif names.count(name) > 1:
            yield name, "is in docs/contracts.md twice"
        elif line_count(path) != int(lines):
            yield name, f"has {line_count(path)} lines, and docs/contracts.md says {lines}: run tests/layout.py"
        else:
            yield name, None


def chain_rows():
    """For each chain of docs/contracts.md, and for all, how its row must end."""
    for name, chain in chains.chains().items():
        yield f"`{name}`", f"| {len(chain.files)} | {chain.lines} | {chain.own} |"
    read = [path for path in modules()[0] if not is_of_tests(path)]
    yield "all", f"| {len(read)} | {sum(map(line_count, read))} | |"


def rows_of_chains():
    """The same for the chains: their laws, their numbers, and the files in their sections."""
    text = CONTRACTS.read_text()
    for law in chains.missing():
        yield law, "isn't there, though tests/chains.py says so"
    for name, end in chain_rows():
        is_there = re.search(rf"^\| {name} \| .* {re.escape(end)}$", text, re.M)
        yield f"chain {name}", None if is_there else f"its row doesn't end in {end}: run tests/layout.py"
    sections = re.findall(r"^### (\d+)\. (.*?)(?=^##)", text, re.M | re.S)
    for (number, section), (name, chain) in zip(sections, chains.chains().items()):
        listed = {file for file, _ in ROW.findall(section)}
        wrong = sorted(listed ^ chain.new)
        yield f"section {number}", f"isn't that of the chain {name}: {', '.join(wrong)}" if wrong else None


def defined(name, path):
    """Whether the file defines the name."""
    return re.search(rf"^(?:(?:abbrev|pub|unfoldable|opaque|record|data)\s+)*{re.escape(name)}(?=[\s:])", path.read_text(), re.M)


def entries():
    """The same for each name of docs/definitions.md, whose headings name the crates."""
    for crate, section in re.findall(r"^## [^\n]*\(`(\w+)`\)\n(.*?)(?=^## |\Z)", DEFINITIONS.read_text(), re.M | re.S):
        for row in re.findall(r"^\| `.*", section, re.M):
            names, files = (re.findall(r"`([^`]+)`", cell) for cell in row.split(" | ")[:2])
            paths = [CRATES / crate / "specs" / file for file in files]
            for name in (words.split()[0] for words in names):
                is_there = any(path.is_file() and defined(name, path) for path in paths)
                yield name, None if is_there else f"isn't in {crate}/specs/{' or '.join(files)}, though docs/definitions.md says so"


def offered(crate):
    """(file, names) of each module with items that the crate offers; None if it offers all that are public there."""
    text = (crate / "src/lib.rt").read_text() if (crate / "src/lib.rt").is_file() else ""
    for name in re.findall(r"^pub mod (\w+);", text, re.M):
        yield crate / f"src/{name}.rt", None
    for name, items in re.findall(r"^pub use (?:crate::)?(\w+)::(\w+|\{[^}]*\});", text, re.M):
        yield crate / f"src/{name}.rt", set(re.findall(r"\w+", items))


def heads(text):
    """(item, function, signature and contract) of each public function of a module."""
    item = ""
    for block in re.split(r"^(?=impl\b|\}|pub fn|    pub fn)", text, flags=re.M):
        kind = re.match(r"impl(?:<.*?>)? (?:\S+ for )?(\w+)|(\})|( *)pub fn (\w+)", block)
        if kind and kind[4]:
            yield item if kind[3] else "", kind[4], re.split(rf"^{kind[3]}\{{$|\{{$", block, flags=re.M)[0]
        elif kind:
            item = kind[1] or ""


def naming_mirrors():
    """The public calls whose contracts name a mirror or a lemma."""
    for crate in sorted(CRATES.iterdir()):
        for path, names in offered(crate):
            text = path.read_text() if path.is_file() else ""
            uses = re.findall(r"ghost use [\w.]*\b(?:Mirrors|Lemmas)\b[\w.]*?\.?(?:\{([^}]*)\})?;", text)
            mirrors = {it.split(" as ")[-1].strip() for use in uses for it in use.split(",")} - {""}
            words = re.compile("|".join(rf"(?<![\w.]){re.escape(it)}(?!\w)" for it in mirrors) or r"(?!)")
            for item, name, head in heads(text):
                if (names is None or (item or name) in names) and words.search(head):
                    yield "::".join(it for it in (crate.name, item, name) if it)


def exceptions():
    """The same for the list of such calls in docs/contracts.md."""
    found, listed = sorted(set(naming_mirrors())), re.findall(r"`([^`]+)`", re.search(EXCEPTIONS, CONTRACTS.read_text())[1])
    for name in sorted({*found, *listed}):
        why = "names a mirror, which docs/contracts.md doesn't say" if name in found else "names no mirror, though docs/contracts.md says so"
        yield name, None if name in found and name in listed else why


def sources(crate):
    """The files of the crate, and of those whose items it re-exports."""
    text = (CRATES / crate / "src/lib.rt").read_text() if (CRATES / crate / "src/lib.rt").is_file() else ""
    for name in {crate, *re.findall(r"^pub use (pg_\w+)::", text, re.M)}:
        yield from (CRATES / name / "src").rglob("*.rt")


def calls():
    """The same for each call, type and law that a page names, as `pg_check::laws::one_winner`."""
    for document in (README, *sorted((TOP / "docs").glob("*.md"))):
        for crate, name in re.findall(r"`(pg_\w+)::(?:\w+::)*(\w+)`", document.read_text()):
            item = re.compile(rf"(?:\bpub (?:fn|struct|trait|mod)|^    fn) {name}\b", re.M)
            is_there = any(item.search(path.read_text()) for path in sources(crate))
            yield name, None if is_there else f"isn't in {crate}, though {document.name} says so"


def promises():
    """The same for each clause and definition that docs/promises.md names: a word in its tables, of small letters or not."""
    code = "\n".join(path.read_text() for path in CRATES.glob("*/src/**/*.rt"))
    found = re.findall(r'(?:\b(?:ensures|fn|struct|trait|enum|mod|invariant) |")(\w+)|\b(\w+)(?=::)', code)
    named = {name for names in found for name in names}
    for name in sorted(set(re.findall(r"`([A-Za-z]\w*)`", "".join(re.findall(r"^\| .*\n", PROMISES.read_text(), re.M))))):
        is_there = name in named or (CRATES / name).is_dir() or any(defined(name, path) for path in modules()[0])
        yield name, None if is_there else "isn't there, though docs/promises.md says so"


def edits():
    """The same for each edit that docs/promises.md names, as `pg_map/join_keeps_the_later`, and each that is tried each time: the page's first
    table names these alone."""
    names = re.compile(r"`((?:pg_|parsolve_)\w+/\w+)`")
    text = PROMISES.read_text()
    first = set(names.findall(re.search(r"\*\*What every gate tries\*\*\n\n((?:\|.*\n)*)", text)[1]))
    files = {f"{path.parent.name}/{path.stem}": path.read_text().splitlines() for path in wrong_bodies.EDITS.glob("*/*.edit")}
    for name in sorted(first | {name for name, lines in files.items() if "always" in lines}):
        is_both = name in first and "always" in files.get(name, [])
        yield name, None if is_both else "isn't both in the first table of docs/promises.md and in edits/ with a line `always`"
    for name in sorted(set(names.findall(text)) - first):
        yield name, None if name in files else "isn't in edits/, though docs/promises.md says so"


def stale_edits():
    """The same for each edit: it can be made in the sources, and changes a function."""
    for path in sorted(wrong_bodies.EDITS.glob("*/*")):
        name, why = str(path.relative_to(TOP)), None
        try:
            wrong_bodies.Edit(path, CRATES / path.parent.name)
        except (wrong_bodies.BadEdit, OSError) as fault:
            why = str(fault)
        yield name, why


def types():
    """A type, a private one too, has a name that no other crate's type has."""
    homes = {}
    for path in sorted(CRATES.glob("*/src/**/*.rt")):
        for name in re.findall(r"^(?:pub(?:\(crate\))? )?(?:struct|enum|trait|type) (\w+)", path.read_text(), re.M):
            homes.setdefault(name, set()).add(path.relative_to(CRATES).parts[0])
    for name, crates in sorted(homes.items()):
        yield name, None if len(crates) == 1 else f"in {' and '.join(sorted(crates))}"


def kit():
    """The same for each crate of the kit that KIT names, in each crate that must use it."""
    listed = dict(re.findall(r"^(\w+)[^:\n]*:(.*)", (TOP / "crates.txt").read_text(), re.M))
    trusted = re.search(r"\*\*Trusted\*\*:((?:.|\n)*?)\n\n", README.read_text())[1]
    for name, crates in KIT.items():
        yield name, None if f"`{name}`" in trusted else "isn't among those that README.md says are trusted"
        for crate in crates.split():
            code = "".join(path.read_text() for path in (CRATES / crate / "src").rglob("*.rt"))
            is_used = name in listed[crate].split() and re.search(rf"^use {name}\b", code, re.M)
            yield f"{crate}, {name}", None if is_used else "isn't used: the product is meant to use it there"


def write_contracts():
    """Sets the numbers of lines, takes out rows of files that are gone, and puts new modules after others of their crate."""
    rows = CONTRACTS.read_text().split("\n")
    kept = []
    for row in rows:
        found = ROW.match(row)
        if not found:
            kept.append(row)
        elif (CRATES / found[1]).is_file():
            kept.append(ROW.sub(f"| `{found[1]}` | {line_count(CRATES / found[1])} |", row))
    for path in modules()[0]:
        if is_of_tests(path) or any(f"| `{shown(path)}` |" in row for row in kept):
            continue
        crate = shown(path).partition("/")[0]
        places = [place for place, row in enumerate(kept) if ROW.match(row) and row.startswith(f"| `{crate}/")]
        places = places or [place for place, row in enumerate(kept) if ROW.match(row)]
        kept.insert(places[-1] + 1, f"| `{shown(path)}` | {line_count(path)} |")
    listed = ", ".join(f"`{name}`" for name in sorted(set(naming_mirrors()))) or "none"
    for name, end in chain_rows():
        kept = [re.sub(rf"^(\| {name} \| .*?) (\| \d+ \| \d+ \| (?:\d+ )?\|)$", lambda it: f"{it[1]} {end}", row) for row in kept]
    text = "Public calls whose contracts name one: " + listed
    CONTRACTS.write_text(EXCEPTIONS.sub(textwrap.fill(text, 124, break_long_words=False).replace("\n", "\n  ") + ".", "\n".join(kept)))


def write_definitions():
    """Sets the files of entries, also of those that name none yet, if each name is in one file of the crate."""
    text, crate = [], None
    for row in DEFINITIONS.read_text().split("\n"):
        crate = re.match(r"## .*\(`(\w+)`\)|", row)[1] or crate
        if row.startswith("| `"):
            first, files, rest = re.fullmatch(r"(.*?) \| (?:(`\w+\.antt`(?:, `\w+\.antt`)*) \| )?(.*)", row).groups()
            names = [words.split()[0] for words in re.findall(r"`([^`]+)`", first)]
            own = [path for path in modules()[0] if shown(path).startswith(f"{crate}/")]
            found = [[path.name for path in own if defined(name, path)] for name in names]
            if all(len(it) == 1 for it in found):
                files = ", ".join(f"`{name}`" for name in dict.fromkeys(it[0] for it in found))
            row = " | ".join(cell for cell in (first, files, rest) if cell)
        text.append(row)
    DEFINITIONS.write_text("\n".join(text))


Tests = case.tests(__name__, imports, rows_of_contracts, rows_of_chains, exceptions, entries, calls, promises, edits, stale_edits, types, kit)


if __name__ == "__main__":
    argparse.ArgumentParser(description=__doc__, formatter_class=argparse.RawDescriptionHelpFormatter).parse_args()
    write_contracts()
    write_definitions()
    believed, _, apart = modules()
    read = [path for path in believed if not is_of_tests(path)]
    print(f"layout: {len(read)} believed modules of {sum(map(line_count, read))} lines, "
          f"{len(apart)} mirrors and lemmas of {sum(map(line_count, apart))} lines")
