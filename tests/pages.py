"""Checks the pages: links lead to files and sections, and paths to files, lines are short, the first line says who the page is for, no decision is long, and
code on the pages is that of the sources; that the examples made by scripts are what the scripts print; and that CHANGELOG.md begins
with the version of the program, which CITATION.cff has too."""
import re
import subprocess
import sys

import case
from case import TOP

PAGES = [*sorted(TOP.glob("*.md")), *sorted(TOP.glob("docs/*.md")), TOP / "examples/README.md"]
FOLDERS = "bindings|docs|tests|examples|tools|bench|rows|share"
LONGEST_LINE, MOST_WORDS = 160, 80
MADE = {"mutex.pg": "make_mutex.py", "grid.pg": "make_grid.py", "arbiter.hoa": "make_arbiter.py", "lift.hoa": "make_lift.py"}


def shown(path):
    return str(path.relative_to(TOP))


def links():
    """(what is checked, what is wrong with it or None) for each link of a page to a file, and each path in its text."""
    for page in PAGES:
        text = page.read_text()
        for target in sorted(set(re.findall(r"\]\(([^)#:]+)(?:#[^)]*)?\)", text))):
            yield f"{shown(page)}: {target}", None if (page.parent / target).exists() else "a link that leads nowhere"
        for path in sorted(set(re.findall(rf"(?<![\w/.-])(?:{FOLDERS})/[\w./-]*\w", text))):
            yield f"{shown(page)}: {path}", None if (TOP / path).exists() else "there is no such file"


def anchors():
    """The same for each link to a section, of this page or of another one."""
    for page in PAGES:
        for target, anchor in sorted(set(re.findall(r"\]\(([^)#:]*)#([^)]*)\)", page.read_text()))):
            heads = re.findall(r"^#+ (.*)", (page.parent / target if target else page).read_text(), re.M)
            is_there = anchor in {re.sub(r"[^\w -]", "", head.lower()).replace(" ", "-") for head in heads}
            yield f"{shown(page)}: {target}#{anchor}", None if is_there else "a link to a section that isn't there"


def lines():
    """The same for the lines of each page; a row of a table is one line, however long."""
    for page in PAGES:
        long = [number for number, line in enumerate(page.read_text().splitlines(), 1)
                if len(line) > LONGEST_LINE and not line.startswith("| ")]
        yield f"{shown(page)}: lines", f"over {LONGEST_LINE} columns: {long}" if long else None


def audiences():
    """The same for the first line of each page, which says who it is for; the README says it for each page."""
    for page in PAGES:
        if page != TOP / "README.md":
            first = page.read_text().split("\n")[2]
            yield f"{shown(page)}: its first line", None if first.startswith("For those who ") else "doesn't say who it is for"


def decisions():
    """The same for each row of docs/DECISIONS.md."""
    for row in re.findall(r"^\| .*", (TOP / "docs/DECISIONS.md").read_text(), re.M):
        words = len(row.replace("|", " ").split())
        yield f"docs/DECISIONS.md: {row[2:60]}..", f"{words} words, over {MOST_WORDS}" if words > MOST_WORDS else None


def shown_code():
    """The same for the function that docs/first_change.md changes, and the edit that it mends: both are as the page has them."""
    text = (TOP / "docs/first_change.md").read_text()
    function = re.search(r"^    pub fn (?:.*\n)*?    }\n", text, re.M)[0]
    source = (TOP / "crates/pg_arena/src/player.rt").read_text()
    yield "docs/first_change.md: the function", None if function in source else "isn't what the source has"
    edit = TOP / "edits/pg_arena" / re.search(r"`(\w+\.edit)`", text)[1]
    is_there = edit.is_file() and edit.read_text().splitlines()[1].removeprefix("old: ") in function
    yield f"docs/first_change.md: {edit.name}", None if is_there else "doesn't change a line of the function"


def shown_diffs():
    """The same for the lines that docs/first_change.md adds: its sources have them."""
    for path, lines in re.findall(r"^```diff\n--- (.*)\n((?:.*\n)*?)```$", (TOP / "docs/first_change.md").read_text(), re.M):
        text = (TOP / path).read_text().splitlines()
        lost = [line for line in lines.splitlines() if line[0] != "-" and line[1:] not in text]
        yield f"docs/first_change.md: the change of {path}", f"isn't there: {lost[0]!r}" if lost else None


def shown_theorem():
    """The same for the clause that the README prints and the law of docs/promises.md: they are as the sources have them."""
    for page, head, source in (("README.md", "ensures answer", "pg_cli/src/program.rt"),
                               ("docs/promises.md", "pub record", "pg_cli_command/specs/Laws.antt"),
                               ("docs/promises.md", "abbrev pub", "pg_cli_command/specs/Laws.antt")):
        text = (TOP / page).read_text()
        block = re.sub("^    ", "", re.search(rf"^    {head} (?:.*\n)(?:    .*\n)*", text, re.M)[0], flags=re.M)
        sources = re.sub("^    ensures", "ensures", (TOP / "crates" / source).read_text(), flags=re.M)
        yield f"{page}: {block.splitlines()[0]}", None if block in sources else f"isn't what {source} has"


def examples():
    """The same for each example that a script makes."""
    for name, script in MADE.items():
        printed = subprocess.run([sys.executable, TOP / "examples" / script], capture_output=True, text=True, timeout=60).stdout
        yield f"examples/{name}", None if printed == (TOP / "examples" / name).read_text() else f"isn't what {script} prints"


def version():
    """The same for the version and the date that CHANGELOG.md has first: `--version` prints the same one, and CITATION.cff has both."""
    said = re.search(r'^const VERSION: &str = "(.*)";$', (TOP / "crates/pg_cli_words/src/words.rt").read_text(), re.M)
    first = re.search(r"^## (.*) \((.*)\)$", (TOP / "CHANGELOG.md").read_text(), re.M).groups()
    yield "CHANGELOG.md: the version", None if said and first[0] == said[1] else "isn't the one that --version says"
    cited = re.search(r"^version: (.*)\ndate-released: (.*)$", (TOP / "CITATION.cff").read_text(), re.M).groups()
    yield "CITATION.cff: the version and the date", cited, first


Tests = case.tests(__name__, links, anchors, lines, audiences, decisions, shown_code, shown_diffs, shown_theorem, examples, version)
