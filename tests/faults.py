"""Compares the texts of faults in docs/formats.md with those in the sources: each text of a crate's fault.rt is on the page, and each text
that a table of the page shows is one of these."""
import re

import case
from case import TOP

PAGE = TOP / "docs/formats.md"
# a text in the code of a fault, and the type whose arm it is if it stands in one
TEXT = re.compile(r'(?:\b(\w+)::\w+(?:\([^)]*\))? => )?"((?:[^"\\]|\\.)*)"')
LEFT_OUT = r'//.*|\.write\("\w+"'  # comments, and what is passed to a text that another function writes


def texts():
    """(file, text, whether it is a whole fault) for each text in the files of faults. A name that fills a text, such as `alias`, is only a part of
    one, and so is what follows another text, such as a list of names."""
    for path in sorted(TOP.glob("crates/*/src/fault.rt")):
        for kind, text in TEXT.findall(re.sub(LEFT_OUT, "", path.read_text())):
            text = text.removeprefix("parsolve: ")
            if re.search(r"\w", re.sub(r"\{\w*\}", "", text)):
                yield path, text, kind.endswith("Fault") or kind == "Untranslated" or kind == "" and text[0] not in ",;"


def pattern(text):
    """What the page can show for a text: anything in place of what is filled in."""
    return "".join(".+" if part.startswith("{") else re.escape(part) for part in re.split(r"(\{\w*\})", text))


def code_in(text):
    return [it.replace("\\|", "|") for it in re.findall(r"`([^`]+)`", text)]


def shown():
    """Each text in the last column of a table of faults."""
    for table in re.findall(r"^\| .*Fault.* \| Text \|\n\|[-|]+\|\n((?:\| .*\n)*)", PAGE.read_text(), re.M):
        for row in table.splitlines():
            yield from code_in(row.rstrip("| ").rpartition(" | ")[2])


def on_the_page():
    """(what is checked, what is wrong with it or None) for each text in the sources."""
    spans = code_in(PAGE.read_text())
    for path, text, is_whole in texts():
        is_there = any((re.fullmatch if is_whole else re.search)(pattern(text), span) for span in spans)
        yield f"{path.relative_to(TOP)}: {text}", None if is_there else "isn't in docs/formats.md"


def in_the_sources():
    """The same for each text on the page."""
    known = [pattern(text) for _, text, _ in texts()]
    for span in shown():
        yield f"docs/formats.md: {span}", None if any(re.match(it, span) for it in known) else "is in no crates/*/src/fault.rt"


Tests = case.tests(__name__, on_the_page, in_the_sources)
