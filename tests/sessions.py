"""Runs the sessions that the pages show: a command after `$`, and below it what it prints.
The sessions of a page run one after the other in a folder of their own, in which the repository's files and folders are linked,
so that a session can read what an earlier one wrote. A command that needs a tool of TOOLS is left out if that isn't installed.
"""
import pathlib
import re
import shlex
import subprocess
import tempfile

import case
from case import TOP

PAGES = ["README.md", "docs/commands.md", "docs/specifications.md"]
TOOLS = {"berkeley-abc": r"berkeley-abc|circuit small|small\.aig", "dot": r"\.svg", "yosys": r"yosys|verilog\.aag"}  # and the commands that need them


def sessions(page):
    """(command, what it prints) of each session of a page."""
    for command, printed in re.findall(r"^    \$ (.*)\n((?:    (?!\$ ).*\n)*)", (TOP / page).read_text(), re.M):
        yield command, re.sub(r"^    ", "", printed, flags=re.M)


def missing(command):
    """Why the command is left out for the tools that it needs, or None."""
    return case.lacking(*(tool for tool, words in TOOLS.items() if re.search(words, command)))


def run_page(page, program):
    """(command, why it failed or None) of each session of a page that can be run."""
    with tempfile.TemporaryDirectory() as folder:
        for path in TOP.iterdir():
            pathlib.Path(folder, path.name).symlink_to(path)
        for command, printed in sessions(page):
            if missing(command):
                yield command, missing(command)
                continue
            words = command.replace("./parsolve", shlex.quote(program))
            ran = subprocess.run(["sh", "-c", words], cwd=folder, stdout=subprocess.PIPE, stderr=subprocess.STDOUT, text=True,
                                 timeout=120)
            yield command, None if ran.stdout == printed else f"printed {ran.stdout!r}, and not {printed!r}"


def of_page(page):
    def run(program):
        return run_page(page, program)
    run.__name__ = page
    return run


Tests = case.tests(__name__, *map(of_page, PAGES))
