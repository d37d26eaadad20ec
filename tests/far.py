"""Runs commands whose workers are on another machine, by the script of docs/commands.md, over a stand-in for ssh (forwarder.py). The answers are those
of a single process, also over a slow line, and if the far machine refuses."""
import os
import pathlib
import re
import tempfile

import apart
import case
from case import TOP

FORWARDER = TOP / "tests/forwarder.py"


def script():
    """The script that the page shows."""
    found = re.search(r"^    (#!/bin/sh\n    exec ssh .*\n)", (TOP / "docs/commands.md").read_text(), re.M)[1]
    return found.replace("\n    ", "\n")


def why_wrong(program, command, text, does_work, **more):
    """Why the answer isn't the right one, or a worker answered against what is wanted, or didn't; or None."""
    apart.begin()
    with tempfile.TemporaryDirectory() as folder:
        path = pathlib.Path(folder, "far-worker")
        path.write_text(script())
        path.chmod(0o755)
        pathlib.Path(folder, "ssh").symlink_to(FORWARDER)
        run = apart.Run(program, command, text, str(path), 2)
        why = run.make(folder, PATH=f"{folder}:{os.environ['PATH']}", **more) or run.differs(0, apart.ANSWERS[command, text])
        has_worked = os.path.exists(os.path.join(folder, "worker"))
    return why or (None if has_worked == does_work else f"a worker answered: {has_worked}")


def answers(program):
    for command, text in apart.ANSWERS:
        yield f"{command} on {text[:20]!r}", why_wrong(program, command, text, True)


def answers_over_a_slow_line(program):
    yield "5 milliseconds one way", why_wrong(program, "measure", apart.TWO, True, PARSOLVE_DELAY="5")


def answers_if_the_port_is_taken(program):
    yield "the far machine refuses", why_wrong(program, "measure", apart.TWO, False, PARSOLVE_REFUSES="1")


Tests = case.tests(__name__, answers, answers_over_a_slow_line, answers_if_the_port_is_taken)
