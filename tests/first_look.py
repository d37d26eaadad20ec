"""Runs the command of the README that compiles the program with nothing proved, in a copy of the crates in which nothing was built,
and checks that it prints the solution of the example."""
import pathlib
import re
import shutil
import subprocess
import tempfile
import time

import case
import library
from case import TOP



def command():
    """The command, as the README shows it."""
    return re.search(r"^    (\(cd crates/parsolve && rt try -- .*\))$", (TOP / "README.md").read_text(), re.M)[1]


def why_wrong():
    """Why the command doesn't do what it must, or None."""
    with tempfile.TemporaryDirectory() as made:
        folder = pathlib.Path(made)
        library.copy_crates(folder, ["parsolve"])
        shutil.copytree(TOP / "examples", folder / "examples")
        start = time.monotonic()
        ran = subprocess.run(["sh", "-c", command()], cwd=folder, stdin=subprocess.DEVNULL, capture_output=True, text=True)
        print(f"first look: {time.monotonic() - start:.0f} seconds")
    is_right = ran.returncode == 0 and ran.stdout == (TOP / "examples/mutex.solution").read_text()
    return None if is_right else f"status {ran.returncode}: {ran.stdout}{ran.stderr}"


def look():
    """The part of the test."""
    yield "the README's first look", why_wrong()


Tests = case.tests(__name__, look)
