"""Checks release/: ABOUT describes what is there, and the package for Python works there. If something was proved, the release is of these
sources, and its program is the same, byte for byte, as the one that the same kit built from them."""
import hashlib
import os
import subprocess
import sys
import tempfile
import zipfile

import case
import scripts
from case import TOP

RELEASED, ABOUT = TOP / "release", TOP / "release/ABOUT"


def output(*words, **more):
    return subprocess.run(words, stdin=subprocess.DEVNULL, stdout=subprocess.PIPE, text=True, check=True, **more).stdout.strip()


def about():
    """The lines of ABOUT by their first word, without it."""
    found = {}
    for line in ABOUT.read_text().splitlines():
        word, _, rest = line.partition(" ")
        found.setdefault(word, []).append(rest)
    return found


def told():
    """ABOUT has the version, and the sum of each program and library."""
    yield "the version", about()["program"], [output(RELEASED / "bin/parsolve", "--version")]
    files = [path for pattern in ("bin/*", "lib/libparsolve.*") for path in sorted(RELEASED.glob(pattern))]
    yield "sums", about()["sha256"], [f"{hashlib.sha256(it.read_bytes()).hexdigest()} {it.name}" for it in files]


def package():
    """The package for Python uses the one library, that of lib/, where it is, and a wheel of it has a copy."""
    library = RELEASED / "lib/libparsolve.so"
    yield "libraries", [*RELEASED.rglob("*.so")], [library]
    with tempfile.TemporaryDirectory() as folder:
        where = {"cwd": folder, "env": {**os.environ, "PYTHONPATH": str(RELEASED / "python"), "PYTHONDONTWRITEBYTECODE": "1"}}
        solve = "import parsolve; print(parsolve.answer('solve', b'0 2 0 0;').decode(), end='')"
        yield "in its place", output(sys.executable, "-c", solve, **where), "paritysol 0;\n0 0 0;"
        wheel = output(sys.executable, "-c", "import wheel_of_parsolve; print(wheel_of_parsolve.build_wheel('.'))", **where)
        with zipfile.ZipFile(f"{folder}/{wheel}") as file:
            yield "a wheel", file.read("parsolve/libparsolve.so") == library.read_bytes(), True


def of_sources():
    """The release is of these sources; if it isn't, ./build --release makes it again."""
    if not case.IS_PROVING:
        yield "the sources", case.LeftOut("only ./test --proofs asks whether release/ is of these sources")
        return
    yield "the sources", about()["sources"], [f"{it} {output(TOP / 'tools/sources', it)}" for it in ("parsolve", "parsolve_c")]
    kit = scripts.script("build").kit()
    if about()["kit"] != [kit]:
        yield "what was built", case.LeftOut(f"release/ was made by {about()['kit'][0]}, and this is {kit}")
        return
    is_same = (RELEASED / "bin/parsolve").read_bytes() == (TOP / "crates/parsolve/out/parsolve").read_bytes()
    yield "what was built", None if is_same else "differs from release/bin/parsolve"


Tests = case.tests(__name__, told, package, of_sources)
