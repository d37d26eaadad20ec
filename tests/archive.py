"""Checks the archive of `./build --archive`: two archives of the same sources are the same, byte for byte, and each part works if the
archive is unpacked into an empty home."""
import pathlib
import re
import subprocess
import sys
import tempfile

import case
import embedding
from case import TOP

EXAMPLES = TOP / "examples"
# commands to type in the unpacked folder, and their output
TYPED = [
    ("bin/parsolve solve share/parsolve/examples/mutex.pg", (EXAMPLES / "mutex.solution").read_text()),
    ("bin/parsolve check share/parsolve/examples/mutex.pg share/parsolve/examples/mutex.solution", "WINS\n"),
    ("bin/parsolve-hoa --outs grant share/parsolve/examples/spot-implicit.hoa | bin/parsolve synth | sed -n 1p", "REALIZABLE\n"),
    ("echo '/* */ 0 0 0 0;' | bin/parsolve-pg 2> note | bin/parsolve solve | sed -n 2p; rm note", "0 0 0;\n"),
    ("bin/parsolve synth share/parsolve/examples/request-grant.hoa > answer; echo request | bin/parsolve-circuit simulate answer | wc -l", "2\n"),
    ("bin/parsolve-draw --dot share/parsolve/examples/two.pg | sed -n 1p", "digraph game {\n"),
    ("echo 'workers 1;' | bin/parsolve-draw --replay share/parsolve/examples/two.pg - | wc -l", "2\n"),
    ("bin/parsolve-tlsf --outs share/parsolve/examples/arbiter.tlsf", "grant_0,grant_1\n"),
    ("bin/parsolve-where share/parsolve/examples/two.pg 0 | sed -n 1p", "line 1, column 1\n"),
    ("grep -c '^.TH PARSOLVE 1 ' share/man/man1/parsolve.1", "1\n"),
    ("bash -c '. share/bash-completion/completions/parsolve; COMP_WORDS=(parsolve s); COMP_CWORD=1; _parsolve; echo ${COMPREPLY[@]}'",
     "solve synth\n"),
    ("rm answer; ls", "README.md\nbin\ninclude\nlib\npython\nshare\n"),
]


def session(top, home):
    """(what was typed, why it printed something else or None)."""
    path = f"{pathlib.Path(sys.executable).parent}:/usr/local/bin:/usr/bin:/bin"
    environment = {"HOME": str(home), "PATH": path, "PYTHONDONTWRITEBYTECODE": "1"}
    for typed, wanted in TYPED:
        ran = subprocess.run(["sh", "-c", typed], cwd=top, env=environment, capture_output=True, text=True, timeout=120)
        yield typed, None if (ran.stdout, ran.stderr) == (wanted, "") else f"printed {ran.stdout!r} {ran.stderr!r}"


def paths(top):
    """(a path that the page of the archive names, why it isn't there or None)."""
    text = (top / "README.md").read_text()
    for path in sorted({*re.findall(r"\]\(([^)#:]+)", text), *re.findall(r"(?<![\w/.~-])(?:bin|include|lib|python|share)/[\w./-]*\w", text)}):
        yield f"README.md: {path}", None if (top / path).exists() else "there is no such file"


def whole(program):
    """The archive is made, unpacked and used."""
    if embedding.untried():
        yield "the archive", embedding.untried()
        return
    with tempfile.TemporaryDirectory() as made:
        home, work, folders = pathlib.Path(made, "home"), pathlib.Path(made, "work"), [pathlib.Path(made, it) for it in ("one", "two")]
        home.mkdir()
        work.mkdir()
        why = next(filter(None, (embedding.ran([TOP / "build", "--archive", it], timeout=7200) for it in folders)), None)
        yield "./build --archive", why
        if why:
            return
        one, two = ({path.name: path.read_bytes() for path in folder.iterdir()} for folder in folders)
        yield "the same bytes each time", None if one == two else f"{sorted(one)} and {sorted(two)} differ"
        [archive] = folders[0].glob("parsolve-*-linux-x86_64.tar.gz")
        yield "its sum", embedding.ran(["sha256sum", "-c", f"{archive.name}.sha256"], cwd=archive.parent)
        yield "unpacked", embedding.ran(["tar", "xzf", archive], cwd=home)
        top = home / archive.name.removesuffix(".tar.gz")
        yield from session(top, home)
        yield from paths(top)
        yield from embedding.example_checks(top, work)


Tests = case.tests(__name__, whole)
