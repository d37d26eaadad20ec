"""Checks of ./parsolve, ./build and ./test, with a stand-in for the toolchain that proves nothing and notes what it is asked."""
import hashlib
import os
import pathlib
import re
import shutil
import subprocess
import sys
import tempfile
import time

import case
from case import TOP

CRATES = {"low": "", "left": "low", "right": "low", "parsolve": "left right", "parsolve_c": "left", "low_tests": "low"}

RTLIB = '''
import os, pathlib, time
RATTLE = "rattle"
def note(text):
    with open(os.environ["NOTES"], "a") as notes:
        notes.write(text + "\\n")
def wait_for(other):
    # of two libraries side by side neither ends before both have begun
    notes, kept = pathlib.Path(os.environ["NOTES"]), pathlib.Path(other.folder, "out/rlib/stamp")
    for _ in range(1000):
        if at_once() == 1 or f"start {other.name}" in notes.read_text() or kept.exists():
            return
        time.sleep(0.02)
class Crate:
    def __init__(self, folder, deps):
        self.folder, self.name, self.deps = folder, folder.rpartition("/")[2], deps
        self.rlib = f"{folder}/out/rlib/{self.name}.rlib"
    def below(self):
        return list(dict.fromkeys(it for dep in self.deps for it in [*dep.below(), dep]))
    def stamp(self):
        return "".join(it.stamp() for it in self.deps) + pathlib.Path(self.folder, "src/lib.rt").read_text()
    def is_built(self):
        kept = pathlib.Path(self.folder, "out/rlib/stamp")
        return kept.exists() and kept.read_text() == self.stamp()
    def prove(self, how):
        note(f"start {self.name}")
        for other in self.beside:
            wait_for(other)
        note(f"end {self.name}{how}")
        if "wrong" in self.stamp():
            print("not proved", file=self.out)
        return int("wrong" in self.stamp())
    def build_rlib(self, flags, anew):
        status, kept = self.prove(""), pathlib.Path(self.folder, "out/rlib/stamp")
        kept.parent.mkdir(exist_ok=True)
        status or kept.write_text(self.stamp())
        return status
    def words(self, flags, keeps):
        return flags
    def call(self, *words):
        return self.prove(" by statements" if "--statements" in words else "")
def crates_below(folder):
    top, found = pathlib.Path(folder).parent.parent, {}
    for line in (top / "crates.txt").read_text().splitlines():
        name, _, uses = line.partition(":")
        found[name] = Crate(str(top / "crates" / name), [found[it] for it in uses.split()])
    found["low"].beside, found["left"].beside, found["right"].beside = [], [found["right"]], [found["left"]]
    return [*found["parsolve"].below(), found["parsolve"]]
def lock(crates):
    return []
def guarded():
    return []
def fits(*needs):
    return len(needs) <= int(os.environ.get("FITS", "4"))
def at_once():
    return min(len(os.sched_getaffinity(0)), int(os.environ.get("FITS", "4")))
'''
RT = '''#!/bin/sh
[ "$1" = version ] && echo "the test's kit" && exit
echo "$1" >> "$NOTES"
grep -q wrong ../*/src/lib.rt && exit 1
[ "$1" = lib ] && exit
printf '#!/bin/sh\\necho "$@"\\ncat\\n' > out/parsolve
chmod +x out/parsolve
'''
# a stand-in for the linkers: it writes the file after -o, or the second word
LINKER = '''#!/bin/sh
file=$2
while [ $# -gt 0 ]; do [ "$1" = -o ] && file=$2; shift; done
case $file in -*) ;; *) [ -e "$file" ] || echo linked > "$file" ;; esac
'''
# a module of tests, which prints what it is given
PART = '''
import sys
import unittest
import case
class Tests(unittest.TestCase):
    def test_it(self):
        sys.stdout.write(f"{__name__} {case.PROGRAM} {case.BY_RATTLE} {case.IS_PROVING}\\n")
        sys.stdout.flush()
'''


# one whose tests fail, and take a while
FAILING = '''
import time
import unittest
class Tests(unittest.TestCase):
    def test_assertion(self):
        time.sleep(1)
        assert 1 == 2, 'of two\\nlines'
    def test_exception(self):
        time.sleep(1)
        raise ValueError('other')
'''


class Copy:
    """A repository of small crates with this one's scripts, in a folder with a blank in its name."""

    def __init__(self, folder):
        self.top, self.kit, self.notes = folder / "a copy", folder / "kit", folder / "notes"
        self.kit.mkdir()
        self.write(self.kit / "rt", RT)
        self.write(self.kit / "rtlib.py", RTLIB)
        for name in ("ld", "objcopy", "ar", "cc"):
            self.write(self.kit / name, LINKER)
            (self.kit / name).chmod(0o755)
        (self.kit / "rt").chmod(0o755)
        for name in CRATES:
            self.write(self.source(name), name)
        self.write(self.top / "crates/pg_cli_words/src/words.rt", 'const VERSION: &str = "1.2.3";\n')
        self.write(self.top / "crates.txt", "".join(f"{name}: {uses}\n" for name, uses in CRATES.items()))
        (self.top / "tools").mkdir()
        for name in ("parsolve", "build", "test", "tools/sources", "tools/fresh"):
            shutil.copy(TOP / name, self.top / name)
        for name in ("parsolve.h", "parsolve.hpp", "parsolve.pc", "pyproject.toml", "wheel_of_parsolve.py", "parsolve.py"):
            self.write(self.top / "bindings" / name, "@VERSION@")
        for path in (TOP / "tests").glob("*.py"):
            self.write(self.top / "tests" / path.name, path.read_text() if path.stem in ("case", "edits", "scripts") else PART)

    def source(self, crate):
        return self.top / "crates" / crate / "src/lib.rt"

    def write(self, path, text):
        path.parent.mkdir(parents=True, exist_ok=True)
        path.write_text(text)

    def start(self, script="parsolve", words=("solve", "two words"), **more):
        """Starts a script from another folder, through a link."""
        link = self.top.parent / f"link to {script}"
        if not link.is_symlink():
            link.symlink_to(self.top / script)
        path = f"{self.kit}:{os.environ['PATH']}"
        return subprocess.Popen([link, *words], cwd="/", text=True, stdin=subprocess.PIPE, stdout=subprocess.PIPE,
                                stderr=subprocess.PIPE, env={**os.environ, "PATH": path, "NOTES": str(self.notes), **more})

    def ended(self, ran):
        """(status, output, error stream, what the toolchain was asked) of a script that was started."""
        output, errors = ran.communicate("the input\n", timeout=300)
        return ran.returncode, output, errors, self.notes.read_text().split("\n")[:-1]

    def use(self, **more):
        """The same of one use of ./parsolve, with two words and an input."""
        self.notes.write_text("")
        return self.ended(self.start(**more))

    def build(self, *words, **more):
        """(status, error stream, what the toolchain was asked) of ./build."""
        self.notes.write_text("")
        status, _, errors, asked = self.ended(self.start("build", words, **more))
        return status, errors, asked

    def clean(self):
        """Removes whatever was built."""
        for folder in self.top.glob("crates/*/out"):
            shutil.rmtree(folder)

    def release(self):
        """Puts a program, which says that it is released, and a library into release/, as if built from these sources."""
        self.build()
        program, library = self.top / "release/bin/parsolve", self.top / "release/lib/libparsolve.so"
        self.write(program, (self.top / "crates/parsolve/out/parsolve").read_text().replace("echo", "echo released"))
        program.chmod(0o755)
        for path in (library, self.top / "release/include/parsolve.h", self.top / "release/python/parsolve/__init__.py"):
            self.write(path, "of the library")
        lines = [f"sha256 {hashlib.sha256(it.read_bytes()).hexdigest()} {it.name}" for it in (program, library)]
        for name in ("parsolve", "parsolve_c"):
            of = subprocess.run(["sh", self.top / "tools/sources", name], stdout=subprocess.PIPE, text=True, check=True).stdout.strip()
            lines.append(f"sources {name} {of}")
        self.write(self.top / "release/ABOUT", "".join(f"{it}\n" for it in lines))

    def test(self, *words):
        """(status, what it printed, line by line) of ./test, or the fault that it asked the toolchain for something."""
        self.notes.write_text("")
        status, output, _, asked = self.ended(self.start("test", words))
        return asked or (status, [line for line in output.splitlines() if not line.startswith("tests: ")])


AT_ONCE = min(len(os.sched_getaffinity(0)), 4)  # how many libraries ./build proves at a time: more of them don't fit into the stand-in's memory
RIGHT = (0, "solve two words\nthe input\n", "", [])
STALE = "parsolve: crates/parsolve/out/parsolve wasn't built from these sources, and there is no release/bin/parsolve\n"
UNBUILT = "parsolve: there is no crates/parsolve/out/parsolve, and there is no release/bin/parsolve\n"
HOW = "parsolve: ./build proves and builds it\n"


def refused(why=STALE):
    """A use that says why there is no program and how to build it, runs none, and proves nothing."""
    return 1, "", why + HOW, []


def proof(crate, processes):
    """What the toolchain is asked for the proof of a library by so many processes: by statements if it is one."""
    return [f"start {crate}", f"end {crate}{'' if processes > 1 else ' by statements'}"]


def build_proofs(at_once):
    """The same for a first build that proves so many libraries at a time; `left` and `right` are independent, and come in any order."""
    low, left, right = (proof(*it) for it in (("low", at_once), ("left", at_once // 2), ("right", at_once // 2)))
    return [*low, *([left, right] if at_once == 1 else zip(left, right)), "run"]


def in_any_order(asked, at_once):
    """What was asked, in the form of `build_proofs`."""
    if len(asked) != 7:
        return asked
    middle = [asked[2:4], asked[4:6]]
    return [*asked[:2], *(sorted(middle) if at_once == 1 else (tuple(sorted(it)) for it in middle)), *asked[6:]]


def first_build(copy):
    """Nothing is proved unasked. ./build proves the libraries, independent ones at once if there are the processors and the memory, and names
    the kit; then the program runs."""
    yield "before", copy.use(), refused(UNBUILT)
    for at_once in range(1, AT_ONCE + 1):
        copy.clean()
        status, errors, asked = copy.build(FITS=str(at_once))
        yield f"{at_once} at once", (status, in_any_order(asked, at_once)), (0, build_proofs(at_once))
        yield f"{at_once} at once: the kit", errors if "by the test's kit\n" not in errors else None
        yield f"{at_once} at once: the program", copy.use(), RIGHT


def later_uses(copy):
    """The program runs if nothing changed, and after a change of a crate of tests."""
    copy.build()
    yield "the first", copy.use(), RIGHT
    copy.write(copy.source("low_tests"), "changed")
    yield "the second, after a change of tests", copy.use(), RIGHT
    yield "the third", copy.use(), RIGHT


def changes(copy):
    """After a change of a library the program is refused; ./build proves it and the crates that use it, and nothing else."""
    copy.build()
    copy.write(copy.source("left"), "changed")
    yield "before", copy.use(), refused()
    yield "what is proved", copy.build()[2], [*proof("left", AT_ONCE), "run"]
    yield "after", copy.use(), RIGHT


def set_back(copy):
    """A source that changed is found, though its size and its time are as they were, and though the program is newer."""
    copy.build()
    copy.use()
    source, program = copy.source("left"), copy.top / "crates/parsolve/out/parsolve"
    times = (source.stat().st_atime_ns, source.stat().st_mtime_ns)
    copy.write(source, "tfel")
    os.utime(source, ns=times)
    yield "of the same size and time", copy.use(), refused()
    os.utime(program, (time.time() + 1e6,) * 2)
    yield "older than the program", copy.use(), refused()


def laid_over(copy):
    """An older tree that is copied over this one, with its times, is found, and so is this one when it comes back."""
    older = copy.top.parent / "older"
    shutil.copytree(copy.top, older)
    time.sleep(0.02)
    copy.write(copy.source("left"), "newer")
    copy.build()
    yield "before", copy.use(), RIGHT
    newer = copy.top.parent / "newer"
    shutil.copytree(copy.top / "crates/left", newer / "crates/left")
    subprocess.run(["cp", "-pr", f"{older}/crates", copy.top], check=True)
    yield "the older one", copy.use(), refused()
    subprocess.run(f"tar cf - -C '{newer}' crates | tar xf - -C '{copy.top}'", shell=True, check=True)
    yield "back again", copy.use(), RIGHT


def other_lines(copy):
    """A change of the crates that a crate uses is found; a line of tests changes nothing, nor does a comment."""
    copy.build()
    lines = (copy.top / "crates.txt").read_text()
    copy.write(copy.top / "crates.txt", f"# of tests\n{lines}other_tests: low\n")
    yield "a line of tests", copy.use(), RIGHT
    copy.write(copy.top / "crates.txt", lines.replace("right: low", "right: low left"))
    yield "another line of a crate", copy.use(), refused()


def moved_sources(copy):
    """A source that is gone, or new, is found."""
    copy.build()
    copy.write(copy.source("left").with_name("more.rt"), "more")
    yield "new", copy.use(), refused()
    copy.source("left").with_name("more.rt").unlink()
    yield "as before", copy.use(), RIGHT
    copy.source("right").unlink()
    yield "gone", copy.use(), refused()


def other_programs(copy):
    """A program that is empty, or isn't the one that was built, doesn't run."""
    copy.build()
    program = copy.top / "crates/parsolve/out/parsolve"
    text = program.read_text()
    yield "the program", copy.use(), RIGHT
    copy.write(program, text.replace("echo", "echo other"))
    yield "another one", copy.use(), refused()
    copy.write(program, "")
    yield "an empty one", copy.use(), refused(UNBUILT)
    copy.write(program, text)
    yield "the program again", copy.use(), RIGHT


def fewer_tools(copy):
    """Tools without their run bit work as before. If one is gone, or find isn't on the path, the program doesn't run."""
    copy.build()
    for name in ("fresh", "sources"):
        (copy.top / "tools" / name).chmod(0o644)
    yield "without run bits", copy.use(), RIGHT
    for name in ("sh", "awk", "cat", "cut", "dirname", "grep", "mkdir", "mv", "readlink", "sha256sum", "sort", "xargs"):
        (copy.kit / name).symlink_to(shutil.which(name))
    status, output, errors, _ = copy.use(PATH=str(copy.kit))
    yield "without find", (status, output, errors[-len(STALE + HOW):]), (1, "", STALE + HOW)
    (copy.top / "tools/fresh").unlink()
    status, output, errors, _ = copy.use()
    yield "without tools/fresh", (status, output, errors[-len(HOW):]), (1, "", HOW)


def sums(copy):
    """If nothing changed, no sum is made, so that a call is quick; if a time did, the sums are made once."""
    copy.build()
    copy.write(copy.kit / "sha256sum", f'#!/bin/sh\necho sum >> "$NOTES"\nexec {shutil.which("sha256sum")} "$@"\n')
    (copy.kit / "sha256sum").chmod(0o755)
    made = (*RIGHT[:3], ["sum"] * 3)
    yield "the first use", copy.use(), made
    yield "the second", copy.use(), RIGHT
    copy.source("left").touch()
    yield "the first after a time changed", copy.use(), made
    yield "the second", copy.use(), RIGHT


def failures(copy):
    """If a library isn't proved, the status is 1, and the error stream says where the log is."""
    copy.write(copy.source("left"), "wrong")
    status, errors, asked = copy.build()
    log = copy.top / "crates/left/out/build.log"
    yield "the status", status, 1
    yield "the log's path", errors if str(log) not in errors else None
    yield "the log", log.read_text(), "not proved\n"
    yield "the program isn't built", "run" in asked, False


def little_memory(copy):
    """If memory is short, the libraries are proved one after the other, each by one process, so by statements."""
    status, errors, asked = copy.build(FITS="1")
    yield "the status", (status, errors if status else ""), (0, "")
    yield "what is proved", in_any_order(asked, 1), build_proofs(1)


def at_once(copy):
    """Of two builds at once, one builds and the other waits."""
    copy.notes.write_text("")
    both = [copy.start("build", ()), copy.start("build", ())]
    ended = [(it.communicate(timeout=300)[1], it.returncode) for it in both]
    yield "both end", [f"status {status}: {errors}" for errors, status in ended if status], []
    yield "one builds", [it for it in copy.notes.read_text().split("\n") if it == "start low"], ["start low"]


def other_toolchain(copy):
    """With a toolchain whose library can't be used, `rt` alone builds the program."""
    (copy.kit / "rtlib.py").unlink()
    status, _, asked = copy.build()
    yield "what is asked", (status, asked), (0, ["run"])


def no_toolchain(copy):
    """Without a toolchain ./build says what is missing, and so does ./test --proofs, in a line."""
    (copy.kit / "rt").unlink()
    for name in ("sh", "awk", "cat", "cut", "dirname", "find", "grep", "readlink", "sha256sum", "sort", "xargs"):
        (copy.kit / name).symlink_to(shutil.which(name))
    (copy.kit / "python3").symlink_to(sys.executable)
    status, errors, _ = copy.build(PATH=str(copy.kit))
    lost = [it for it in ("rt isn't on the path", "Rattle kit", "rt version") if it not in errors]
    yield "./build", (status, lost and errors), (1, [])
    proofs = copy.ended(copy.start("test", ["--proofs"], PATH=str(copy.kit)))
    yield "./test --proofs", proofs[:3], (1, "test: the command rt isn't on the path, so nothing can be proved\n", "")


def releasing(copy):
    """./build --release takes the program that was built from the sources, builds the library, and describes both. It has the library once."""
    copy.build()
    copy.write(copy.top / "crates/parsolve_c/out/libparsolve_c.a", "made by the test")
    status, errors, asked = copy.build("--release")
    yield "what is asked", (status, asked, errors if status else ""), (0, ["lib"], "")
    release, built = copy.top / "release", copy.top / "crates/parsolve/out/parsolve"
    about = (release / "ABOUT").read_text().splitlines()
    files = ("bin/parsolve", "lib/libparsolve.a", "lib/libparsolve.so")
    wanted = ["kit the test's kit", "program parsolve 1.2.3", *(f"sha256 {hashlib.sha256((release / it).read_bytes()).hexdigest()} "
                                                                f"{it.rpartition('/')[2]}" for it in files)]
    yield "the program", (release / "bin/parsolve").read_bytes(), built.read_bytes()
    yield "ABOUT", sorted(it for it in about if not it.startswith("sources")), sorted(wanted)
    yield "ABOUT: sources", [it.split()[1] for it in about if it.startswith("sources")], ["parsolve", "parsolve_c"]
    yield "the version", (release / "include/parsolve.h").read_text(), "1.2.3"
    yield "libraries", [str(it.relative_to(release)) for it in release.rglob("*.so")], ["lib/libparsolve.so"]


def released(copy):
    """If nothing is built, the released program runs if it was built from these sources, even without a toolchain, in a folder of another
    name; after a change it doesn't."""
    copy.release()
    copy.clean()
    copy.top = copy.top.rename(copy.top.with_name("another copy"))
    (copy.top.parent / "link to parsolve").unlink(missing_ok=True)
    right = (0, "released " + RIGHT[1], "", [])
    yield "without a toolchain", copy.use(PATH=os.environ["PATH"]), right
    copy.write(copy.source("low_tests"), "changed")
    yield "after a change of tests", copy.use(), right
    copy.write(copy.source("left"), "changed")
    why = "parsolve: there is no crates/parsolve/out/parsolve, and release/bin/parsolve wasn't built from these sources\n"
    yield "after a change", copy.use(), refused(why)


def to_install(copy):
    """Lays what an installation of the copy needs beside the released program, and removes what was built."""
    copy.release()
    shutil.rmtree(copy.top / "crates/parsolve/out", ignore_errors=True)
    for part in ("share", "examples"):
        copy.write(copy.top / part / "some/file", part)
    for name in ("circuit", "draw", "hoa", "pg", "tlsf", "where", "games.py"):
        copy.write(copy.top / "tools" / name, "print('here')")
    for name in ("release/README.md", "CITATION.cff", "LICENSE-APACHE", "LICENSE-MIT"):
        copy.write(copy.top / name, name)


def below(folder):
    """The paths below a folder."""
    return {str(it.relative_to(folder)) for it in folder.rglob("*")}


def installing(copy):
    """./build --install installs program, library, tools and pages of release/, and asks the toolchain for nothing. The Python package gets a
    library of its own. It lists what it put there."""
    to_install(copy)
    folder = copy.top.parent / "a prefix"
    for time_of in ("the first time", "again"):
        status, errors, asked = copy.build("--install", str(folder), PATH=os.environ["PATH"])
        yield time_of, (status, asked, errors if status else ""), (0, [], "")
    laid = {it for it in below(folder) if (folder / it).is_file()}
    wanted = {"bin/parsolve", "bin/parsolve-draw", "share/some/file", "share/parsolve/examples/some/file", "share/parsolve/tools/games.py",
              "share/parsolve/README.md", "share/parsolve/LICENSE-MIT", "lib/libparsolve.so", "include/parsolve.h", "python/parsolve/__init__.py",
              "python/parsolve/libparsolve.so", "share/parsolve/CITATION.cff", "share/parsolve/INSTALLED"}
    yield "what isn't there", sorted(wanted - laid), []
    yield "what is there", sorted({"share/parsolve/tools/fresh"} & laid), []
    listed = (folder / "share/parsolve/INSTALLED").read_text().splitlines()
    yield "the list", listed, sorted(it + "/" * (folder / it).is_dir() for it in below(folder))


def uninstalling(copy):
    """./build --uninstall removes what --install put into a folder, and what Python compiled of it; all else stays, and so does what a user put
    beside it. What a newer version doesn't have goes when it is installed."""
    to_install(copy)
    folder, path = copy.top.parent / "a prefix", os.environ["PATH"]
    copy.write(folder / "bin/other", "other")
    before = below(folder)
    copy.build("--install", str(folder), PATH=path)
    copy.write(folder / "share/parsolve/tools/__pycache__/games.cpython-39.pyc", "compiled")
    copy.write(copy.top / "tools/newer.py", "newer")
    (copy.top / "tools/games.py").unlink()
    copy.build("--install", str(folder), PATH=path)
    tools = below(folder / "share/parsolve/tools")
    yield "a newer version", sorted(tools & {"games.py", "newer.py", "__pycache__"}), ["newer.py"]
    copy.write(folder / "share/parsolve/tools/__pycache__/newer.cpython-39.pyc", "compiled")
    copy.write(folder / "share/parsolve/mine", "mine")
    yield "the status", copy.build("--uninstall", str(folder), PATH=path)[:2], (0, "")
    yield "what stays", below(folder), before | {"share", "share/parsolve", "share/parsolve/mine"}
    told = f"parsolve: there is no {folder}/share/parsolve/INSTALLED, which ./build --install writes, so nothing is removed\n"
    yield "once more", copy.build("--uninstall", str(folder), PATH=path)[:2], (1, told)
    copy.write(folder / "share/parsolve/INSTALLED", "bin/other\n../a copy/build\n")
    told = f"parsolve: {folder}/share/parsolve/INSTALLED isn't a list that ./build --install wrote\n"
    yield "a list of other files", (copy.build("--uninstall", str(folder), PATH=path)[:2], (folder / "bin/other").exists()), ((1, told), True)


def packaging(copy):
    """DESTDIR and --prefix say where the files go, as packagers use them."""
    to_install(copy)
    folder, more = copy.top.parent / "a package", {"PATH": os.environ["PATH"], "DESTDIR": str(copy.top.parent / "a package")}
    folder.mkdir()
    for words, place in ((["--prefix", "/usr"], "usr"), ([], "usr/local"), (["/opt/parsolve"], "opt/parsolve")):
        yield f"--install {words}", copy.build("--install", *words, **more)[:2], (0, "")
        yield f"{place}: the program", (folder / place / "bin/parsolve").is_file(), True
        yield f"{place}: nothing of the package's folder", [it for it in below(folder / place) if str(folder) in it], []
        yield f"--uninstall {words}", copy.build("--uninstall", *words, **more)[:2], (0, "")
        yield f"{place}: what stays", below(folder / place), set()
        shutil.rmtree(folder / place.partition("/")[0])
    for words in (["--prefix", "/usr"], ["--install", "/opt", "--prefix", "/usr"], ["--install", ""], ["--install", "/a", "--uninstall", "/a"]):
        yield f"{words}", (copy.build(*words, **more)[0], below(folder)), (2, set())
    copy.write(folder / "opt", "a file")
    yield "a file in the way", copy.build("--install", "/opt", **more)[:2], (1, f"parsolve: {folder}/opt/bin: Not a directory\n")


MODULES = re.search(r'^MODULES = """(.*?)"""', (TOP / "test").read_text(), re.M | re.S)[1].split()


def test_of_built(copy):
    """./test asks the toolchain for nothing, and tries the program that was built, and everything that needs no program."""
    copy.build()
    status, lines = copy.test()
    program = copy.top / "crates/parsolve/out/parsolve"
    yield "the tests", (status, sorted(lines[:-1])), (0, sorted(f"{it} {program} None False" for it in MODULES))
    yield "the last line", lines[-1], f"{len(MODULES)} passed, 0 failed"


def test_of_released(copy):
    """It tries the released program if nothing is built and that one was built from the sources."""
    copy.release()
    shutil.rmtree(copy.top / "crates/parsolve/out", ignore_errors=True)
    yield "rows", [it for it in copy.test()[1] if it.startswith("rows ")], [f"rows {copy.top / 'release/bin/parsolve'} None False"]


def test_of_none(copy):
    """If no program was built from the sources, it says so, fails for that, and tries all the rest."""
    status, lines = copy.test()
    told = "test: there is no crates/parsolve/out/parsolve, and there is no release/bin/parsolve, so no program is tried"
    yield "the status", status, 1
    yield "what it says", sorted({told, "rows None None False"} - {*lines}), []
    yield "the last line", lines[-1], f"{len(MODULES)} passed, 1 failed"


def test_of_one(copy):
    """With -k it tries only the tests whose names have the word; with --program another program."""
    copy.build()
    yield "-k", copy.test("-k", "rows"), (0, [f"rows {copy.top / 'crates/parsolve/out/parsolve'} None False", "1 passed, 0 failed"])
    yield "--program", copy.test("-k", "rows", "--program", "/bin/true"), (0, ["rows /bin/true None False", "1 passed, 0 failed"])
    yield "no such test", copy.test("-k", "no such test"), (1, ["test: no test has no such test in its name", "0 passed, 1 failed"])


def test_that_fails(copy):
    """It prints why a test fails: all of it, with the traceback of what isn't the test's own text. After a minute it says how far it is."""
    copy.build()
    copy.write(copy.top / "tests/rows.py", FAILING)
    case_py = copy.top / "tests/case.py"
    case_py.write_text(re.sub(r"^(START, PACE = .*, )60", r"\g<1>0.2", case_py.read_text(), flags=re.M))
    copy.notes.write_text("")
    status, output, errors, _ = copy.ended(copy.start("test", ["-k", "rows"]))
    wanted = ["rows.Tests.test_assertion: Traceback", "assert 1 == 2, 'of two\\nlines'", "AssertionError: of two\nlines\n",
              "rows.Tests.test_exception: Traceback", "raise ValueError('other')", "ValueError: other\n", "\n0 passed, 2 failed\n"]
    yield "the output", (status, [it for it in wanted if it not in output], output if status != 1 else ""), (1, [], "")
    told = re.match(r"test: 0 of 2 tests are done after 0 min; running: rows ", errors)
    yield "how far it is", None if told else f"{errors!r}"


CHECKS = (first_build, later_uses, changes, set_back, laid_over, other_lines, moved_sources, other_programs, fewer_tools, sums, failures,
          little_memory, at_once, other_toolchain, no_toolchain, releasing, released, installing, uninstalling, packaging, test_of_built,
          test_of_released, test_of_none, test_of_one, test_that_fails)


def in_a_copy(check):
    """The check in a copy of its own, as a function that yields its parts."""
    def run():
        with tempfile.TemporaryDirectory() as folder:
            yield from check(Copy(pathlib.Path(folder).resolve()))
    run.__name__ = check.__name__
    return run


Tests = case.tests(__name__, *map(in_a_copy, CHECKS))
