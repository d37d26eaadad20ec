"""What the tests of this folder share: how to make tests of functions, the program to try, and how to run all of them."""
import inspect
import multiprocessing
import os
import pathlib
import re
import shutil
import subprocess
import sys
import time
import traceback
import unittest
from concurrent.futures import FIRST_COMPLETED, ProcessPoolExecutor, wait

try:
    import tomllib
except ImportError:  # before Python 3.11
    tomllib = None

TOP = pathlib.Path(__file__).resolve().parent.parent
START, PACE = time.monotonic(), 60  # seconds between two reports of how far the tests are
PROGRAM, BY_RATTLE, IS_PROVING = None, None, False  # the programs to try, and whether tests may prove something: ./test sets them first
LeftOut = unittest.SkipTest  # instead of why something fails: why it isn't tried here
TESTS = []


class Wrong(AssertionError):
    """Why a part of a test fails, in a text that says all of it."""


def why_wrong(why, *wanted):
    """Why a part fails, or None; it is given that, or the result and the wanted result."""
    return why if not wanted or isinstance(why, LeftOut) else None if why == wanted[0] else f"{why!r}, and not {wanted[0]!r}"


def hold(test, parts):
    """Takes the parts of a test: (name, why it fails or None), or (name, result, wanted result)."""
    for name, *found in parts:
        with test.subTest(name):
            fail_for(why_wrong(*found))


def fail_for(why):
    if isinstance(why, LeftOut):
        raise why
    if why is not None:
        raise Wrong(why)


def tests(module, *functions):
    """A class with a test for each function, which yields its parts. A test of a function that takes the program is left out if there is none."""
    def test(function):
        def of_program(self):
            if PROGRAM is None:
                raise LeftOut("no program is of these sources")
            hold(self, function(PROGRAM))
        return of_program if inspect.signature(function).parameters else lambda self: hold(self, function())
    return type("Tests", (unittest.TestCase,), {"__module__": module, **{f"test_{it.__name__}": test(it) for it in functions}})


def tests_by_name(module, named):
    """A class with a test for each (name, call), which answers why it fails or None."""
    return type("Tests", (unittest.TestCase,), {"__module__": module, **{
        f"test {name}": lambda self, call=call: fail_for(call()) for name, call in named}})


def without_notes(errors):
    """An error stream without the notes in it."""
    return b"".join(line for line in errors.splitlines(keepends=True) if not line.startswith(b"parsolve: note: "))


def fresh(crate):
    """The program or library of the crate that was built from these sources, or why there is none."""
    ran = subprocess.run(["sh", TOP / "tools/fresh", crate], capture_output=True, text=True)
    return ran.stdout.strip() if ran.returncode == 0 else LeftOut(ran.stderr.strip().removeprefix("parsolve: "))


def lacking(*commands):
    """Why a test that needs these commands is left out, or None."""
    names = [it for it in commands if shutil.which(it) is None]
    return LeftOut(f"{' and '.join(names)} {'isn' if len(names) == 1 else 'aren'}'t installed") if names else None


def rows_in(name):
    """What a file of rows/ holds."""
    if tomllib is None:
        raise LeftOut("only Python 3.11 and newer read the files of rows/")
    return tomllib.loads((TOP / "rows" / name).read_text())


class Result(unittest.TestResult):
    """Counts each part of a test, and each test that has none."""

    def __init__(self):
        super().__init__()
        self.passed, self.faults, self.left_out, self.has_parts = 0, [], [], False

    def addSuccess(self, test):
        self.passed += not self.has_parts

    def addSubTest(self, test, part, error):
        self.has_parts = True
        if error is None:
            self.passed += 1
        else:
            self.addError(part, error)

    def addSkip(self, test, reason):
        self.left_out.append((reason, test.id().partition(".")[0]))

    def addError(self, test, error):
        why = error[1] if issubclass(error[0], Wrong) else "".join(traceback.format_exception(*error))
        self.faults.append(f"{test.id()}: {why}")

    addFailure = addError


def flat(suite):
    for it in suite:
        yield from flat(it) if isinstance(it, unittest.TestSuite) else [it]


def attempt(place):
    """The result of a test: how many of its parts passed, what failed, what was left out."""
    result = Result()
    TESTS[place](result)
    return result.passed, result.faults, result.left_out


def load(modules, word=None):
    """The places in TESTS of the tests of these modules; only of those whose name has the word, if one is given."""
    loader = unittest.TestLoader()
    loader.testNamePatterns = word and [f"*{word}*"]
    first = len(TESTS)
    TESTS.extend(flat(loader.loadTestsFromNames(modules)))
    return range(first, len(TESTS))


def run(places, at_once=None):
    """Runs the tests at these places, `at_once` at a time, or as many as there are processors. Answers how many parts passed and failed, and
    for each that was left out the reason and its module."""
    passed, failed, left_out, told = 0, 0, [], time.monotonic()
    at_once = at_once or len(os.sched_getaffinity(0))
    with ProcessPoolExecutor(at_once, multiprocessing.get_context("fork")) as pool:
        open_tests = {pool.submit(attempt, place): place for place in places}
        while open_tests:
            for ended in wait(open_tests, max(0, told + PACE - time.monotonic()), FIRST_COMPLETED).done:
                del open_tests[ended]
                good, faults, more = ended.result()
                passed, failed, left_out = passed + good, failed + len(faults), left_out + more
                for fault in faults:
                    print(fault, flush=True)
            if open_tests and time.monotonic() >= told + PACE:
                told = time.monotonic()
                tell(places.stop - len(open_tests), list(open_tests.values())[:at_once])
    return passed, failed, left_out


def tell(done, running):
    """Says on stderr how far the tests are. Tests begin in their order, so those that run are the first ones that haven't ended."""
    names = ", ".join(re.sub(r"\.Tests\.test[ _]", " ", TESTS[place].id()) for place in running)
    print(f"test: {done} of {len(TESTS)} tests are done after {(time.monotonic() - START) / 60:.0f} min; running: {names}", file=sys.stderr, flush=True)
