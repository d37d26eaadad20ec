"""What the tools have in common: faults, the tokens of a text, reading inputs, running programs and writing answers."""
import argparse
import pathlib
import re
import subprocess
import sys

HERE = pathlib.Path(__file__).resolve()
# in a checkout, or in an installation
PROGRAM = next((it for it in (HERE.parents[1] / "parsolve", *(up / "bin/parsolve" for up in list(HERE.parents)[3:4])) if it.is_file()),
               pathlib.Path("parsolve"))
LONGEST_INPUT, GREATEST_NUMBER = 268435456, 4294967295
AUTOMATON_BLANKS, COMMENT_MARK = re.compile(rb"[\t\n\r ]*"), re.compile(rb"/\*|\*/")


class Fault(Exception):
    """What is wrong, in the words that the user sees."""


def command_line(text):
    """A reader of a tool's command line, with its help text. If the tool was called by the name that it is installed under, the text calls
    all tools by such names."""
    called = pathlib.Path(sys.argv[0]).name
    return argparse.ArgumentParser(description=text.replace("tools/", "parsolve-") if called.startswith("parsolve-") else text,
                                   formatter_class=argparse.RawDescriptionHelpFormatter, prog=called, allow_abbrev=False)


class Tokens:
    """The tokens of a text, one after another: the kind, bytes, number and place of the next one."""

    def __init__(self, text, pattern, skip):
        self.text, self.pattern, self.skip, self.behind = text, pattern, skip, 0
        self.go_on()

    def go_on(self):
        """Skips the next token."""
        self.place = self.skip(self.text, self.behind)
        found = self.pattern.match(self.text, self.place)
        self.kind = found.lastgroup if found else "end" if self.place == len(self.text) else "unknown"
        self.bytes = found[0] if found else b""
        self.behind = self.place + len(self.bytes)
        if self.kind == "number":
            self.number = int(self.bytes.lstrip(b"0")[:11] or b"0")
            if self.number > GREATEST_NUMBER:
                raise Fault(f"number too large at byte {self.place}")

    def take(self, kind, *words):
        """Skips a token of this kind, and of these words if any are given; answers its number or bytes."""
        if self.kind != kind or (words and self.bytes not in words):
            raise Fault(f"syntax error at byte {self.place}")
        taken = self.number if kind == "number" else self.bytes
        self.go_on()
        return taken

    def take_below(self, limit):
        """The same for a number that must be below the limit."""
        if self.kind == "number" and self.number >= limit:
            raise Fault(f"number out of range at byte {self.place}")
        return self.take("number")


def skip_comments(text, place):
    """The place after white space and comments of an automaton; comments nest."""
    place, depth = AUTOMATON_BLANKS.match(text, place).end(), 0
    while depth or text.startswith(b"/*", place):
        mark = COMMENT_MARK.search(text, place)
        if not mark:
            raise Fault(f"syntax error at byte {begin}")
        begin = begin if depth else place
        depth += 1 if mark[0] == b"/*" else -1
        place = mark.end() if depth else AUTOMATON_BLANKS.match(text, mark.end()).end()
    return place


def content_of(string):
    """The bytes that a string of an automaton stands for."""
    return re.sub(rb"\\(.)", rb"\1", string[1:-1], flags=re.S)


def shown(name):
    """The bytes of a name as text that a picture can hold."""
    return "".join(letter if letter.isprintable() else "\ufffd" for letter in name.decode("utf-8", "replace"))


def read_input(path):
    """The bytes of a file, or of standard input."""
    try:
        with open(0 if path == "-" else path, "rb", closefd=path != "-") as file:
            text = file.read(LONGEST_INPUT + 1)
    except OSError as error:
        raise Fault(error.strerror)
    if len(text) > LONGEST_INPUT:
        raise Fault(f"more than {LONGEST_INPUT} bytes")
    return text


def of(path, read, *words):
    """The answer of `read`; a fault gets the name of the input."""
    try:
        return read(*words)
    except Fault as fault:
        raise Fault(f"{'standard input' if path == '-' else path}: {fault}")


def printed_by(command, text, seconds=None, folder=None, told=None):
    """The output of a program for an input, run in a folder; if it fails, the last line of its error stream is the fault. If it doesn't, the
    lines of its error stream go into the list `told`."""
    try:
        ran = subprocess.run(command, input=text, stdout=subprocess.PIPE, stderr=subprocess.PIPE, timeout=seconds, cwd=folder)
    except subprocess.TimeoutExpired:
        raise Fault(f"it is too large: {command[0]} isn't done after {seconds} seconds")
    except OSError as error:
        raise Fault(f"{command[0]} can't be started: {error.strerror}")
    if ran.returncode:
        last = shown(ran.stderr.strip().rpartition(b"\n")[2])
        raise Fault(re.sub("^parsolve: ", "", last) or f"{command[0]} failed with status {ran.returncode}")
    if told is not None:
        told += map(shown, ran.stderr.splitlines())
    return ran.stdout


def program_of(given):
    """The program to run: that of --program, or the checkout's, which is built if necessary."""
    if given.program is None and subprocess.call([PROGRAM, "--version"], stdout=subprocess.DEVNULL):
        raise Fault(f"{PROGRAM} can't be built")  # the first use builds it, and reports on the error stream how far it is
    return given.program or str(PROGRAM)


def run(name, answer):
    """Writes the bytes of the answer, or a fault in one line."""
    try:
        written = answer()
        with open(1, "wb", closefd=False) as output:
            output.write(written)
    except Fault as fault:
        sys.exit(f"{name}: {fault}")
    except OSError:
        sys.exit(f"{name}: cannot write the output")
