"""Runs programs over the rows of rows/*.toml.

A row has

    name       what it shows
    args       the words after the program's name; {program} stands for the program's own path, {top} for the repository's
    args_hex   the same as hexadecimal bytes, for words that aren't text
    stdin      the input (or stdin_hex, or stdin_file: a file of the repository)
    blanks     the number of blanks before the input; absent: none
    stdout     the whole output (or stdout_file); absent: nothing
    stdout_has a text that the output contains, instead of the whole output
    stdout_is  a regular expression that the whole output must match
    stderr     the whole error stream; absent: anything
    fault      the error stream without its notes
    stderr_is  a regular expression that the whole error stream must match
    status     the exit status; absent: 0
    output_to  where the output goes instead of a pipe: a path, or "closed"

A table has many inputs with the same answer, each of which is a row:

    name, args as in a row
    head, tail the input before each text, and after it; absent: nothing
    texts      the texts. A mark `^` shows a place in the text, and isn't part of it
    told       the line on the error stream, after `parsolve: `, with status 1 and no output; `{at}` is the place of the mark, in
               bytes from the beginning of the input, or after its line `--`. Notes may follow it
    has        instead of `told`: a text that the output contains, with status 0
    words      instead of the texts: command lines that aren't understood, with status 2 and no output
"""
import glob
import os
import re
import subprocess

import case

top = str(case.TOP)


def bytes_of(row, name):
    if name + "_hex" in row:
        return bytes.fromhex(row[name + "_hex"])
    if name + "_file" in row:
        with open(os.path.join(top, row[name + "_file"]), "rb") as file:
            return file.read()
    return row.get(name, "").encode()


def input_of(row):
    return b" " * row.get("blanks", 0) + bytes_of(row, "stdin")


def words_of(row, program):
    if "args_hex" in row:
        return [bytes.fromhex(word) for word in row["args_hex"]]
    return [word.replace("{program}", program).replace("{top}", top) for word in row.get("args", [])]


def run_row(program, row):
    """(status, output, error stream) of the program on a row; the output is None if it isn't kept."""
    command = [program, *words_of(row, program)]
    where = row.get("output_to")
    if where is None:
        ran = subprocess.run(command, input=input_of(row), capture_output=True, timeout=120)
        return ran.returncode, ran.stdout, ran.stderr
    if where == "closed":
        ran = subprocess.run(["sh", "-c", 'exec "$@" >&-', "sh", *command], input=input_of(row),
                             stderr=subprocess.PIPE, timeout=120)
    else:
        with open(where, "wb") as target:
            ran = subprocess.run(command, input=input_of(row), stdout=target, stderr=subprocess.PIPE, timeout=120)
    return ran.returncode, None, ran.stderr


def rows_of(table):
    """The rows that a table stands for."""
    for words in table.get("words", []):
        yield {"name": f"{table['name']}: {words}", "args": words, "status": 2}
    for text in table.get("texts", []):
        before, mark, behind = text.partition("^")
        given = table.get("head", "") + before
        row = {"name": f"{table['name']}: {text!r}", "args": table["args"], "stdin": given + behind + table.get("tail", "")}
        if "told" in table:
            told = table["told"].replace("{at}", str(len(given.rpartition("\n--\n")[2].encode()))) if mark else table["told"]
            row |= {"status": 1, "fault": f"parsolve: {told}\n"}
        else:
            row |= {"stdout_has": table["has"]}
        yield row


def failure(program, row):
    """Why the program fails the row, or None."""
    status, output, errors = run_row(program, row)
    if status != row.get("status", 0):
        return f"status {status}, wanted {row.get('status', 0)}; {errors[-300:]!r}"
    if output is not None and "stdout_has" in row:
        if row["stdout_has"].encode() not in output:
            return f"output {output[:300]!r}, wanted {row['stdout_has']!r} in it"
    elif output is not None and "stdout_is" in row:
        if not re.fullmatch(row["stdout_is"].encode(), output):
            return f"output {output[:300]!r}, wanted one like {row['stdout_is']!r}"
    elif output is not None and output != bytes_of(row, "stdout"):
        return f"output {output[:300]!r}, wanted {bytes_of(row, 'stdout')[:300]!r}"
    if "stderr" in row and errors != row["stderr"].encode():
        return f"error stream {errors[:300]!r}, wanted {row['stderr']!r}"
    if "fault" in row and case.without_notes(errors) != row["fault"].encode():
        return f"error stream {errors[:300]!r}, wanted {row['fault']!r} without notes"
    if "stderr_is" in row and not re.fullmatch(row["stderr_is"].encode(), errors):
        return f"error stream {errors[:300]!r}, wanted one like {row['stderr_is']!r}"
    return None


def of_file(path):
    """The test of a file of rows: each on the program, and on that of the second compiler if there is one."""
    def run(program):
        found = case.rows_in(os.path.basename(path))
        for row in [*found.get("row", []), *(row for table in found.get("table", []) for row in rows_of(table))]:
            for each in filter(None, (program, case.BY_RATTLE)):
                yield f"{row['name']} ({os.path.basename(each)})", failure(each, row)
    run.__name__ = os.path.basename(path)
    return run


Tests = case.tests(__name__, *map(of_file, sorted(glob.glob(os.path.join(top, "rows", "*.toml")))))
