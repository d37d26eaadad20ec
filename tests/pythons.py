"""Checks that the scripts, the tools and the library's module run on Python 3.9 to 3.13: each tool does a job on each of these versions that is on
the path, and by a list of what came later no file uses anything newer than 3.9."""
import ast
import io
import os
import re
import shutil
import subprocess
import sys
import tokenize

import case
from case import TOP

OLDEST, NEWEST = (3, 9), (3, 13)
# a job of each tool: its arguments, its input, and how its output begins
JOBS = {
    "circuit": (["simulate", "--word", "1", "0,1", "-"], "aag 1 1 0 1 0\n2\n3\ni0 request\no0 grant\n", "step: inputs (request) | outputs (grant)\n"),
    "draw": (["--dot", "examples/two.pg"], "", "digraph game {\n"),
    "hoa": (["--outs", "grant", "examples/spot-implicit.hoa"], "", "HOA: v1\n"),
    "pg": (["--min"], "parity 0; /* a comment */ 0 1 0 0;", "parity 0;\n0 1 0 0;\n"),
    "tlsf": (["--outs", "examples/arbiter.tlsf"], "", "grant_0,grant_1\n"),
    "where": (["examples/two.pg", "0"], "", "line 1, column 1\n"),
}

# What came after 3.9, by the Pythons themselves: modules, names of modules, built-in names, attributes of an object, and arguments of a call.
MODULES = "annotationlib compression string.templatelib tomllib wsgiref.types"
OF_MODULES = {
    "asyncio": "Barrier QueueShutDown Runner TaskGroup Timeout timeout timeout_at", "base64": "b32hexdecode b32hexencode z85decode z85encode",
    "contextlib": "AsyncContextDecorator aclosing chdir", "copy": "replace", "ctypes": "BigEndianUnion LittleEndianUnion c_time_t",
    "dataclasses": "KW_ONLY", "datetime": "UTC", "functools": "Placeholder", "glob": "translate", "hashlib": "file_digest",
    "enum": "EnumCheck EnumDict EnumType FlagBoundary ReprEnum StrEnum global_enum member nonmember property show_flag_values verify",
    "inspect": "BufferFlags get_annotations getmembers_static markcoroutinefunction", "io": "text_encoding", "itertools": "batched pairwise",
    "locale": "getencoding localize", "logging": "getHandlerByName getHandlerNames getLevelNamesMapping", "math": "cbrt exp2 fma sumprod",
    "operator": "call", "os": "eventfd grantpt login_tty posix_openpt process_cpu_count ptsname setns splice timerfd_create unlockpt unshare",
    "os.path": "isdevdrive isjunction splitroot", "path": "isdevdrive isjunction splitroot", "queue": "ShutDown", "random": "binomialvariate",
    "re": "NOFLAG PatternError", "statistics": "correlation covariance kde kde_random linear_regression",
    "sys": "activate_stack_trampoline exception monitoring orig_argv stdlib_module_names", "tarfile": "FilterError data_filter tar_filter",
    "threading": "getprofile gettrace setprofile_all_threads settrace_all_threads",
    "types": "EllipsisType NoneType NotImplementedType UnionType get_original_bases",
    "typing": "Concatenate LiteralString Never NotRequired ParamSpec ReadOnly Required Self TypeAlias TypeAliasType TypeGuard TypeIs TypeVarTuple "
              "Unpack assert_never assert_type dataclass_transform get_overloads is_typeddict override reveal_type",
    "unittest": "doModuleCleanups enterModuleContext", "warnings": "deprecated",
}
BUILT_IN = "BaseExceptionGroup EncodingWarning ExceptionGroup PythonFinalizationError aiter anext"
ATTRIBUTES = "addDuration add_note assertNoLogs bit_count enterClassContext enterContext from_uri full_match hardlink_to is_junction with_segments"
ARGUMENTS = {
    **dict.fromkeys("bisect bisect_left bisect_right insort insort_left insort_right".split(), "key"),
    **dict.fromkeys("Popen run call check_call check_output".split(), "pipesize process_group"),
    **dict.fromkeys("extract extractall unpack_archive".split(), "filter"), **dict.fromkeys("chmod exists is_dir is_file".split(), "follow_symlinks"),
    **dict.fromkeys("glob iglob rglob".split(), "case_sensitive include_hidden recurse_symlinks root_dir"),
    **dict.fromkeys("add_argument add_parser".split(), "deprecated"), **dict.fromkeys("read_text write_text".split(), "newline"),
    "ArgumentParser": "color suggest_on_error", "NamedTemporaryFile": "delete_on_close", "ProcessPoolExecutor": "max_tasks_per_child",
    "TemporaryDirectory": "delete ignore_cleanup_errors", "create_connection": "all_errors", "dataclass": "kw_only match_args slots weakref_slot",
    "field": "kw_only", "getoutput": "encoding errors", "map": "strict", "match": "case_sensitive", "realpath": "strict", "relative_to": "walk_up",
    "rmtree": "dir_fd onexc", "zip": "strict",
}
FEWEST = {"format_exception": 3, "format_exception_only": 2, "print_exception": 3}  # a call had at least so many arguments without a name

# a text that uses what is newer, and what must be said of it
USES = {
    "import tomllib": "tomllib", "from itertools import chain, pairwise": "itertools.pairwise", "print(sys.orig_argv)": "sys.orig_argv",
    "anext(it)": "anext", "n = (5).bit_count()": ".bit_count", "zip(a, b, strict=True)": "zip(strict=)", "here.parents[:2]": "parents[..]",
    "here.parents[-1]": "parents[..]", "traceback.print_exception(why)": "print_exception of fewer than 3", "def f(it: int | None): pass": "|",
    "it: list[int | None] = []": "|", "isinstance(it, int | str)": "|", "match it:\n    case 1: pass": "syntax", "try: pass\nexcept* A: pass": "syntax",
    "for it in path.walk(): pass": ".walk", "f'{d['a']}'": "syntax", "f'{\"\\n\".join(d)}'": "syntax",
}
# the same, where nothing is newer than 3.9
OLDER = ["try:\n    import tomllib\nexcept ImportError:\n    tomllib = None", "from __future__ import annotations\ndef f(it: int | None): pass", "a | b",
         "here.parents[1]", "list(here.parents)[3:4]", "os.walk(top)", "ast.walk(tree)", "f'{d[\"a\"]}'", "f\"\"\"{d[\"a\"]}\"\"\"", "f'{a}\\n'", "zip(a, b)"]


def scripts():
    """Each file of Python in the repository."""
    folders = ("", "tools", "tests", "bindings", "bench", "examples", "release/python")
    for path in sorted(it for folder in folders for it in (TOP / folder).glob("**/*" if folder == "release/python" else "*")):
        if path.is_file() and (path.suffix == ".py" or re.match(rb"#!.*python", path.open("rb").readline())):
            yield path


# ---- what is newer than the oldest version

def newer(text):
    """(line, what is newer) of each place of a text."""
    try:
        tree = ast.parse(text, feature_version=OLDEST)
    except SyntaxError as why:
        return [(why.lineno, f"no syntax of 3.9: {why.msg}")]
    tries = [it for it in ast.walk(tree) if isinstance(it, ast.Try) and any("ImportError" in ast.dump(each) for each in it.handlers)]
    guarded = {id(it) for each in tries for statement in each.body for it in ast.walk(statement)}
    nodes = [it for it in ast.walk(tree) if id(it) not in guarded]
    if not any(isinstance(it, ast.ImportFrom) and it.module == "__future__" for it in nodes):
        nodes += [ast.Call(ast.Name("isinstance"), [None, part], [], lineno=part.lineno) for it in nodes for part in annotations(it)]
    return [*((it.lineno, what) for it in nodes for what in newer_in(it)), *newer_in_strings(text)]


def annotations(node):
    """The types that a function, a parameter or a variable is said to have."""
    return filter(None, (getattr(node, "annotation", None), getattr(node, "returns", None)))


def newer_in(node):
    """What is newer in a node of the tree, without the nodes below it."""
    if isinstance(node, ast.Import):
        yield from (it.name for it in node.names if it.name in MODULES.split())
    elif isinstance(node, ast.ImportFrom):
        yield from [node.module] if node.module in MODULES.split() else []
        yield from (f"{node.module}.{it.name}" for it in node.names if it.name in OF_MODULES.get(node.module, "").split())
    elif isinstance(node, ast.Name) and node.id in BUILT_IN.split():
        yield node.id
    elif isinstance(node, ast.Attribute):
        of = node.value.id if isinstance(node.value, ast.Name) else getattr(node.value, "attr", "")
        if node.attr in OF_MODULES.get(of, "").split():
            yield f"{of}.{node.attr}"
        elif node.attr in ATTRIBUTES.split() or (node.attr == "walk" and of not in ("os", "ast")):
            yield f".{node.attr}"
    elif isinstance(node, ast.Subscript) and getattr(node.value, "attr", "") == "parents" and isinstance(node.slice, (ast.Slice, ast.UnaryOp)):
        yield "parents[..] with a slice or from the end"
    elif isinstance(node, ast.Call):
        yield from newer_in_call(node)


def newer_in_call(node):
    name = getattr(node.func, "id", getattr(node.func, "attr", ""))
    yield from (f"{name}({it.arg}=)" for it in node.keywords if it.arg in ARGUMENTS.get(name, "").split())
    if not any(isinstance(it, ast.Starred) for it in node.args) and len(node.args) < FEWEST.get(name, 0):
        yield f"{name} of fewer than {FEWEST[name]} arguments"
    if name in ("isinstance", "issubclass") and any(isinstance(it, ast.BinOp) and isinstance(it.op, ast.BitOr) for it in ast.walk(node.args[1])):
        yield "| between types"


def newer_in_strings(text):
    """(line, what is newer) of each f-string with an expression that holds the string's own quotes, a backslash or a comment. Before 3.12 the
    parser refuses these itself."""
    quotes = []
    for token in tokenize.generate_tokens(io.StringIO(text).readline) if sys.version_info >= (3, 12) else ():
        kind, quote = tokenize.tok_name[token.type], re.search("'''|\"\"\"|'|\"|$", token.string)[0]
        depth = len(quotes) - (kind in ("FSTRING_MIDDLE", "FSTRING_END"))
        if depth > 0 and (kind == "COMMENT" or re.search("|".join([r"\\", *quotes[:depth]]), token.string)):
            yield token.start[0], "no syntax of 3.9: an f-string"
        quotes = [*quotes, quote] if kind == "FSTRING_START" else quotes[:-1] if kind == "FSTRING_END" else quotes


def files():
    """No file uses what is newer."""
    for path in scripts():
        found = [f"line {line}: {what}" for line, what in newer(path.read_text())]
        yield str(path.relative_to(TOP)), "; ".join(found) or None


def uses():
    """What is newer is found, and nothing else is."""
    for text, what in USES.items():
        found = "; ".join(told for _, told in newer(text))
        yield text, None if what in found else f"{what} isn't found, but {found or 'nothing'}"
    for text in OLDER:
        yield text, newer(text), []


def names():
    """No module of tests/ has the name of one of tools/: a test that imports from both would find only one of them."""
    yield "names", sorted({it.name for it in TOP.glob("tools/*.py")} & {it.name for it in TOP.glob("tests/*.py")}), []


# ---- the versions that are installed

def of_version(number):
    """The test of a version of Python."""
    name = f"python3.{number}"

    def run():
        ran = shutil.which(name) and subprocess.run([name, "-c", "import sys; print(sys.executable)"], capture_output=True, text=True)
        return works(ran.stdout.strip()) if ran and ran.returncode == 0 else [(name, case.LeftOut(f"{name} isn't installed"))]
    run.__name__ = name
    return run


def works(python):
    """The help of each script, the jobs of the tools, and the examples of the released module."""
    tried = [(f"{script} --help", [script, "--help"], "", "usage: ") for script in ("build", "test", *(f"tools/{it}" for it in ("share", *JOBS)))]
    tried += [(f"tools/{tool}", [f"tools/{tool}", *words], given, begin) for tool, (words, given, begin) in JOBS.items()]
    tried += [("the module", ["-m", "doctest", "release/python/parsolve/__init__.py"], "", "")]
    env = {**os.environ, "PYTHONPATH": "release/python", "PYTHONDONTWRITEBYTECODE": "1"}
    for name, words, given, begin in tried:
        ran = subprocess.run([python, *words], cwd=TOP, env=env, input=given, capture_output=True, text=True, timeout=300)
        is_right = ran.returncode == 0 and ran.stdout.startswith(begin)
        yield name, None if is_right else f"status {ran.returncode}: {ran.stdout}{ran.stderr}"


Tests = case.tests(__name__, files, uses, names, *map(of_version, range(OLDEST[1], NEWEST[1] + 1)))
