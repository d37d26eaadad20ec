"""Solves and checks parity games in this process, with a library whose answers are proved, from the numbers that it reads to the numbers
that it writes.

    >>> import parsolve
    >>> game = parsolve.Game([2, 1], [1, 0], [[0, 1], [0, 1]])
    >>> game.solve()
    ([0, 0], [None, 0])
    >>> game.check([0, 0], [None, 1])
    Cycle(vertices=[1])
    >>> parsolve.answer("solve", b"0 2 1 0,1;\\n1 1 0 0,1;\\n")
    b'paritysol 1;\\n0 0;\\n1 0 0;\\n'

The library reads numbers without a copy if they are contiguous in memory, as in C, with 32 bits each, or 8 bits for owners and winners. This
holds for an `array.array` and for a NumPy array of `uint32` or `uint8`. No other thread may change them while a call runs. All other numbers
are copied, and a value that isn't a number, is too large or is negative raises a `TypeError` or a `ValueError`. You can't interrupt a call:
Ctrl-C takes effect when it returns.
"""
from __future__ import annotations

import array
import ctypes
import dataclasses
import os
import pathlib
import sys
from collections.abc import Iterable, Sequence

__version__ = "0.2.0"
NO_CHOICE = 0xFFFFFFFF
COMMANDS = ("measure", "solve", "check", "replay", "game", "synth", "solve --any", "verify", "synth --small", "automaton",
            "means", "synth --counter", "verify --ltl")
KINDS = {"priorities": "I", "owners": "B", "starts": "I", "successors": "I", "winners": "B", "strategy": "I", "cycle": "I"}
OK, OUT_OF_MEMORY, LEAVES, CYCLE, FAULT = 0, 1, 14, 15, 17
TEXTS = {
    2: "the arrays' lengths don't fit together",
    3: "no vertex",
    4: "more than 1048576 vertices",
    5: "more than 8388608 edges",
    6: "a priority over 65535",
    7: "an owner other than 0 and 1",
    8: "successors that end before they start, or past the array",
    9: "no successor",
    10: "a successor that is no vertex",
    11: "a solution that hasn't the length of the game",
    12: "a winner other than 0 and 1",
    13: "a winner that owns the vertex and chooses no successor",
}


class ParsolveError(ValueError):
    """Why a call has no answer: the code of parsolve.h, and the vertex at fault or None."""

    code: int
    vertex: int | None

    def __init__(self, code: int, vertex: int | None = None, text: str | None = None):
        where = "" if vertex is None else f"vertex {vertex}: "
        super().__init__(text or where + TEXTS[code])
        self.code, self.vertex = code, vertex


@dataclasses.dataclass(frozen=True)
class Wins:
    """The solution is sound."""


@dataclasses.dataclass(frozen=True)
class Leaves:
    """The least edge that follows the strategy to a vertex with another winner."""

    source: int
    target: int


@dataclasses.dataclass(frozen=True)
class Cycle:
    """A cycle that follows the strategy and that its winner loses."""

    vertices: list[int]


class _Slice(ctypes.Structure):
    _fields_ = [("at", ctypes.c_void_p), ("length", ctypes.c_size_t)]


class _Game(ctypes.Structure):
    _fields_ = [(name, _Slice) for name in ("priorities", "owners", "starts", "successors")]


class _Found(ctypes.Structure):
    _fields_ = [("vertex", ctypes.c_uint32), ("to", ctypes.c_uint32), ("length", ctypes.c_size_t)]


class _Text(ctypes.Structure):
    _fields_ = [("bytes", ctypes.c_void_p), ("bytes_length", ctypes.c_size_t)]


def _library():
    """The library that PARSOLVE_LIBRARY names, or the one beside this file, or the one in the folder lib/ beside python/."""
    here = pathlib.Path(__file__).resolve().parent
    own, other = here / "libparsolve.so", here.parent.parent / "lib/libparsolve.so"
    library = ctypes.CDLL(os.environ.get("PARSOLVE_LIBRARY") or str(own if own.is_file() or not other.is_file() else other))
    for name in ("parsolve_solve", "parsolve_check", "parsolve_answer_new"):
        getattr(library, name).restype = ctypes.c_uint32
    return library


def _freeing():
    """The function that frees a text of the library: `free` of the C library, whose `malloc` allocated it."""
    free = ctypes.CDLL(None).free
    free.argtypes, free.restype = [ctypes.c_void_p], None
    return free


_LIBRARY, _FREE = _library(), _freeing()


def _fits(name, numbers):
    """Whether numbers are contiguous in memory, each with the size of an item in an array of this name."""
    try:
        view = memoryview(numbers)
    except TypeError:
        return False
    if view.ndim != 1:
        raise TypeError(f"{name}: {view.ndim} dimensions, where one row of numbers is wanted")
    kind = KINDS[name]
    return view.c_contiguous and view.format in {"B": "B", "I": "IL"}[kind] and view.itemsize == array.array(kind).itemsize


def _extend(made, name, numbers):
    """Appends numbers to an array of this name, one by one."""
    try:
        made.extend(iter(numbers))
    except OverflowError:
        most = 2 ** (8 * made.itemsize) - 1
        raise ValueError(f"{name}[{len(made)}] isn't from 0 to {most}" + (", nor None" if name == "strategy" else "")) from None
    except NotImplementedError as why:
        raise TypeError(f"{name}: {why}") from None


def _numbers(name, numbers):
    """The numbers themselves if they fit, and otherwise a copy."""
    if _fits(name, numbers):
        return numbers
    made = array.array(KINDS[name])
    _extend(made, name, numbers)
    return made


def _passed(name, numbers):
    """The pointer and the length of numbers, as two arguments, and an object to keep until the call has returned. Numbers that are read-only
    or not aligned are copied too."""
    view = memoryview(_numbers(name, numbers))
    kept = ctypes.c_char.from_buffer(bytearray(view) or bytearray(8) if view.readonly or not view else view)
    if ctypes.addressof(kept) % view.itemsize:
        kept = ctypes.c_char.from_buffer(bytearray(view))
    return [ctypes.c_void_p(ctypes.addressof(kept)), ctypes.c_size_t(len(view))], kept


class Game:
    """A game: a priority and an owner (0 or 1) for each vertex, and the list of its successors. `of_rows` takes the successors in
    compressed sparse rows: those of `v` are `successors[starts[v]:starts[v + 1]]`."""

    def __init__(self, priorities: Iterable[int], owners: Iterable[int], successors: Iterable[Iterable[int]]):
        starts, flat = array.array("I", [0]), array.array("I")
        for row in successors:
            _extend(flat, "successors", row)
            starts.append(len(flat))
        self._set(priorities, owners, starts, flat)
        self._given = priorities

    @classmethod
    def of_rows(cls, priorities: Iterable[int], owners: Iterable[int], starts: Iterable[int], successors: Iterable[int]) -> Game:
        made = cls.__new__(cls)
        made._set(priorities, owners, starts, successors)
        made._given = priorities
        return made

    def _set(self, priorities, owners, starts, successors):
        self.priorities, self.owners = _numbers("priorities", priorities), _numbers("owners", owners)
        self.starts, self.successors = _numbers("starts", starts), _numbers("successors", successors)

    def _passed(self):
        """A pointer to the game, its number of vertices, and an object to keep until the call has returned."""
        parts = [_passed(name, getattr(self, name)) for name, _ in _Game._fields_]
        game = _Game(*(_Slice(*part) for part, _ in parts))
        return ctypes.byref(game), game.priorities.length, (game, parts)

    def solve_arrays(self) -> tuple[Sequence[int], Sequence[int]]:
        """Returns the winners, an array of bytes, and the strategy, an array of numbers with NO_CHOICE for vertices without a choice. They are
        NumPy arrays if the priorities are one."""
        game, count, _kept = self._passed()
        winners, strategy = array.array("B", bytes(count)), array.array("I", bytes(4 * count))
        vertex = ctypes.c_uint32(NO_CHOICE)
        (to_winners, _winners), (to_strategy, _strategy) = _passed("winners", winners), _passed("strategy", strategy)
        _wants_ok(_LIBRARY.parsolve_solve(game, *to_winners, *to_strategy, ctypes.byref(vertex)), vertex.value)
        numpy = sys.modules.get("numpy")
        is_numpy = numpy is not None and isinstance(self._given, numpy.ndarray)
        return (numpy.asarray(winners), numpy.asarray(strategy)) if is_numpy else (winners, strategy)

    def solve(self) -> tuple[list[int], list[int | None]]:
        """Returns the winner of each vertex, and the winner's move if the winner owns the vertex, otherwise None."""
        winners, strategy = self.solve_arrays()
        return winners.tolist(), [None if it == NO_CHOICE else it for it in strategy.tolist()]

    def check(self, winners: Iterable[int], strategy: Iterable[int | None]) -> Wins | Leaves | Cycle:
        """Checks a solution: returns Wins(), Leaves(..) or Cycle(..)."""
        if not _fits("strategy", strategy):
            strategy = (NO_CHOICE if it is None else it for it in strategy)
        game, count, _kept = self._passed()
        found, cycle = _Found(NO_CHOICE), array.array("I", bytes(4 * count))
        (to_winners, _winners), (to_strategy, _strategy) = _passed("winners", winners), _passed("strategy", strategy)
        to_cycle, _cycle = _passed("cycle", cycle)
        code = _LIBRARY.parsolve_check(game, *to_winners, *to_strategy, ctypes.byref(found), *to_cycle)
        if code == LEAVES:
            return Leaves(found.vertex, found.to)
        if code == CYCLE:
            return Cycle(cycle[: found.length].tolist())
        _wants_ok(code, found.vertex)
        return Wins()


def _wants_ok(code, vertex=NO_CHOICE):
    """Raises the exception for any code except OK."""
    if code == OUT_OF_MEMORY:
        raise MemoryError
    if code != OK:
        raise ParsolveError(code, None if vertex == NO_CHOICE else vertex)


def _taken(text):
    """Returns the bytes of a text of the library, and frees it."""
    try:
        return ctypes.string_at(text.bytes, text.bytes_length)
    finally:
        if text.bytes_length:
            _FREE(text.bytes)


def answer(command: str, text: bytes) -> bytes:
    """Returns what `parsolve COMMAND` prints for a text, both as bytes."""
    if command not in COMMANDS:
        raise ValueError(f"no command is named {command!r}; there are: {', '.join(COMMANDS)}")
    text = text if type(text) is bytes else bytes(memoryview(text))
    nothing = ctypes.c_uint8()
    made = _Text(ctypes.addressof(nothing), 0)
    code = _LIBRARY.parsolve_answer_new(
        ctypes.c_uint32(COMMANDS.index(command)), ctypes.c_char_p(text), ctypes.c_size_t(len(text)), ctypes.byref(made)
    )
    said = _taken(made)
    if code == FAULT:
        raise ParsolveError(code, text=said.decode().rstrip("\n").partition(": ")[2])
    _wants_ok(code)
    return said
