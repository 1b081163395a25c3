"""The calls of the shared library, as include/beas.h declares them, and where it is found."""
import ctypes
import os
from collections.abc import Callable
from ctypes import POINTER, c_char_p, c_int32, c_int64, c_size_t, c_uint8, c_uint32, c_uint64, c_void_p
from functools import partial
from pathlib import Path
from typing import Any, Final

from ._errors import Closed, Error, LimitTooGreat, NoLibrary, NoMemory, NoStatement, NotAQuery, NotText, SeveralStatements, TooLong

#: The version of the interface that this package is written for.
ABI: Final = 1

# ---- what a call came to
DONE: Final = 0
NO_ROOM: Final = 3
ABSENT: Final = 9
ERRORS: dict[int, tuple[type[Error], str]] = {
    1: (Closed, "the database is closed"),
    2: (NoMemory, "memory ran out"),
    NO_ROOM: (Error, "there is no room for what is asked for"),
    4: (TooLong, "the statement has more than 16,777,216 bytes"),
    5: (NotText, "the text is not UTF-8"),
    6: (NoStatement, "there is no statement"),
    7: (SeveralStatements, "there is more than one statement"),
    8: (NotAQuery, "only a query has a price and a plan"),
    ABSENT: (Error, "the last report has no such thing"),
    10: (LimitTooGreat, "a limit is greater than it may be"),
}

# ---- the kinds of reports
OK: Final = 1
CHANGED: Final = 2
GREATEST: Final = 3
PAIRS: Final = 4
EXPLAINED: Final = 5
ANSWERED: Final = 6
GROUPED: Final = 7
SPECIALISED: Final = 8
OPENED: Final = 9
PROBED: Final = 10
REFUSED: Final = 11

# ---- the types of cells
INTEGER: Final = 1
TEXT: Final = 2
COUNT: Final = 3
SUM: Final = 4


class Handle(ctypes.Structure):
    """beas_database. It is closed while its bytes are all 0."""

    _fields_ = [("mark", c_uint64), ("at", c_void_p)]


LIMITS: Final = ("tables", "columns", "constraints", "atoms", "blocks", "outputs", "rows", "text", "file")


class LimitFields(ctypes.Structure):
    """beas_limits."""

    _fields_ = [(name, c_uint64) for name in LIMITS]


_DB = POINTER(Handle)
_INTO = (c_void_p, c_size_t, POINTER(c_size_t))

#: The calls that may take long. They let other threads run meanwhile. The others don't: most come back at once, and what is read of a column
#: is made into Python's objects right after, which takes longer and lets no thread run either.
LONG_CALLS: dict[str, tuple[Any, ...]] = {
    "open": (_DB, POINTER(LimitFields), c_uint8, c_uint64, c_uint8),
    "add_file": (_DB, c_char_p, c_size_t, c_char_p, c_size_t),
    "say": (_DB, c_char_p, c_size_t),
    "price": (_DB, c_char_p, c_size_t),
    "plan_data": (_DB, c_char_p, c_size_t, *_INTO),
    "drop_query": (_DB, c_uint32),
    "close": (_DB,),
    "report_text": (_DB, *_INTO),
}
SHORT_CALLS: dict[str, tuple[Any, ...]] = {
    "set": (_DB, c_uint8, c_uint64, c_uint8),
    "kind": (_DB, POINTER(c_int32)),
    "number": (_DB, POINTER(c_uint32)),
    "refusal": (_DB, POINTER(c_uint32)),
    "refusal_text": (_DB, *_INTO),
    "bound": (_DB, POINTER(c_uint64), POINTER(c_uint64)),
    "reads": (_DB, POINTER(c_uint64), POINTER(c_uint64)),
    "plan_text": (_DB, *_INTO),
    "count": (_DB, POINTER(c_uint64)),
    "session": (_DB, POINTER(c_uint32)),
    "columns": (_DB, POINTER(c_uint64)),
    "column_name": (_DB, c_uint64, *_INTO),
    "column_type": (_DB, c_uint64, POINTER(c_int32)),
    "cell_integer": (_DB, c_uint64, c_uint64, POINTER(c_int64)),
    "cell_text": (_DB, c_uint64, c_uint64, *_INTO),
    "cell_count": (_DB, c_uint64, c_uint64, POINTER(c_uint64)),
    "cell_sum": (_DB, c_uint64, c_uint64, POINTER(c_uint64), POINTER(c_int64)),
    "column_integers": (_DB, c_uint64, c_uint64, c_void_p, c_size_t),
    "column_counts": (_DB, c_uint64, c_uint64, c_void_p, c_size_t),
    "column_sums": (_DB, c_uint64, c_uint64, c_void_p, c_size_t, c_void_p, c_size_t),
    "column_texts": (_DB, c_uint64, c_uint64, c_void_p, c_size_t, *_INTO),
    "pair_most": (_DB, c_uint64, POINTER(c_uint32)),
    "pair_name": (_DB, c_uint64, c_uint8, *_INTO),
    "place_atom": (_DB, c_uint64, POINTER(c_uint32)),
    "place_name": (_DB, c_uint64, *_INTO),
}
Call = Callable[..., int]
#: Gives a call by its name in C, as a function of a prototype.
Finder = Callable[[str, Any], Call]


class Library:
    """The calls of a library, by their names without `beas_`."""

    open: Call
    set: Call
    add_file: Call
    say: Call
    price: Call
    plan_data: Call
    drop_query: Call
    close: Call
    kind: Call
    number: Call
    report_text: Call
    refusal: Call
    refusal_text: Call
    bound: Call
    reads: Call
    plan_text: Call
    count: Call
    session: Call
    columns: Call
    column_name: Call
    column_type: Call
    cell_integer: Call
    cell_text: Call
    cell_count: Call
    cell_sum: Call
    column_integers: Call
    column_counts: Call
    column_sums: Call
    column_texts: Call
    pair_most: Call
    pair_name: Call
    place_atom: Call
    place_name: Call

    def __init__(self, find: Finder, name: str) -> None:
        self.name = name
        abi = find("beas_abi", ctypes.PYFUNCTYPE(c_uint32))()
        if abi != ABI:
            raise NoLibrary(f"{name} has version {abi} of the interface, and this package is for version {ABI}")
        for call, types in SHORT_CALLS.items():
            setattr(self, call, find(f"beas_{call}", ctypes.PYFUNCTYPE(c_int32, *types)))
        for call, types in LONG_CALLS.items():
            setattr(self, call, find(f"beas_{call}", ctypes.CFUNCTYPE(c_int32, *types)))


def check(status: int) -> None:
    """Raises the error that a status stands for."""
    if status != DONE:
        kind, text = ERRORS.get(status, (Error, f"the library gave status {status}"))
        raise kind(text)


# ---- where it is found


def paths() -> list[Path]:
    """Where the library is looked for: what BEAS_LIBRARY names, and nothing else then; else beside the package and in the repository."""
    named = os.environ.get("BEAS_LIBRARY")
    if named:
        return [Path(named).absolute()]
    here = Path(__file__).resolve().parent
    return [here / "libbeas.so", here.parents[1] / "out" / "libbeas.so"]


def exported(library: ctypes.CDLL, name: str, prototype: Any) -> Call:
    call: Call = prototype((name, library))
    return call


def load(path: str | Path) -> Library:
    """The library in a file."""
    try:
        found = ctypes.CDLL(str(path))
        return Library(partial(exported, found), str(path))
    except (OSError, AttributeError) as why:
        raise NoLibrary(f"{path} can't be used: {why}") from None


_default: Library | None = None


def use(library: Library | None) -> None:
    """Makes a library the one that databases are opened with; with none, it is looked for again."""
    global _default
    _default = library


def default() -> Library:
    """The library that databases are opened with."""
    global _default
    if _default is None:
        there = next((it for it in paths() if it.exists()), None)
        if there is None:
            raise NoLibrary("there is no " + ", and no ".join(map(str, paths())) + "; BEAS_LIBRARY may name the library")
        _default = load(there)
    return _default
