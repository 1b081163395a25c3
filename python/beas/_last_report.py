"""The last report of a database, read through the library's calls."""
import ctypes
from array import array
from collections.abc import Callable
from ctypes import c_int32, c_int64, c_size_t, c_uint32, c_uint64
from typing import Any

from . import _library as kinds
from ._library import ABSENT, NO_ROOM, Call, Handle, Library, check
from ._refusals import Refused, refusal
from ._reports import (
    Answer,
    Cells,
    Changed,
    Explained,
    Greatest,
    Ok,
    Opened,
    Pair,
    Pairs,
    Place,
    Probed,
    Report,
    Specialised,
)

ROOM = 4096


class LastReport:
    """Reads what the last statement of a database left. Places to write to are made once, as a report is mostly small."""

    def __init__(self, library: Library, handle: Handle) -> None:
        self.library, self.db = library, ctypes.byref(handle)
        self.buffer: Any = ctypes.create_string_buffer(ROOM)
        self.length, self.kind, self.number = c_size_t(), c_int32(), c_uint32()
        self.low, self.high = c_uint64(), c_uint64()
        #: Whether answers may have plans. A call less is a tenth of what a small answer takes.
        self.has_plans = False
        self.to_length, self.to_kind, self.to_number = map(ctypes.byref, (self.length, self.kind, self.number))
        self.to_low, self.to_high = ctypes.byref(self.low), ctypes.byref(self.high)

    def read(self) -> Report | Refused:
        """The report, or the refusal."""
        if status := self.library.kind(self.db, self.to_kind):
            check(status)
        return WAYS[self.kind.value](self, self.small(self.library.number))

    def written(self) -> str:
        """The report as the library writes it."""
        return self.text(self.library.report_text)

    # ---- numbers and texts

    def small(self, call: Call, *which: int) -> int:
        if status := call(self.db, *which, self.to_number):
            check(status)
        return self.number.value

    def one(self, call: Call) -> int:
        if status := call(self.db, self.to_low):
            check(status)
        return self.low.value

    def wide(self, call: Call) -> int:
        if status := call(self.db, self.to_low, self.to_high):
            check(status)
        return self.low.value | self.high.value << 64

    def text(self, call: Call, *which: int) -> str:
        """A text that is there."""
        status, text = self.status_and_text(call, *which)
        if status:
            check(status)
        return text

    def status_and_text(self, call: Call, *which: object) -> tuple[int, str]:
        """A text, and the status; if it is longer than the room for short ones, once more into a room of its own."""
        buffer = self.buffer
        status = call(self.db, *which, buffer, ROOM, self.to_length)
        if status == NO_ROOM:
            room = self.length.value
            buffer = ctypes.create_string_buffer(room)
            status = call(self.db, *which, buffer, room, self.to_length)
        content: bytes = b"" if status else buffer[: self.length.value]
        return status, content.decode()

    def plan(self) -> tuple[str, ...]:
        text = self.text(self.library.plan_text)
        return tuple(text.split("\n")[:-1]) if text else ()

    # ---- reports

    def ok(self, statement: int) -> Ok:
        return Ok(statement)

    def changed(self, statement: int) -> Changed:
        return Changed(statement, self.one(self.library.count))

    def greatest(self, statement: int) -> Greatest:
        return Greatest(statement, self.one(self.library.count))

    def explained(self, statement: int) -> Explained:
        return Explained(statement, self.wide(self.library.bound), self.plan())

    def opened(self, statement: int) -> Opened:
        return Opened(statement, self.small(self.library.session), self.wide(self.library.bound))

    def probed(self, statement: int) -> Probed:
        return Probed(statement, self.small(self.library.session))

    def refused(self, statement: int) -> Refused:
        return refusal(statement, self.small(self.library.refusal), self.text(self.library.refusal_text))

    def pairs(self, statement: int) -> Pairs:
        calls = self.library
        names = [[self.text(calls.pair_name, nth, which) for which in (0, 1)] for nth in range(self.one(calls.count))]
        return Pairs(statement, tuple(Pair(key, other, self.small(calls.pair_most, nth)) for nth, (key, other) in enumerate(names)))

    def specialised(self, statement: int) -> Specialised:
        calls = self.library
        status = calls.count(self.db, self.to_low)
        if status == ABSENT:
            return Specialised(statement, None)
        check(status)
        places = range(self.low.value)
        return Specialised(statement, tuple(Place(self.small(calls.place_atom, nth), self.text(calls.place_name, nth)) for nth in places))

    def answer(self, statement: int) -> Answer:
        calls = self.library
        count, columns = self.one(calls.count), range(self.one(calls.columns))
        names = tuple(self.text(calls.column_name, column) for column in columns)
        cells = tuple(self.cells(column, count) for column in columns)
        plan = self.plan() if self.has_plans else ()
        return Answer(statement, self.wide(calls.bound), self.wide(calls.reads), names, cells, count, plan)

    # ---- columns

    def cells(self, column: int, count: int) -> Cells:
        if count == 0:
            return list[int]()
        calls = self.library
        check(calls.column_type(self.db, column, self.to_kind))
        kind = self.kind.value
        if kind == kinds.TEXT:
            return self.texts(column, count)
        if kind == kinds.SUM:
            return self.sums(column, count)
        cells, call = (zeros("q", count), calls.column_integers) if kind == kinds.INTEGER else (zeros("Q", count), calls.column_counts)
        check(call(self.db, column, 0, address(cells), count))
        return cells

    def sums(self, column: int, count: int) -> list[int]:
        lows, highs = zeros("Q", count), zeros("q", count)
        check(self.library.column_sums(self.db, column, 0, address(lows), count, address(highs), count))
        return [high << 64 | low for low, high in zip(lows, highs)]

    def texts(self, column: int, count: int) -> list[str]:
        """The texts of a column. If all are ASCII they are cut out of one text, as each byte is a character."""
        ends, buffer, room = zeros("Q", count), self.buffer, ROOM
        call, which = self.library.column_texts, (column, 0, address(ends), count)
        status = call(self.db, *which, buffer, room, self.to_length)
        if status == NO_ROOM:
            room = self.length.value
            buffer = ctypes.create_string_buffer(room)
            status = call(self.db, *which, buffer, room, self.to_length)
        check(status)
        content: bytes = buffer[: self.length.value]
        begins = [0, *ends[:-1]]
        if content.isascii():
            whole = content.decode("ascii")
            return [whole[begin:end] for begin, end in zip(begins, ends)]
        return [content[begin:end].decode() for begin, end in zip(begins, ends)]

    # ---- one cell by itself

    def cell(self, row: int, column: int) -> int | str:
        """A cell of the last answer by itself."""
        calls = self.library
        check(calls.column_type(self.db, column, self.to_kind))
        kind = self.kind.value
        if kind == kinds.TEXT:
            return self.text(calls.cell_text, row, column)
        if kind == kinds.COUNT:
            check(calls.cell_count(self.db, row, column, self.to_low))
            return self.low.value
        value = c_int64()
        if kind == kinds.INTEGER:
            check(calls.cell_integer(self.db, row, column, ctypes.byref(value)))
            return value.value
        check(calls.cell_sum(self.db, row, column, self.to_low, ctypes.byref(value)))
        return value.value << 64 | self.low.value


WAYS: dict[int, Callable[[LastReport, int], Report | Refused]] = {
    kinds.OK: LastReport.ok,
    kinds.CHANGED: LastReport.changed,
    kinds.GREATEST: LastReport.greatest,
    kinds.PAIRS: LastReport.pairs,
    kinds.EXPLAINED: LastReport.explained,
    kinds.ANSWERED: LastReport.answer,
    kinds.GROUPED: LastReport.answer,
    kinds.SPECIALISED: LastReport.specialised,
    kinds.OPENED: LastReport.opened,
    kinds.PROBED: LastReport.probed,
    kinds.REFUSED: LastReport.refused,
}


def zeros(code: Any, count: int) -> "array[int]":
    return array(code, bytes(8 * count))


def address(cells: "array[int]") -> int:
    return cells.buffer_info()[0]
