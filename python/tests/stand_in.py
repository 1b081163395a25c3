"""A library in Python that stands in for libbeas.so: the calls of include/beas.h, over the second program of scripts/lib.

The calls go through ctypes as those of the true library do, so that the package's declarations are tried as well. What is told of limits of
texts and files is left out, since the second program has none that can be set.
"""
import ctypes
import itertools
import re
import sys
from collections.abc import Callable, Iterable
from pathlib import Path
from typing import Any

TOP = Path(__file__).resolve().parents[2]
sys.path.insert(0, str(TOP / "scripts"))
sys.setrecursionlimit(20_000)

from lib.second_plans import plan_text  # noqa: E402
from lib.second_program import database, desk  # noqa: E402
from lib.second_program.binding import bind  # noqa: E402
from lib.second_program.grammar import parse  # noqa: E402
from lib.second_program.prepared import prepare  # noqa: E402
from lib.second_program.reports import Numbered, text_of  # noqa: E402
from lib.second_program.reports import answered as as_text  # noqa: E402
from lib.second_program.tokens import Refused, Token, pieces_of  # noqa: E402
from lib.second_program.trees import Query  # noqa: E402

from beas import _library as kinds  # noqa: E402
from beas._library import ABI, ABSENT, DONE, LONG_CALLS, NO_ROOM, SHORT_CALLS, Library  # noqa: E402

CLOSED, TOO_LONG, NOT_TEXT, NO_STATEMENT, SEVERAL, NOT_A_QUERY, BAD_LIMIT = 1, 4, 5, 6, 7, 8, 10
LONGEST = 16_777_216
MOST = {**database.MOST, "text": 65535, "file": 67108864}
REFUSED = re.compile(r"refused (\d+) (.*)", re.S)


class AnswerLines(list[str]):
    """The lines of an answer, with what they were made of."""

    def __init__(self, lines: list[str], header: list[str], rows: list[Any], plan: list[str], bound: int, reads: int) -> None:
        super().__init__(lines)
        self.header, self.rows, self.plan, self.bound, self.reads = header, rows, plan, bound, reads


def kept(number: int, lines: list[str], header: list[str], rows: Iterable[Any], reads: int) -> AnswerLines:
    found = list(rows)
    return AnswerLines(as_text(number, lines, header, found, reads), header, found, lines, number, reads)


# The desk writes answers by this name.
setattr(desk, "answered", kept)


class Files:
    """The files that were handed over."""

    def __init__(self) -> None:
        self.contents: dict[str, bytes] = {}

    def read(self, name: str) -> bytes:
        if name not in self.contents:
            raise Refused(15, f"cannot read {database.quoted(name)}")
        return self.contents[name]


class Base:
    """A database, with its last report."""

    def __init__(self, limits: dict[str, int], budget: int | None, explain: bool) -> None:
        self.limits, self.files = limits, Files()
        self.desk = desk.Desk(self.files, budget, explain)
        self.number, self.report, self.kind = 0, list[str](), 0

    def told(self, report: list[str]) -> None:
        self.number += 1
        self.report, self.kind = report, kind_of(report)

    def say(self, tokens: list[Token]) -> None:
        database.MOST.update(self.limits)
        self.told(self.desk.report(tokens))

    def price(self, tokens: list[Token]) -> bool:
        """Whether it is a query, so that it has a price. Whose session says it doesn't matter."""
        budget, self.desk.budget = self.desk.budget, None
        database.MOST.update(self.limits)
        try:
            tree = query_of(tokens)
            if tree is None:
                return False
            report = self.desk.explained(tree)
        except Refused as why:
            report = [Numbered(why)]
        finally:
            self.desk.budget = budget
        self.told(report)
        return True

    def plan(self, tokens: list[Token]) -> str | None:
        """The text of a query's plan, or None of another statement. Raises the refusal of a query that has none."""
        database.MOST.update(self.limits)
        tree = query_of(tokens)
        return None if tree is None else plan_text(self.desk.db, prepare(self.desk.db, None, *bind(self.desk.db, tree)))

    def words(self, line: int) -> list[str]:
        return self.report[line].split(" ")


def query_of(tokens: list[Token]) -> Any:
    """The tree of the query that a piece says, or None of another piece."""
    if tokens[0] != ("mark", "@"):
        statement = parse(tokens)
    else:
        if len(tokens) == 1 or tokens[1].kind != "number":
            raise Refused(1, "syntax")
        statement = None if tokens[2:] == [("word", "step")] else parse(tokens[2:])
        if int(tokens[1].text) not in desk.SESSIONS:
            raise Refused(30, f"session {tokens[1].text} not between 1 and 64")
    return statement.tree if isinstance(statement, Query) and not statement.before else None


def kind_of(report: list[str]) -> int:
    if isinstance(report, AnswerLines):
        is_grouped = any("(" in name for name in report.header)
        return kinds.GROUPED if is_grouped else kinds.ANSWERED
    first, last = report[0], report[-1]
    begins = {"max": kinds.GREATEST, "open": kinds.OPENED, "probed": kinds.PROBED, "refused": kinds.REFUSED, "none": kinds.SPECIALISED}
    if first.split(" ")[0] in begins:
        return begins[first.split(" ")[0]]
    ends = {"rows": kinds.CHANGED, "pairs": kinds.PAIRS, "columns": kinds.SPECIALISED}
    return kinds.EXPLAINED if first.startswith("bound") else ends.get(last.split(" ")[-1], kinds.OK)


class Absent(Exception):
    """The report has no such thing."""


class StandIn:
    """The calls. Each gives a status; what it writes to is at an address."""

    def __init__(self) -> None:
        self.bases: dict[int, Base] = {}
        self.marks = itertools.count(1)
        self.kept: list[Any] = []
        #: How many more calls of say are carried out before memory runs out, if it does.
        self.fails_after: int | None = None

    def library(self) -> Library:
        return Library(self.find, "the stand-in")

    def find(self, name: str, prototype: Any) -> Callable[..., int]:
        """A call by its name, which gets addresses as numbers."""
        if name == "beas_abi":
            return self.keep(prototype(lambda: ABI), prototype)
        short = name.removeprefix("beas_")
        types = {**SHORT_CALLS, **LONG_CALLS}[short]
        plain = [it if it in NUMBERS else ctypes.c_void_p for it in types]
        return self.keep(ctypes.CFUNCTYPE(ctypes.c_int32, *plain)(lambda *words: self.called(short, words)), prototype)

    def keep(self, function: Any, prototype: Any) -> Callable[..., int]:
        self.kept.append(function)
        call: Callable[..., int] = ctypes.cast(function, prototype)
        return call

    def called(self, name: str, words: tuple[Any, ...]) -> int:
        """The status. Nothing may be NULL."""
        assert None not in words, f"NULL is given to {name}"
        handle = kinds.Handle.from_address(words[0])
        if name == "open":
            return self.open(handle, *words[1:])
        base = self.bases.get(handle.mark)
        if base is None:
            assert not handle.mark and not handle.at
            return CLOSED
        if name == "close":
            del self.bases[handle.mark]
            handle.mark, handle.at = 0, None
            return DONE
        try:
            status: int = getattr(self, name)(base, *words[1:])
            return status
        except (Absent, IndexError):
            return ABSENT

    # ---- a database

    def open(self, handle: kinds.Handle, limits: int, has_budget: int, budget: int, explain: int) -> int:
        fields = kinds.LimitFields.from_address(limits)
        given = {name: getattr(fields, name) or most for name, most in MOST.items()}
        if any(value > MOST[name] for name, value in given.items()):
            return BAD_LIMIT
        mark = next(self.marks)
        self.bases[mark] = Base({name: given[name] for name in database.MOST}, budget if has_budget else None, bool(explain))
        handle.mark, handle.at = mark, mark
        return DONE

    def set(self, base: Base, has_budget: int, budget: int, explain: int) -> int:
        base.desk.budget, base.desk.explain = budget if has_budget else None, bool(explain)
        return DONE

    def add_file(self, base: Base, name: int, name_length: int, content: int, length: int) -> int:
        try:
            base.files.contents[ctypes.string_at(name, name_length).decode()] = ctypes.string_at(content, length)
        except UnicodeDecodeError:
            return NOT_TEXT
        return DONE

    def say(self, base: Base, text: int, length: int) -> int:
        if self.fails_after is not None:
            self.fails_after -= 1
            if self.fails_after < 0:
                return 2
        status, pieces = read_pieces(text, length)
        if status == DONE:
            base.say(pieces[0])
        return status

    def price(self, base: Base, text: int, length: int) -> int:
        status, pieces = read_pieces(text, length)
        if status != DONE:
            return status
        return DONE if base.price(pieces[0]) else NOT_A_QUERY

    def plan_data(self, base: Base, text: int, text_length: int, *into: int) -> int:
        status, pieces = read_pieces(text, text_length)
        if status != DONE:
            return status
        try:
            plan = base.plan(pieces[0])
        except Refused:
            return ABSENT
        return NOT_A_QUERY if plan is None else put_text(plan, *into)

    def drop_query(self, base: Base, session: int) -> int:
        base.desk.open.pop(session, None)
        base.desk.made.pop(session, None)
        return DONE

    # ---- the last report

    def kind(self, base: Base, kind: int) -> int:
        return put(ctypes.c_int32, kind, base.kind)

    def number(self, base: Base, number: int) -> int:
        wants(base.kind)
        return put(ctypes.c_uint32, number, base.number)

    def report_text(self, base: Base, *into: int) -> int:
        wants(base.kind)
        return put_text(text_of(base.number, base.report), *into)

    def refusal(self, base: Base, number: int) -> int:
        return put(ctypes.c_uint32, number, int(refused(base)[1]))

    def refusal_text(self, base: Base, *into: int) -> int:
        return put_text(refused(base)[2], *into)

    def bound(self, base: Base, low: int, high: int) -> int:
        wants(base.kind in (kinds.EXPLAINED, kinds.ANSWERED, kinds.GROUPED, kinds.OPENED))
        return put_wide(int(base.words(0)[-1]), low, high)

    def reads(self, base: Base, low: int, high: int) -> int:
        return put_wide(answer(base).reads, low, high)

    def plan_text(self, base: Base, *into: int) -> int:
        plan = base.report[1:-1] if base.kind == kinds.EXPLAINED else answer(base).plan
        return put_text("".join(f"{line}\n" for line in plan), *into)

    def count(self, base: Base, count: int) -> int:
        if base.kind in (kinds.ANSWERED, kinds.GROUPED):
            return put(ctypes.c_uint64, count, len(answer(base).rows))
        wants(base.kind in (kinds.CHANGED, kinds.GREATEST, kinds.PAIRS, kinds.SPECIALISED) and base.report != ["none"])
        return put(ctypes.c_uint64, count, int(base.words(-1)[1]))

    def session(self, base: Base, session: int) -> int:
        wants(base.kind in (kinds.OPENED, kinds.PROBED))
        return put(ctypes.c_uint32, session, int(base.words(0)[1]))

    # ---- an answer

    def columns(self, base: Base, count: int) -> int:
        return put(ctypes.c_uint64, count, len(answer(base).header))

    def column_name(self, base: Base, column: int, *into: int) -> int:
        return put_text(answer(base).header[column], *into)

    def column_type(self, base: Base, column: int, kind: int) -> int:
        return put(ctypes.c_int32, kind, type_of(answer(base), column))

    def cell_integer(self, base: Base, row: int, column: int, value: int) -> int:
        return put(ctypes.c_int64, value, of_type(base, column, kinds.INTEGER)[row])

    def cell_count(self, base: Base, row: int, column: int, value: int) -> int:
        return put(ctypes.c_uint64, value, of_type(base, column, kinds.COUNT)[row])

    def cell_sum(self, base: Base, row: int, column: int, low: int, high: int) -> int:
        value = of_type(base, column, kinds.SUM)[row]
        put(ctypes.c_uint64, low, value % 2**64)
        return put(ctypes.c_int64, high, value >> 64)

    def cell_text(self, base: Base, row: int, column: int, *into: int) -> int:
        return put_text(of_type(base, column, kinds.TEXT)[row], *into)

    def column_integers(self, base: Base, column: int, first: int, into: int, count: int) -> int:
        return put_all(ctypes.c_int64, into, part(of_type(base, column, kinds.INTEGER), first, count))

    def column_counts(self, base: Base, column: int, first: int, into: int, count: int) -> int:
        return put_all(ctypes.c_uint64, into, part(of_type(base, column, kinds.COUNT), first, count))

    def column_sums(self, base: Base, column: int, first: int, lows: int, lows_count: int, highs: int, highs_count: int) -> int:
        values = part(of_type(base, column, kinds.SUM), first, lows_count)
        assert lows_count == highs_count
        put_all(ctypes.c_uint64, lows, [value % 2**64 for value in values])
        return put_all(ctypes.c_int64, highs, [value >> 64 for value in values])

    def column_texts(self, base: Base, column: int, first: int, ends: int, count: int, into: int, room: int, length: int) -> int:
        texts = [text.encode() for text in part(of_type(base, column, kinds.TEXT), first, count)]
        put_all(ctypes.c_uint64, ends, list(itertools.accumulate(map(len, texts))))
        return put_bytes(b"".join(texts), into, room, length)

    # ---- pairs and places

    def pair_most(self, base: Base, pair: int, most: int) -> int:
        return put(ctypes.c_uint32, most, int(pair_of(base, pair)[3]))

    def pair_name(self, base: Base, pair: int, which: int, *into: int) -> int:
        return put_text(pair_of(base, pair)[1 + which], *into)

    def place_atom(self, base: Base, place: int, atom: int) -> int:
        return put(ctypes.c_uint32, atom, int(place_of(base, place)[2]))

    def place_name(self, base: Base, place: int, *into: int) -> int:
        return put_text(place_of(base, place)[4], *into)


NUMBERS = (ctypes.c_uint8, ctypes.c_uint32, ctypes.c_uint64, ctypes.c_size_t)


def read_pieces(text: int, length: int) -> tuple[int, list[list[Token]]]:
    """The status of a text as the one statement, and its pieces."""
    if length > LONGEST:
        return TOO_LONG, []
    try:
        pieces = list(pieces_of(ctypes.string_at(text, length).decode()))
    except UnicodeDecodeError:
        return NOT_TEXT, []
    if not pieces:
        return NO_STATEMENT, []
    return (DONE if len(pieces) == 1 else SEVERAL), pieces


def wants(well: object) -> None:
    if not well:
        raise Absent


def answer(base: Base) -> AnswerLines:
    wants(isinstance(base.report, AnswerLines))
    assert isinstance(base.report, AnswerLines)
    return base.report


def refused(base: Base) -> re.Match[str]:
    wants(base.kind == kinds.REFUSED)
    found = REFUSED.fullmatch(base.report[0])
    assert found
    return found


def pair_of(base: Base, nth: int) -> list[str]:
    wants(base.kind == kinds.PAIRS and nth < len(base.report) - 1)
    return base.words(nth)


def place_of(base: Base, nth: int) -> list[str]:
    wants(base.kind == kinds.SPECIALISED and nth < len(base.report) - 1)
    return base.words(nth)


def type_of(report: AnswerLines, column: int) -> int:
    wants(column < len(report.header) and report.rows)
    name = report.header[column]
    if name.startswith("count("):
        return kinds.COUNT
    return kinds.SUM if name.startswith("sum(") else kinds.TEXT if isinstance(report.rows[0][column], str) else kinds.INTEGER


def of_type(base: Base, column: int, kind: int) -> list[Any]:
    report = answer(base)
    wants(type_of(report, column) == kind)
    return [row[column] for row in report.rows]


def part(cells: list[Any], first: int, count: int) -> list[Any]:
    wants(first + count <= len(cells))
    return cells[first : first + count]


def put(kind: Any, at: int, value: int) -> int:
    kind.from_address(at).value = value
    return DONE


def put_wide(value: int, low: int, high: int) -> int:
    put(ctypes.c_uint64, low, value % 2**64)
    return put(ctypes.c_uint64, high, value >> 64)


def put_all(kind: Any, at: int, values: list[int]) -> int:
    (kind * len(values)).from_address(at)[:] = values
    return DONE


def put_text(text: str, into: int, room: int, length: int) -> int:
    return put_bytes(text.encode(), into, room, length)


def put_bytes(content: bytes, into: int, room: int, length: int) -> int:
    put(ctypes.c_size_t, length, len(content))
    if len(content) > room:
        return NO_ROOM
    ctypes.memmove(into, content, len(content))
    return DONE
