"""A database in the program's own memory."""
import ctypes
import warnings
from collections.abc import Sequence
from dataclasses import dataclass
from pathlib import Path
from threading import get_ident
from types import TracebackType
from typing import Literal, overload

from . import _library
from ._errors import BadValue, Closed, InUse, LimitTooGreat, NoSession, NotText, WrongThread
from ._last_report import LastReport
from ._lexing import Token, first_token, is_name, quoted, refuse_another, statements_of, tokens_of, without_session
from ._library import LIMITS, Call, Handle, LimitFields, check
from ._loading import MOST_OF_A_FILE, Rows, files_of
from ._parameters import Parameters, filled
from ._refusals import Refused
from ._reports import Answer, Changed, Explained, Ok, Price, Report
from ._schema import Column, Constraint, Schema
from ._sessions import Session
from .plans import Plan, plan_of

MOST_OF_A_BUDGET = 2**64 - 1
SESSIONS = range(1, 65)
# under this name rows are handed over
ROWS = "rows handed over by Database.load"
Outcome = Report | Refused


@dataclass(frozen=True)
class Limits:
    """The limits of a database. One that is None is that of the program beas, which is the greatest; docs/language.md lists them."""

    tables: int | None = None
    columns: int | None = None
    constraints: int | None = None
    atoms: int | None = None
    blocks: int | None = None
    outputs: int | None = None
    rows: int | None = None
    text: int | None = None
    file: int | None = None

    def _fields_of_c(self) -> LimitFields:
        given = {name: getattr(self, name) for name in LIMITS}
        for name, value in given.items():
            if value is not None and not 1 <= value < 2**64:
                raise LimitTooGreat(f"the limit of {name} can't be {value}")
        return LimitFields(*(value or 0 for value in given.values()))


class Database:
    """A database without a table at first, which lives until it is closed.

    `budget` is the greatest bound that a query may have; one above it is refused before anything is read. With `explain` answers have their
    plans. `limits` are below those of the program beas. With `folder` a LOAD reads its file from there; without it LOAD reads what
    `add_file` handed over, and nothing else.

    A database is for the thread that opened it, as in sqlite3; each thread may open its own. While a statement is carried out, other
    threads go on. An interrupt (KeyboardInterrupt) is raised once the statement is carried out.

    >>> import beas
    >>> with beas.Database(budget=100) as db:
    ...     _ = db.run("CREATE TABLE cards (account INTEGER, card INTEGER);"
    ...                "CREATE ACCESS cards_of ON cards (account) FETCH (card) LIMIT 3")
    ...     _ = db.load("cards", [(7, 4111), (7, 4222), (8, 4111)])
    ...     print(db.query("SELECT DISTINCT card FROM cards WHERE account = ?", (7,)).rows)
    [(4111,), (4222,)]
    """

    def __init__(
        self,
        *,
        budget: int | None = None,
        explain: bool = False,
        limits: Limits | None = None,
        folder: str | Path | None = None,
    ) -> None:
        self._is_open, self._is_busy, self._thread = False, False, get_ident()
        self._limits, self._folder = limits or Limits(), None if folder is None else Path(folder)
        self._budget, self._explain = checked_budget(budget), bool(explain)
        self._schema, self._sessions, self._files = Schema(), set[int](), set[str]()
        self._library = _library.default()
        self._handle = Handle()
        self._last = LastReport(self._library, self._handle)
        self._last.has_plans = self._explain
        fields = self._limits._fields_of_c()
        # From here on __del__ closes it, so that nothing is lost if an interrupt comes right after.
        self._is_open = True
        status = self._library.open(self._handle, fields, *self._settings())
        self._is_open = status == _library.DONE
        check(status)

    def _settings(self) -> tuple[int, int, int]:
        return int(self._budget is not None), self._budget or 0, int(self._explain)

    # ---- calls

    def _allow(self) -> None:
        """Sees that a call may be made."""
        if self._thread != get_ident():
            raise WrongThread("a database is for the thread that opened it")
        if self._is_busy:
            raise InUse("another call is going on")
        if not self._is_open:
            raise Closed("the database is closed")

    def _called(self, call: Call, *words: object) -> None:
        self._allow()
        check(call(self._handle, *words))

    def _outcome(self, call: Call, text: str) -> Outcome:
        """What a statement comes to. Until its report is read, nothing else is said, by the handler of a signal neither."""
        content = encoded(text)
        self._allow()
        try:
            self._is_busy = True
            check(call(self._handle, content, len(content)))
            return self._last.read()
        finally:
            self._is_busy = False

    def _said(self, text: str) -> Outcome:
        outcome = self._outcome(self._library.say, text)
        if type(outcome) is Ok:
            self._schema.carried_out(text)
        return outcome

    # ---- statements

    def say(self, statement: str, parameters: Parameters | None = None) -> Report:
        """Carries out one statement, with values in place of its `?` or `:name`. Raises the refusal if it is refused.

        >>> with Database() as db:
        ...     db.say("CREATE TABLE cards (account INTEGER, card INTEGER)")
        ...     db.say("INSERT INTO cards VALUES (?, ?)", (7, 4111))
        Ok(statement=1)
        Changed(statement=2, rows=1)
        """
        return raised(self._one(statement if parameters is None else filled(statement, parameters)))

    @overload
    def run(self, script: str, *, refusals: Literal[False] = False) -> list[Report]: ...

    @overload
    def run(self, script: str, *, refusals: Literal[True]) -> list[Outcome]: ...

    @overload
    def run(self, script: str, *, refusals: bool) -> Sequence[Outcome]: ...

    def run(self, script: str, *, refusals: bool = False) -> Sequence[Outcome]:
        """Carries out the statements of a script one after another, and gives the report of each. The first refusal is raised, and ends
        the script; with `refusals` it is a report like the others, and the script goes on.

        >>> with Database() as db:
        ...     [it.written for it in db.run("DROP ACCESS a; CREATE TABLE t (a TEXT);", refusals=True)]
        ['1 refused 25 unknown constraint a\\n', '2 ok\\n']
        """
        outcomes: list[Outcome] = []
        for statement in statements_of(script):
            outcome = self._one(statement.text)
            if isinstance(outcome, Refused):
                outcome.line = statement.line
                if not refusals:
                    raise outcome
            outcomes.append(outcome)
        return outcomes

    def query(self, query: str, parameters: Parameters | None = None) -> Answer:
        """The answer of a query: of SELECT, of SELECT with GROUP BY, or of SCAN OK."""
        refuse_another(query)
        report = self.say(query, parameters)
        assert isinstance(report, Answer)
        return report

    def price(self, query: str, parameters: Parameters | None = None) -> Price:
        """The bound and the plan that a query would have, whatever the budget is. Nothing is read.

        >>> with Database() as db:
        ...     _ = db.run("CREATE TABLE r (a INTEGER, b INTEGER); CREATE ACCESS ab ON r (a) FETCH (b) LIMIT 5")
        ...     db.price("SELECT DISTINCT b FROM r WHERE a = :a", {"a": 1}).bound
        5
        """
        text = query if parameters is None else filled(query, parameters)
        report = raised(self._outcome(self._library.price, text))
        assert isinstance(report, Explained)
        return Price(report.bound, report.plan)

    def plan(self, query: str, parameters: Parameters | None = None) -> Plan:
        """The plan that a query would have, as data, whatever the budget is. Nothing is read, and the last report stays; only a refusal, which
        is raised, is a report of its own.

        >>> with Database() as db:
        ...     _ = db.run("CREATE TABLE r (a INTEGER, b INTEGER); CREATE ACCESS ab ON r (a) FETCH (b) LIMIT 5")
        ...     [(it.constraint, it.key, it.fetch, it.limit) for it in db.plan("SELECT DISTINCT b FROM r WHERE a = 1").blocks[0].steps]
        [('ab', ('a',), ('b',), 5)]
        """
        text = query if parameters is None else filled(query, parameters)
        status, told = self._planned(encoded(text))
        if status == _library.ABSENT:
            # The query is refused; the price tells why.
            raised(self._outcome(self._library.price, text))
        check(status)
        return plan_of(told)

    def _planned(self, query: bytes) -> tuple[int, str]:
        self._allow()
        try:
            self._is_busy = True
            return self._last.status_and_text(self._library.plan_data, query, len(query))
        finally:
            self._is_busy = False

    # ---- rows and files

    def load(self, table: str, rows: Rows) -> Changed:
        """Adds rows to a table, all or none. A row has a value for each column, in the order of CREATE TABLE.

        Rows of more than 67,108,864 bytes as a CSV file are added in parts, of which each is added whole. If one is refused, `rows_before`
        of the refusal says how many rows were added before, and its record counts from there.

        >>> with Database() as db:
        ...     _ = db.say("CREATE TABLE people (name TEXT, age INTEGER)")
        ...     db.load("people", ((name, age) for name, age in [("Ann", 30), ("Bob", 7)]))
        Changed(statement=2, rows=2)
        """
        if not is_name(table):
            raise BadValue(f"{table!r} can't be the name of a table")
        columns = self._schema.tables.get(table.lower())
        load = f"LOAD {table} FROM {quoted(ROWS)}"
        if columns is None:
            # The library says that there is no such table.
            raised(self._said(load))
            raise BadValue(f"the columns of {table} aren't known")
        added, statement = 0, 0
        try:
            for count, content in files_of(columns, rows, self._limits.file or MOST_OF_A_FILE):
                self.add_file(ROWS, content)
                outcome = self._said(load)
                if isinstance(outcome, Refused):
                    outcome.rows_before = added
                added, statement = added + count, raised(outcome).statement
        finally:
            self.add_file(ROWS, b"")
        return Changed(statement, added)

    def load_file(self, table: str, path: str | Path) -> Changed:
        """Adds the records of a CSV file to a table, all or none. Its header names each column of the table once."""
        if not is_name(table):
            raise BadValue(f"{table!r} can't be the name of a table")
        with open(path, "rb") as file:
            # One byte too many is enough for the library to refuse it.
            content = file.read((self._limits.file or MOST_OF_A_FILE) + 1)
        try:
            self.add_file(str(path), content)
            report = raised(self._said(f"LOAD {table} FROM {quoted(str(path))}"))
        finally:
            self.add_file(str(path), b"")
        assert isinstance(report, Changed)
        return report

    def add_file(self, name: str, content: bytes | bytearray | memoryview) -> None:
        """Hands over a file: LOAD of this name reads these bytes from then on. The database keeps them until others take their place.

        >>> with Database() as db:
        ...     _ = db.say("CREATE TABLE people (name TEXT)")
        ...     db.add_file("people.csv", b"name\\nAnn\\n")
        ...     db.say("LOAD people FROM 'people.csv'")
        Changed(statement=2, rows=1)
        """
        title, kept = encoded(name), bytes(content)
        self._called(self._library.add_file, title, len(title), kept, len(kept))

    def _one(self, text: str) -> Outcome:
        """What a statement comes to; if it is a LOAD, and files are read from a folder, its file is handed over for it."""
        name = None if self._folder is None else loaded_file(text)
        if name is None or not self._hand_over(name):
            return self._said(text)
        try:
            return self._said(text)
        finally:
            self.add_file(name, b"")

    def _hand_over(self, name: str) -> bool:
        """Whether a file could be read. If it was read before, and can't be any more, that is raised: the library has no way to forget it."""
        assert self._folder is not None
        try:
            with open(self._folder / name, "rb") as file:
                content = file.read((self._limits.file or MOST_OF_A_FILE) + 1)
        except (OSError, ValueError):
            if name in self._files:
                raise
            return False
        self.add_file(name, content)
        self._files.add(name)
        return True

    # ---- settings, and what is there

    @property
    def budget(self) -> int | None:
        """The greatest bound that a query may have, or None. Queries that are open keep what they were opened with."""
        return self._budget

    @budget.setter
    def budget(self, budget: int | None) -> None:
        self._set(checked_budget(budget), self._explain)

    @property
    def explain(self) -> bool:
        """Whether answers have their plans."""
        return self._explain

    @explain.setter
    def explain(self, explain: bool) -> None:
        self._set(self._budget, bool(explain))

    def _set(self, budget: int | None, explain: bool) -> None:
        self._called(self._library.set, int(budget is not None), budget or 0, int(explain))
        self._budget, self._explain = budget, explain
        # A query that was opened before may still have its plan.
        self._last.has_plans |= explain

    @property
    def tables(self) -> dict[str, tuple[Column, ...]]:
        """The columns of each table."""
        return dict(self._schema.tables)

    @property
    def constraints(self) -> list[Constraint]:
        """The constraints, in the order in which they were made."""
        return list(self._schema.constraints.values())

    def report_text(self) -> str:
        """The last report as the library writes it: `written` of a report that is still there."""
        self._called(self._library.kind, self._last.to_kind)
        return self._last.written() if self._last.kind.value else ""

    # ---- sessions

    def session(self, number: int | None = None) -> Session:
        """A session: that of a number from 1 to 64, or the first that isn't taken."""
        free = [it for it in SESSIONS if it not in self._sessions]
        if not free:
            raise NoSession("all 64 sessions are taken")
        chosen = free[0] if number is None else number
        if chosen not in free:
            raise NoSession(f"session {number} is taken, or isn't between 1 and 64")
        self._sessions.add(chosen)
        return Session(self, chosen)

    def _give_back(self, number: int) -> None:
        self._sessions.discard(number)
        if self._is_open:
            self._called(self._library.drop_query, number)

    # ---- the end

    def close(self) -> None:
        """Closes the database, and frees all that it held. A closed one may be closed again."""
        if self._is_open:
            self._called(self._library.close)
            self._is_open = False

    def __enter__(self) -> "Database":
        return self

    def __exit__(self, kind: type[BaseException] | None, why: BaseException | None, where: TracebackType | None) -> None:
        self.close()

    def __del__(self) -> None:
        if not getattr(self, "_is_open", False):
            return
        # Only its own thread may close it. In another one its memory is lost.
        if self._thread == get_ident():
            self._is_open = False
            self._library.close(self._handle)
        warnings.warn(f"{self!r} wasn't closed", ResourceWarning, stacklevel=2, source=self)


def raised(outcome: Outcome) -> Report:
    """The report, unless it is a refusal, which is raised."""
    if isinstance(outcome, Refused):
        raise outcome
    return outcome


def encoded(text: str) -> bytes:
    try:
        return text.encode()
    except UnicodeEncodeError as why:
        raise NotText(f"the text has no UTF-8: {why.reason}") from None


def checked_budget(budget: int | None) -> int | None:
    if budget is not None and not 0 <= budget <= MOST_OF_A_BUDGET:
        raise BadValue(f"a budget is between 0 and {MOST_OF_A_BUDGET}")
    return budget


def loaded_file(text: str) -> str | None:
    """The file that a statement loads, if it is a LOAD."""
    if first_token(text) not in ("load", "@"):
        return None
    tokens = without_session(tokens_of(text))
    if tokens and tokens[-1] == Token("mark", ";"):
        tokens.pop()
    is_load = len(tokens) == 4 and tokens[0] == ("word", "load") and tokens[2] == ("word", "from") and tokens[3].kind == "text"
    return tokens[3].text if is_load else None
