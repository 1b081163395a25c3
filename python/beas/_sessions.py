"""Sessions, which carry on several queries of one database at once, probe by probe."""
from collections.abc import Iterator
from types import TracebackType
from typing import TYPE_CHECKING

from ._errors import Closed
from ._lexing import refuse_another
from ._parameters import Parameters
from ._reports import Answer, Opened, Report, Row

if TYPE_CHECKING:
    from ._database import Database


class Session:
    """One of the 64 numbers under which statements take turns. `Database.session` gives one; leaving its block drops its open query.

    >>> import beas
    >>> with beas.Database() as db:
    ...     _ = db.run("CREATE TABLE r (a INTEGER, b INTEGER); CREATE ACCESS ab ON r (a) FETCH (b) LIMIT 2")
    ...     _ = db.load("r", [(1, 5)])
    ...     with db.session() as s:
    ...         cursor = s.open("SELECT DISTINCT b FROM r WHERE a = 1")
    ...         _ = db.say("DELETE FROM r")
    ...         while cursor.step():
    ...             print("one probe")
    ...         print(cursor.rows, cursor.bound)
    one probe
    [(5,)] 2
    """

    def __init__(self, db: "Database", number: int) -> None:
        self._db, self.number = db, number
        self._is_open = True

    def say(self, statement: str, parameters: Parameters | None = None) -> Report:
        """Carries out one statement of this session. A query is opened by it."""
        if not self._is_open:
            raise Closed("the session is closed")
        return self._db.say(f"@{self.number} {statement}", parameters)

    def open(self, query: str, parameters: Parameters | None = None) -> "Cursor":
        """Opens a query: its bound is there, and nothing is read yet. It goes on seeing the rows as they are now. A query in groups, and
        one after SCAN OK, is answered at once."""
        refuse_another(query)
        report = self.say(query, parameters)
        assert isinstance(report, (Opened, Answer))
        return Cursor(self, report)

    def close(self) -> None:
        """Drops the open query, if there is one, and gives the number back."""
        if self._is_open:
            self._is_open = False
            self._db._give_back(self.number)

    def __enter__(self) -> "Session":
        return self

    def __exit__(self, kind: type[BaseException] | None, why: BaseException | None, where: TracebackType | None) -> None:
        self.close()


class Cursor:
    """An open query of a session."""

    def __init__(self, session: Session, report: Opened | Answer) -> None:
        self._session = session
        #: The bound that was announced.
        self.bound = report.bound
        #: The answer, once it is there.
        self.answer: Answer | None = report if isinstance(report, Answer) else None

    def step(self) -> bool:
        """Makes one probe, and gives True; or, once all are made, takes the answer, and gives False."""
        if self.answer is None:
            report = self._session.say("STEP")
            self.answer = report if isinstance(report, Answer) else None
        return self.answer is None

    def run(self) -> Answer:
        """The answer, after all probes that are left."""
        while self.step():
            pass
        assert self.answer is not None
        return self.answer

    def __iter__(self) -> Iterator[Row]:
        return iter(self.rows)

    @property
    def rows(self) -> list[Row]:
        """The rows of the answer, after all probes that are left."""
        return self.run().rows
