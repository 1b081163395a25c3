"""What came of a statement: a class for each kind of report."""
import re
from array import array
from collections.abc import Iterator, Sequence
from dataclasses import dataclass
from typing import NamedTuple, Union

Row = tuple[int | str, ...]
#: The cells of a column: an array of 64 bits each, or a list of texts or of sums, which may be past 64 bits.
Cells = Union["array[int]", list[int], list[str]]


@dataclass(frozen=True)
class Report:
    """What came of the statement of this number."""

    statement: int

    @property
    def written(self) -> str:
        """The report as the program beas writes it."""
        raise NotImplementedError


@dataclass(frozen=True)
class Ok(Report):
    """A table or a constraint was made, or a constraint was dropped."""

    @property
    def written(self) -> str:
        return f"{self.statement} ok\n"


@dataclass(frozen=True)
class Changed(Report):
    """So many rows were added or removed."""

    rows: int

    @property
    def written(self) -> str:
        return f"{self.statement} ok {self.rows} rows\n"


@dataclass(frozen=True)
class Greatest(Report):
    """The size of the greatest group, of DISCOVER with FETCH."""

    size: int

    @property
    def written(self) -> str:
        return f"{self.statement} max {self.size}\n"


class Pair(NamedTuple):
    """Each value of the key comes with at most so many of the other column."""

    key: str
    other: str
    most: int


@dataclass(frozen=True)
class Pairs(Report):
    """The pairs of columns, of DISCOVER with LIMIT."""

    pairs: tuple[Pair, ...]

    @property
    def written(self) -> str:
        lines = "".join(f"{self.statement} pair {it.key} {it.other} {it.most}\n" for it in self.pairs)
        return f"{lines}{self.statement} ok {len(self.pairs)} pairs\n"


@dataclass(frozen=True)
class Explained(Report):
    """The bound and the plan of a query that wasn't run."""

    bound: int
    plan: tuple[str, ...]

    @property
    def written(self) -> str:
        return f"{self.statement} bound {self.bound}\n{lines_of(self.plan)}{self.statement} ok\n"


class Price(NamedTuple):
    """What a query may read at most, and the lines of its plan."""

    bound: int
    plan: tuple[str, ...]


@dataclass(frozen=True)
class Answer(Report):
    """The answer of a query: the names of its columns, its rows in ascending order, the bound that was announced, and the tuples that were
    read.

    >>> import beas
    >>> with beas.Database() as db:
    ...     _ = db.run("CREATE TABLE cards (account INTEGER, holder TEXT);"
    ...                "CREATE ACCESS cards_of ON cards (account) FETCH (holder) LIMIT 3")
    ...     _ = db.load("cards", [(7, "Ann"), (7, "Bob"), (8, "Eve")])
    ...     answer = db.query("SELECT DISTINCT holder FROM cards WHERE account = ?", (7,))
    >>> answer.columns, answer.rows, answer.bound, answer.reads
    (('holder',), [('Ann',), ('Bob',)], 3, 2)
    >>> [holder for (holder,) in answer]
    ['Ann', 'Bob']
    """

    bound: int
    reads: int
    columns: tuple[str, ...]
    #: The cells of each column.
    cells: tuple[Cells, ...]
    #: The number of rows.
    count: int
    #: The lines of the plan, which there are if the database was asked to explain.
    plan: tuple[str, ...]

    @property
    def rows(self) -> list[Row]:
        """The rows, as tuples of integers and texts."""
        rows: list[Row] | None = self.__dict__.get("_rows")
        if rows is None:
            # They are made once. A cached_property would take a lock, which costs as much as a small answer's rows.
            rows = self.__dict__["_rows"] = list(zip(*self.cells)) if self.cells else [()] * self.count
        return rows

    def column(self, which: int | str) -> Cells:
        """The cells of a column, by its place or its name: an array of integers, or a list of texts or of sums. It is quicker than the rows
        for one who needs a few columns of many rows."""
        return self.cells[self.columns.index(which) if isinstance(which, str) else which]

    def __iter__(self) -> Iterator[Row]:
        return iter(self.rows)

    def __len__(self) -> int:
        return self.count

    @property
    def written(self) -> str:
        records = "".join(f"{record(row)}\n" for row in (self.columns, *self.rows))
        end = f"{self.statement} ok {self.count} rows {self.reads} reads\n"
        return f"{self.statement} bound {self.bound}\n{lines_of(self.plan)}{records}{end}"


class Place(NamedTuple):
    """A column of an atom, which is a table in a FROM, numbered from 1."""

    atom: int
    column: str


@dataclass(frozen=True)
class Specialised(Report):
    """The columns that, given as constants, make a SELECT covered; None if no columns would."""

    places: tuple[Place, ...] | None

    @property
    def written(self) -> str:
        if self.places is None:
            return f"{self.statement} none\n"
        lines = "".join(f"{self.statement} needs atom {it.atom} column {it.column}\n" for it in self.places)
        return f"{lines}{self.statement} ok {len(self.places)} columns\n"


@dataclass(frozen=True)
class Opened(Report):
    """The query of a session was announced; nothing is read yet."""

    session: int
    bound: int

    @property
    def written(self) -> str:
        return f"{self.statement} open {self.session} bound {self.bound}\n"


@dataclass(frozen=True)
class Probed(Report):
    """The query of a session made one probe."""

    session: int

    @property
    def written(self) -> str:
        return f"{self.statement} probed {self.session}\n"


def lines_of(plan: Sequence[str]) -> str:
    return "".join(f"{line}\n" for line in plan)


def field(value: int | str) -> str:
    """A field of a record: between quotes if it holds a comma, a quote or a line end."""
    text = str(value)
    return '"' + text.replace('"', '""') + '"' if re.search('[,"\r\n]', text) else text


def record(fields: Sequence[int | str]) -> str:
    """A record as the program writes it. One that is an empty text by itself stands in quotes, since an empty line is none.

    >>> record((7, "a, b", "c"))
    '7,"a, b",c'
    """
    return ",".join(map(field, fields)) or '""'
