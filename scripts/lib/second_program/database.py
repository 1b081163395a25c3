"""Tables, rows and constraints: the updates and their refusals."""
from collections.abc import Callable, Iterable, Sequence
from typing import Any

from .tokens import Refused

MOST = {"tables": 1024, "columns": 64, "constraints": 65536, "atoms": 16, "blocks": 64, "outputs": 1024, "rows": 2**24}
MOST_OF_A_TEXT = 65535
MOST_OF_A_BOUND = 2**32 - 1
INTEGERS = range(-(2**63), 2**63)
Value = int | str
Row = tuple[Value, ...]


def limited(what: str, count: int) -> None:
    if count > MOST[what]:
        raise Refused(22, f"too many {what}, limit {MOST[what]}")


def quoted(text: str) -> str:
    return "'" + text.replace("'", "''") + "'"


def shown(value: Value) -> str:
    return quoted(value) if isinstance(value, str) else str(value)


def repeated(names: Sequence[str]) -> str | None:
    """The first that stood before in the same list."""
    return next((name for place, name in enumerate(names) if name in names[:place]), None)


def refuse_repeated(names: Sequence[str]) -> None:
    name = repeated(names)
    if name is not None:
        raise Refused(7, f"duplicate name {name}")


def bound_of(digits: str) -> int:
    bound = int(digits)
    if not 1 <= bound <= MOST_OF_A_BOUND:
        raise Refused(10, f"limit {digits} not between 1 and {MOST_OF_A_BOUND}")
    return bound


class Table:
    """Its columns, each a name and a type, and its rows. The list of rows is never changed, but another one takes its place."""

    def __init__(self, name: str, columns: list[tuple[str, type]], rows: Iterable[Row] = ()) -> None:
        self.name, self.columns, self.rows = name, columns, list(rows)
        self.names = [name for name, _ in columns]

    def place_of(self, column: str) -> int:
        if column not in self.names:
            raise Refused(5, f"unknown column {column}")
        return self.names.index(column)


def projected(row: Row, columns: Iterable[int]) -> Row:
    return tuple(row[column] for column in columns)


class Constraint:
    """Each key of a table comes with at most so many different values of the fetched columns."""

    def __init__(self, name: str, table: str, key: list[int], fetched: list[int], bound: int) -> None:
        self.name, self.table, self.key, self.fetched, self.bound = name, table, key, fetched, bound
        self.columns = key + fetched

    def group(self, rows: Iterable[Row], key: Row) -> set[Row]:
        """The projections of the rows that have a key."""
        return {projected(row, self.columns) for row in rows if projected(row, self.key) == key}

    def groups(self, rows: Iterable[Row]) -> dict[Row, set[Row]]:
        groups: dict[Row, set[Row]] = {}
        for row in rows:
            groups.setdefault(projected(row, self.key), set()).add(projected(row, self.columns))
        return groups

    def greatest(self, rows: Iterable[Row]) -> int:
        return max(map(len, self.groups(rows).values()), default=0)


class Database:
    def __init__(self) -> None:
        self.tables: dict[str, Table] = {}
        self.constraints: list[Constraint] = []
        self.made = 0

    def copy(self) -> "Database":
        other = Database()
        other.tables = {name: Table(name, table.columns, table.rows) for name, table in self.tables.items()}
        other.constraints, other.made = list(self.constraints), self.made
        return other

    def table(self, name: str) -> Table:
        if name not in self.tables:
            raise Refused(4, f"unknown table {name}")
        return self.tables[name]

    def create_table(self, name: str, columns: list[tuple[str, type]]) -> None:
        if name in self.tables:
            raise Refused(3, f"table {name} exists")
        refuse_repeated([column for column, _ in columns])
        limited("tables", len(self.tables) + 1)
        limited("columns", len(columns))
        self.tables[name] = Table(name, columns)

    def places(self, statement: Any, name: str | None = None) -> list[list[int]]:
        """The columns of the key and of the fetched columns, where a constraint of this name may have them."""
        table = self.table(statement.table)
        places = [[table.place_of(column) for column in columns] for columns in (statement.key, statement.fetched)]
        if any(name == one.name for one in self.constraints):
            raise Refused(7, f"duplicate name {name}")
        refuse_repeated(statement.key)
        refuse_repeated(statement.fetched)
        return places

    def create_access(self, spec: Any) -> None:
        one = Constraint(spec.name, spec.table, *self.places(spec, spec.name), bound_of(spec.digits))
        limited("constraints", self.made + 1)
        greatest = one.greatest(self.tables[spec.table].rows)
        if greatest > one.bound:
            raise Refused(11, f"greatest group {greatest} above limit {one.bound}")
        self.constraints.append(one)
        self.made += 1

    def drop_access(self, name: str) -> None:
        if all(one.name != name for one in self.constraints):
            raise Refused(25, f"unknown constraint {name}")
        self.constraints = [one for one in self.constraints if one.name != name]

    def insert(self, name: str, rows: list[Row]) -> None:
        """All rows, or none where one, after those before it, makes a constraint fail."""
        table = self.table(name)
        limited("rows", len(table.rows) + len(rows))
        checks = [(one, one.groups(table.rows)) for one in self.constraints if one.table == name]
        for number, row in enumerate(rows, 1):
            refuse_breaking(checks, number, row)
        table.rows = table.rows + rows

    def delete(self, name: str, meets: Callable[[Row], bool]) -> int:
        """How many rows went."""
        table = self.table(name)
        kept = [row for row in table.rows if not meets(row)]
        gone = len(table.rows) - len(kept)
        table.rows = kept
        return gone


def refuse_breaking(checks: list[tuple[Constraint, dict[Row, set[Row]]]], number: int, row: Row) -> None:
    """Puts a row into the groups of each constraint, of which the first that doesn't hold then is the refusal."""
    for one, groups in checks:
        key = projected(row, one.key)
        group = groups.setdefault(key, set())
        group.add(projected(row, one.columns))
        if len(group) > one.bound:
            raise Refused(12, f"row {number} breaks {one.name} at key ({', '.join(map(shown, key))})")
