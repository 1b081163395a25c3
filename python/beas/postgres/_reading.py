"""A schema read from the database's own catalogue."""
from collections.abc import Iterator, Sequence
from dataclasses import dataclass

from .._lexing import is_name
from ._bounded import REFUSE, Bounded
from ._catalogue import ColumnThere, IndexThere, TableThere, indexes_there, tables_there
from ._connection import Connection, transaction
from ._schema import LONGEST_NAME


@dataclass(frozen=True)
class LeftOut:
    """A table, or a column of one, that queries can't name, and why."""

    table: str
    column: str | None
    why: str


@dataclass(frozen=True)
class Found:
    """A schema as a script, and what was left out of it."""

    script: str
    left_out: tuple[LeftOut, ...]


class Schemas:
    """Writes the script of some tables."""

    def __init__(self, nulls: str) -> None:
        self.nulls, self.left_out, self.names = nulls, list[LeftOut](), set[str]()

    def statements_of(self, table: TableThere, indexes: Sequence[IndexThere]) -> Iterator[str]:
        """A table with the constraints that its unique indexes are."""
        if not is_usable(table.name):
            self.left_out.append(LeftOut(table.name, None, "its name"))
            return
        columns = [it for it in table.columns.values() if self.takes(table, it)]
        if not columns:
            self.left_out.append(LeftOut(table.name, None, "it has no column that can be taken"))
            return
        yield f"CREATE TABLE {table.name} ({', '.join(f'{it.name} ' + ('TEXT' if it.is_text else 'INTEGER') for it in columns)})"
        taken = [it.name for it in columns]
        present = [it.name for it in columns if it.may_be_null]
        for index in indexes:
            if index.is_unique and set(index.key) <= set(taken) and index.asks_no_more_than([*present, *index.key]):
                yield self.access_of(table, index, taken)

    def takes(self, table: TableThere, column: ColumnThere) -> bool:
        why = None
        if not is_usable(column.name):
            why = "its name"
        elif not column.is_known:
            why = f"its type {column.type}"
        elif column.may_be_null and self.nulls == REFUSE:
            why = "it may be NULL"
        if why:
            self.left_out.append(LeftOut(table.name, column.name, why))
        return why is None

    def access_of(self, table: TableThere, index: IndexThere, columns: Sequence[str]) -> str:
        """Each key has one row. A key of all columns fetches its first, since something has to be fetched."""
        rest = [column for column in columns if column not in index.key] or [index.key[0]]
        name = self.free_name(index.name if is_usable(index.name) else f"{table.name}_key")
        return f"CREATE ACCESS {name} ON {table.name} ({', '.join(index.key)}) FETCH ({', '.join(rest)}) LIMIT 1"

    def free_name(self, name: str) -> str:
        tried = [name, *(f"{name[: LONGEST_NAME - 5]}_{nth}" for nth in range(2, 9999))]
        found = next(it for it in tried if it not in self.names)
        self.names.add(found)
        return found


def is_usable(name: str) -> bool:
    """Whether a name of the database can be said in a query, where letters are small."""
    return is_name(name) and name == name.lower() and len(name) <= LONGEST_NAME


def found_schema(
    connection: Connection, tables: Sequence[str] | None = None, *, constraints: Sequence[str] = (), nulls: str = REFUSE
) -> Found:
    """The script of all tables on the search path, or of those of these names: their columns of integers and texts, a constraint with limit 1
    for each primary key and unique index, and the further constraints, each as CREATE ACCESS."""
    schemas = Schemas(nulls)
    with transaction(connection) as cursor:
        there = tables_there(cursor, tables)
        statements = [text for it in there.values() for text in schemas.statements_of(it, indexes_there(cursor, it))]
    for name in tables or ():
        if name not in there:
            schemas.left_out.append(LeftOut(name, None, "it isn't there"))
    script = "".join(f"{text};\n" for text in [*statements, *(it.strip().rstrip(";") for it in constraints)])
    return Found(script, tuple(schemas.left_out))


def from_database(
    connection: Connection,
    tables: Sequence[str] | None = None,
    *,
    constraints: Sequence[str] = (),
    nulls: str = REFUSE,
    budget: int | None = None,
) -> Bounded:
    """A bridge over the tables of a database as its catalogue has them; `found_schema` says what is left out."""
    found = found_schema(connection, tables, constraints=constraints, nulls=nulls)
    return Bounded(connection, found.script, nulls=nulls, budget=budget)
