"""What is asked of a connection, transactions over it, and what its errors mean.

The connection is one of psycopg2 or of psycopg 3. Neither is imported: both have what is used here under the same names, but for one.
"""
import sys
from collections.abc import Iterator, Sequence
from contextlib import contextmanager
from typing import Any, Protocol

from ._errors import (
    BridgeError,
    CannotKeep,
    ColumnMissing,
    ConnectionBroken,
    DatabaseFailed,
    Denied,
    InTransaction,
    TableMissing,
    TypeDiffers,
)

IDLE = 0
READING = "ISOLATION LEVEL REPEATABLE READ, READ ONLY"
# The trigger that keeps a constraint counts in a snapshot taken after its lock, which this level gives.
WRITING = "ISOLATION LEVEL READ COMMITTED, READ WRITE"
# The first two signs of the states of a connection that is gone, and of a server that ends.
GONE = ("08", "57P0")
MEANINGS: dict[str, type[BridgeError]] = {
    "42P01": TableMissing,
    "3F000": TableMissing,
    "42703": ColumnMissing,
    "42883": TypeDiffers,
    "42804": TypeDiffers,
    "42501": Denied,
    "42809": CannotKeep,
}


class Cursor(Protocol):
    """What is asked of a cursor."""

    def execute(self, statement: Any, values: Any = ..., /) -> Any: ...

    def fetchall(self) -> Sequence[Any]: ...

    def close(self) -> None: ...


class Connection(Protocol):
    """What is asked of a connection."""

    autocommit: Any
    Error: type[Exception]
    InterfaceError: type[Exception]

    @property
    def closed(self) -> Any: ...

    @property
    def info(self) -> Any: ...

    def cursor(self, **words: Any) -> Any: ...

    def commit(self) -> None: ...

    def rollback(self) -> None: ...


@contextmanager
def transaction(connection: Connection, level: str = READING) -> Iterator[Cursor]:
    """A cursor within a transaction of its own, which is one snapshot if it reads. It is rolled back if the block doesn't end well."""
    try:
        with _begun(connection, level) as cursor:
            yield cursor
    except connection.Error as why:
        raise meaning_of(connection, why) from why


def plain_cursor(connection: Connection) -> Cursor:
    """A cursor whose rows are tuples, whatever rows the connection gives otherwise. The driver that made it is loaded."""
    psycopg2, psycopg = sys.modules.get("psycopg2.extensions"), sys.modules.get("psycopg")
    words = {}
    if psycopg2 is not None and isinstance(connection, psycopg2.connection):
        words = {"cursor_factory": psycopg2.cursor}
    elif psycopg is not None and isinstance(connection, psycopg.Connection):
        words = {"row_factory": psycopg.rows.tuple_row}
    cursor: Cursor = connection.cursor(**words)
    return cursor


@contextmanager
def _begun(connection: Connection, level: str) -> Iterator[Cursor]:
    if connection.closed:
        raise ConnectionBroken("the connection is closed")
    if connection.info.transaction_status != IDLE:
        raise InTransaction("the connection is within a transaction")
    cursor = plain_cursor(connection)
    try:
        # Without autocommit the driver has begun by itself.
        cursor.execute(f"BEGIN {level}" if connection.autocommit else f"SET TRANSACTION {level}")
        yield cursor
        _end(connection, cursor, "COMMIT")
    except BaseException:
        _give_up(connection, cursor)
        raise
    finally:
        cursor.close()


def _end(connection: Connection, cursor: Cursor, how: str) -> None:
    if connection.autocommit:
        cursor.execute(how)
    elif how == "COMMIT":
        connection.commit()
    else:
        connection.rollback()


def _give_up(connection: Connection, cursor: Cursor) -> None:
    """Rolls back. That a broken connection can't is no news beside what is raised already."""
    try:
        _end(connection, cursor, "ROLLBACK")
    except connection.Error:
        pass


def meaning_of(connection: Connection, why: Exception) -> BridgeError:
    """The error that an error of the driver stands for."""
    state = getattr(why, "sqlstate", None) or getattr(why, "pgcode", None) or ""
    text = str(why).split("\n")[0]
    if state.startswith(GONE) or isinstance(why, connection.InterfaceError) or connection.closed:
        return ConnectionBroken(text)
    return MEANINGS.get(state, DatabaseFailed)(text)
