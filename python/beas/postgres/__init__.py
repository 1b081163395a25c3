"""Bounded queries over PostgreSQL: beas prices, plans and promises, and the database's own indexes answer.

    connection = psycopg2.connect("dbname=shop")
    shop = Bounded(connection, '''
        CREATE TABLE cards (account INTEGER, card INTEGER);
        CREATE ACCESS cards_of ON cards (account) FETCH (card) LIMIT 3;
    ''')
    shop.price("SELECT DISTINCT card FROM cards WHERE account = ?", (7,)).bound
    shop.query("SELECT DISTINCT card FROM cards WHERE account = ?", (7,)).rows

The connection is one of psycopg2 or psycopg 3; the package itself imports neither. docs/postgres.md has the calls, and says what is
promised, what is tested and what is trusted.
"""
from ._bounded import Answer, Bounded, Index, Kept, Price, Verdict
from ._connection import Connection, Cursor
from ._errors import (
    BoundBroken,
    BridgeError,
    CannotKeep,
    ColumnMissing,
    ConnectionBroken,
    DatabaseFailed,
    Denied,
    InTransaction,
    NotASchema,
    NullsAllowed,
    OtherEncoding,
    TableMissing,
    TypeDiffers,
    UnknownType,
)
from ._planning import Planner, use_planner
from ._reading import Found, LeftOut, found_schema, from_database

__all__ = [
    "Answer",
    "BoundBroken",
    "Bounded",
    "BridgeError",
    "CannotKeep",
    "ColumnMissing",
    "Connection",
    "ConnectionBroken",
    "Cursor",
    "DatabaseFailed",
    "Denied",
    "Found",
    "InTransaction",
    "Index",
    "Kept",
    "LeftOut",
    "NotASchema",
    "NullsAllowed",
    "OtherEncoding",
    "Planner",
    "Price",
    "TableMissing",
    "TypeDiffers",
    "UnknownType",
    "Verdict",
    "found_schema",
    "from_database",
    "use_planner",
]
