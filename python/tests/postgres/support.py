"""What the tests of the bridge share: a server, whose socket is in the folder that BEAS_POSTGRES names, and a schema for each test."""
import os
import sys
import unittest
from collections.abc import Callable, Sequence
from pathlib import Path
from typing import Any

TOP = Path(__file__).resolve().parents[3]
sys.path[:0] = [str(TOP / "python"), str(TOP / "scripts")]

from lib.postgres_server import connect  # noqa: E402
from lib.second_plans import use_plans_there  # noqa: E402

from beas import Error  # noqa: E402
from beas.postgres import Bounded  # noqa: E402

use_plans_there()
FOLDER = os.environ.get("BEAS_POSTGRES", "")
# friends, and where they dined
TABLES = """
CREATE TABLE friend (pid bigint NOT NULL, fid integer NOT NULL);
CREATE TABLE dine (pid integer NOT NULL, cid smallint NOT NULL, city varchar(20) NOT NULL, note numeric);
INSERT INTO friend VALUES (1, 2), (1, 3), (1, 3), (2, 1), (3, 1), (4, 4);
INSERT INTO dine VALUES (2, 10, 'oslo', 1), (2, 11, 'Rom', 2), (3, 10, 'oslo', 3), (3, 12, 'ähtäri', 4), (1, 13, 'Zug', 5), (4, 10, '', 6);
"""
SCHEMA = """
CREATE TABLE friend (pid INTEGER, fid INTEGER);
CREATE TABLE dine (pid INTEGER, cid INTEGER, city TEXT);
CREATE ACCESS friends ON friend (pid) FETCH (fid) LIMIT 3;
CREATE ACCESS dined ON dine (pid) FETCH (cid, city) LIMIT 4;
"""
DINED = "SELECT DISTINCT d.cid, d.city FROM friend f, dine d WHERE f.pid = ? AND f.fid = d.pid"
Hook = Callable[[str], None]


class HookedCursor:
    """A cursor that calls a hook before each statement, and counts the rows that it gives."""

    def __init__(self, cursor: Any, before: Hook) -> None:
        self.cursor, self.before, self.fetched = cursor, before, 0

    def execute(self, statement: str, values: Any = None) -> None:
        self.before(statement)
        self.cursor.execute(statement, values)

    def fetchall(self) -> Sequence[Any]:
        found: Sequence[Any] = self.cursor.fetchall()
        self.fetched += len(found)
        return found

    def close(self) -> None:
        self.cursor.close()


class HookedConnection:
    """A connection with such cursors."""

    def __init__(self, connection: Any, before: Hook) -> None:
        self.connection, self.before, self.cursors = connection, before, list[HookedCursor]()

    def cursor(self) -> HookedCursor:
        self.cursors.append(HookedCursor(self.connection.cursor(), self.before))
        return self.cursors[-1]

    def __getattr__(self, name: str) -> Any:
        return getattr(self.connection, name)


class Case(unittest.TestCase):
    """A test with tables of its own, in a schema that is new."""

    def setUp(self) -> None:
        self.connection = self.connected()
        self.run_sql("DROP SCHEMA IF EXISTS tried CASCADE; CREATE SCHEMA tried")
        self.run_sql(TABLES)

    def connected(self) -> Any:
        connection = connect(FOLDER)
        self.addCleanup(connection.close)
        with connection.cursor() as cursor:
            cursor.execute("SET search_path = tried; SET lock_timeout = '10s'")
        connection.commit()
        return connection

    def run_sql(self, script: str, connection: Any = None) -> None:
        chosen = connection or self.connection
        with chosen.cursor() as cursor:
            cursor.execute(script)
        if not chosen.autocommit:
            chosen.commit()

    def rows(self, query: str) -> list[Any]:
        with self.connection.cursor() as cursor:
            cursor.execute(query)
            found = list(cursor.fetchall())
        self.connection.rollback()
        return found

    def bridge(self, schema: str = SCHEMA, connection: Any = None, **words: Any) -> Bounded:
        made = Bounded(connection or self.connection, schema, **words)
        self.addCleanup(made.close)
        return made

    def fails(self, kind: type[Error], call: Callable[[], object], why: str = "") -> Any:
        """The error that a call ends with; the connection is idle afterwards, and serves on unless it is broken."""
        with self.assertRaisesRegex(kind, why) as caught:
            call()
        if not self.connection.closed:
            self.assertEqual(0, self.connection.info.transaction_status)
        return caught.exception
