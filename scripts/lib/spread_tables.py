"""Tables that are spread over several servers by a key, behind one server that has them as foreign partitions."""
from collections.abc import Iterable, Sequence
from typing import Any

from .benchmark_sets import Set
from .postgres_server import DATABASE, USER, Server

# the column by which each table of a set is spread
SPREAD_BY = {
    "cafes": {"friend": "pid", "dine": "pid", "cafe": "cid"},
    "orders": {"customers": "custkey", "orders": "custkey", "lines": "orderkey", "parts": "partkey", "suppliers": "suppkey"},
}


def columns_of(the_set: Set, table: str) -> str:
    """The columns of a table as the database has them, none of which may be NULL."""
    return ", ".join(f"{it.replace('INTEGER', 'bigint')} NOT NULL" for it in the_set.tables[table].split(", "))


def fill(cursor: Any, table: str, rows: Iterable[Sequence[int | str]]) -> None:
    rows = list(rows)
    places = f"({', '.join(['%s'] * len(rows[0]))})"
    for first in range(0, len(rows), 1000):
        part = rows[first : first + 1000]
        cursor.execute(f"INSERT INTO {table} VALUES {', '.join([places] * len(part))}", [value for row in part for value in row])


class Parts:
    """The servers that hold the parts of all tables. Their logs have each statement, so that it can be seen who is asked."""

    def __init__(self, count: int) -> None:
        self.servers, self.read, self.count = list[Server](), [0] * count, [0] * count
        try:
            for nth in range(count):
                self.servers.append(Server(f"part{nth}", shared_buffers="16MB", log_statement="all"))
        except BaseException:
            self.end()
            raise

    def asked(self) -> list[int]:
        """How many times each server was asked for rows until now."""
        for nth, server in enumerate(self.servers):
            with open(server.log, "rb") as log:
                log.seek(self.read[nth])
                more = log.read()
            # A line that isn't whole yet is read the next time.
            whole = more[: more.rfind(b"\n") + 1]
            self.read[nth], self.count[nth] = self.read[nth] + len(whole), self.count[nth] + whole.count(b"DECLARE c")
        return list(self.count)

    def link(self, cursor: Any) -> None:
        """Makes them known to the server in front."""
        cursor.execute("CREATE EXTENSION IF NOT EXISTS postgres_fdw")
        for nth, server in enumerate(self.servers):
            options = f"host '{server.folder}', dbname '{DATABASE}', fdw_startup_cost '10'"
            cursor.execute(f"DROP SERVER IF EXISTS part{nth} CASCADE")
            cursor.execute(f"CREATE SERVER part{nth} FOREIGN DATA WRAPPER postgres_fdw OPTIONS ({options})")
            cursor.execute(f"CREATE USER MAPPING FOR CURRENT_USER SERVER part{nth} OPTIONS (user '{USER}')")

    def spread(self, cursor: Any, the_set: Set, by: dict[str, str]) -> None:
        """Makes the tables, each with a part on each server."""
        for table in the_set.tables:
            cursor.execute(f"CREATE TABLE {table} ({columns_of(the_set, table)}) PARTITION BY HASH ({by[table]})")
            for nth, server in enumerate(self.servers):
                self.make_part(server, f"DROP TABLE IF EXISTS {table}; CREATE TABLE {table} ({columns_of(the_set, table)})")
                values = f"FOR VALUES WITH (MODULUS {len(self.servers)}, REMAINDER {nth})"
                options = f"SERVER part{nth} OPTIONS (schema_name 'public', table_name '{table}', batch_size '1000')"
                cursor.execute(f"CREATE FOREIGN TABLE {table}_{nth} PARTITION OF {table} {values} {options}")

    def make_part(self, server: Server, statement: str) -> None:
        connection = server.connect()
        connection.autocommit = True
        with connection.cursor() as cursor:
            cursor.execute(statement)
        connection.close()

    def end(self) -> None:
        for server in self.servers:
            server.end()
