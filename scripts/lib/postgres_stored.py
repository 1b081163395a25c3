"""A set of tables in a database of its own, with the indexes that its constraints want, on a server whose files may be kept."""
import os
from collections.abc import Iterable, Iterator, Sequence
from contextlib import closing, contextmanager
from pathlib import Path

from .benchmark_sets import Set
from .known_plans import use_plans
from .postgres_server import DATABASE, Server
from .spread_tables import columns_of

from beas.postgres import Bounded

# Nothing is written twice, and nothing goes on beside what is measured.
SETTINGS = {
    "wal_level": "minimal",
    "max_wal_senders": "0",
    "full_page_writes": "off",
    "max_wal_size": "2GB",
    "checkpoint_timeout": "1h",
    "autovacuum": "off",
}
# One processor loads, and sorts in so much memory.
LOADING = ("SET max_parallel_maintenance_workers = 0", "SET maintenance_work_mem = '1GB'")


class Lines:
    """Rows as a file of COPY, made as they are read."""

    def __init__(self, rows: Iterable[Sequence[int | str]]) -> None:
        self.lines, self.kept = ("\t".join(map(str, row)) + "\n" for row in rows), ""

    def read(self, size: int = -1) -> str:
        while len(self.kept) < size:
            more = "".join(line for line, _ in zip(self.lines, range(4096)))
            if not more:
                break
            self.kept += more
        given, self.kept = self.kept[:size], self.kept[size:]
        return given


class Stored:
    """A server that has the tables of a set, in a database of this name. They are loaded unless they are there."""

    def __init__(self, the_set: Set, buffers: str, name: str = "tables", kept: Path | None = None) -> None:
        self.set, self.name = the_set, name
        self.server = Server("bench", kept, shared_buffers=buffers, **SETTINGS)
        self.script = ";".join([*the_set.schema(), *the_set.accesses()])
        use_plans()
        try:
            self.make()
            self.open()
            self.most = self.rows_there() or self.load()
            self.bridge = Bounded(self.connection, self.script)
        except BaseException:
            self.server.end()
            raise

    def make(self) -> None:
        """Makes the database, also anew if somebody was stopped who loaded it."""
        connection = self.server.connect()
        connection.autocommit = True
        with connection.cursor() as cursor:
            cursor.execute("SELECT shobj_description(oid, 'pg_database') FROM pg_database WHERE datname = %s", (self.name,))
            if cursor.fetchone() in (None, (None,)):
                cursor.execute(f"DROP DATABASE IF EXISTS {self.name}")
                cursor.execute(f"CREATE DATABASE {self.name}")
        connection.close()

    def open(self) -> None:
        self.connection = self.server.connect(self.name)
        self.connection.autocommit = True
        self.cursor = self.connection.cursor()

    # ---- rows

    def rows_there(self) -> int | None:
        """How many rows the greatest table has, if all tables are there with their indexes."""
        self.cursor.execute("SELECT shobj_description(oid, 'pg_database') FROM pg_database WHERE datname = current_database()")
        (told,) = self.cursor.fetchone()
        return int(told) if told else None

    def load(self) -> int:
        """Loads all rows and makes the indexes. Gives how many rows the greatest table has."""
        for setting in LOADING:
            self.cursor.execute(setting)
        most = max(self.fill())
        bridge = Bounded(self.connection, self.script)
        for one in bridge.indexes():
            self.cursor.execute(one.create)
        bridge.close()
        self.tidy()
        self.cursor.execute(f"COMMENT ON DATABASE {self.name} IS '{most}'")
        return most

    def fill(self) -> Iterator[int]:
        """Makes the tables, and gives how many rows each has. Rows that come with their table are written once."""
        rows = {} if self.set.in_sql else dict(self.set.rows())
        for table in self.set.tables:
            self.cursor.execute("BEGIN")
            self.cursor.execute(f"CREATE TABLE {table} ({columns_of(self.set, table)})")
            if self.set.in_sql:
                self.cursor.execute(f"INSERT INTO {table} {self.set.in_sql[table]}")
            else:
                self.cursor.copy_expert(f"COPY {table} FROM STDIN", Lines(rows[table]))
            yield self.cursor.rowcount
            self.cursor.execute("COMMIT")

    def tidy(self) -> None:
        self.cursor.execute("VACUUM ANALYZE")

    @contextmanager
    def without_indexes(self) -> Iterator[None]:
        """Meanwhile none is there: they are dropped in a transaction that comes to nothing."""
        undo = [one.undo for one in self.bridge.indexes()]
        self.cursor.execute("BEGIN")
        try:
            for statement in undo:
                self.cursor.execute(statement)
            yield
        finally:
            self.cursor.execute("ROLLBACK")

    # ---- memory and disk

    def folder(self) -> str:
        self.cursor.execute("SELECT oid FROM pg_database WHERE datname = current_database()")
        return f"{self.server.data}/base/{self.cursor.fetchone()[0]}"

    def make_cold(self) -> None:
        """Starts the server anew, with no page of the database's files in memory: others' pages stay where they are."""
        folder = self.folder()
        self.bridge.close()
        self.connection.close()
        self.server.stop("fast")
        for name in os.listdir(folder):
            forget(f"{folder}/{name}")
        self.server.start()
        self.open()
        self.bridge = Bounded(self.connection, self.script)

    def from_outside(self) -> int:
        """How many pages the server fetched from outside its memory until now."""
        self.cursor.execute("SELECT pg_stat_force_next_flush()")
        self.cursor.execute("SELECT sum(coalesce(heap_blks_read, 0) + coalesce(idx_blks_read, 0)) FROM pg_statio_user_tables")
        return int(self.cursor.fetchone()[0] or 0)

    def size(self) -> int:
        """The database in MB."""
        self.cursor.execute("SELECT pg_database_size(current_database()) / 1048576")
        return int(self.cursor.fetchone()[0])

    def end(self) -> None:
        self.bridge.close()
        self.connection.close()
        self.server.end()


def loaded(kept: Path) -> list[tuple[str, int]]:
    """The sets and sizes whose tables are in a folder, the smallest first."""
    with Server("loaded", kept, **SETTINGS) as server, closing(server.connect()) as connection:
        cursor = connection.cursor()
        cursor.execute("SELECT datname FROM pg_database WHERE datname <> %s AND shobj_description(oid, 'pg_database') ~ '^[0-9]+$'", (DATABASE,))
        found = [name.rsplit("_", 1) for (name,) in cursor.fetchall()]
    return sorted(((name, int(rows)) for name, rows in found), key=lambda it: (it[1], it[0]))


def forget(path: str) -> None:
    """Lets the system drop a file's pages."""
    file = os.open(path, os.O_RDONLY)
    try:
        os.fsync(file)
        os.posix_fadvise(file, 0, 0, os.POSIX_FADV_DONTNEED)
    finally:
        os.close(file)
