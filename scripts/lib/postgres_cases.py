"""Drawn cases over PostgreSQL: the same rows in the database and in the second program, and each query answered three ways."""
from collections.abc import Iterator
from typing import Any, NamedTuple

from .case_runs import differs, reports_of
from .second_plans import SecondPlanner
from .second_program.answers import Run, checked_run
from .second_program.database import Row
from .second_program.desk import Desk
from .second_program.tokens import pieces_of
from .sqlite_cases import Case

from beas import NotCovered
from beas.postgres import Bounded

# where the tables are, and where those stand that show no row with NULL
TABLES, SHOWN = "held", "shown"


class Rows:
    """The files of a case, as the second program loads them."""

    def __init__(self, files: dict[str, str]) -> None:
        self.files = files

    def read(self, name: str) -> bytes:
        return self.files[name].encode()


class Told(NamedTuple):
    """What came of a query: whether it was answered, how many of its blocks were guided, and what is wrong, if anything is."""

    answered: bool
    guided: int
    wrong: str | None


class Drawn:
    """A drawn case, carried out in a database that is empty at first. With NULLs each table has rows besides that are to be left out."""

    def __init__(self, connection: Any, seed: str, program: str | None = None) -> None:
        self.case, self.connection, self.cursor = Case(seed), connection, connection.cursor()
        self.desk, self.script = Desk(Rows(self.case.files)), list[str]()
        self.has_nulls = self.case.draw.random() < 0.3
        self.cursor.execute(f"DROP SCHEMA IF EXISTS {TABLES}, {SHOWN} CASCADE; CREATE SCHEMA {TABLES}; CREATE SCHEMA {SHOWN}")
        self.bridge: Bounded | None = None
        self.reports = iter(reports_of(program, self.case)) if program else None

    def queries(self) -> Iterator[Told]:
        """Carries the statements out, and tells what came of each query."""
        for kind, text, more in self.case.statements:
            if kind == "query":
                yield self.query(text)
            else:
                self.update(kind, text, more)
        if self.bridge:
            self.bridge.close()

    # ---- updates

    def update(self, kind: str, text: str, more: Any) -> None:
        (piece,) = pieces_of(text)
        if self.desk.report(piece)[0].startswith("refused "):
            return
        if kind in ("schema", "access"):
            self.script.append(text)
            self.bridge = None
        self.cursor.execute(f"SET search_path = {TABLES}")
        if kind == "schema":
            self.create(text.split()[2])
        elif kind == "rows":
            self.insert(*more)
        elif kind == "delete":
            self.cursor.execute(text)
        self.connection.commit()

    def create(self, table: str) -> None:
        types = {"INTEGER": ["bigint"], "TEXT": ["text", "varchar", 'text COLLATE "C"', "text COLLATE pg_catalog.ucs_basic"]}
        columns = [f"{name} {self.case.draw.choice(types[kind])}" + " NOT NULL" * (not self.has_nulls) for name, kind in self.case.tables[table]]
        there = " AND ".join(f"{name} IS NOT NULL" for name, _ in self.case.tables[table])
        # In one collation, since the database refuses by itself to compare texts of two.
        shown = ", ".join(f'{name} COLLATE "C" AS {name}' if kind == "TEXT" else name for name, kind in self.case.tables[table])
        self.cursor.execute(f"CREATE TABLE {table} ({', '.join(columns)})")
        self.cursor.execute(f"CREATE VIEW {SHOWN}.{table} AS SELECT {shown} FROM {TABLES}.{table} WHERE {there}")

    def insert(self, table: str, rows: list[Row]) -> None:
        more = [with_null(row, self.case.draw.randrange(len(row))) for row in rows] if self.has_nulls else []
        places = ", ".join(["%s"] * len(rows[0]))
        for row in [*rows, *more]:
            self.cursor.execute(f"INSERT INTO {table} VALUES ({places})", row)

    # ---- queries

    def query(self, text: str) -> Told:
        planner = self.planner()
        try:
            run = checked_run(planner.prepared(text), self.desk.db)
        except NotCovered:
            run = None
        finally:
            planner.close()
        wrong = differs(next(self.reports), run) if self.reports else None
        wrong = wrong or run and self.compare(text, run)
        return Told(run is not None, sum(plan.is_guided for plan in run.prepared.plans) if run else 0, wrong and f"{wrong}\n{text}")

    def planner(self) -> SecondPlanner:
        return SecondPlanner(";".join(self.script))

    def compare(self, text: str, run: Run) -> str | None:
        wanted = sorted(run.answer)
        if self.bridge is None:
            self.cursor.execute(f"SET search_path = {TABLES}")
            self.connection.commit()
            self.bridge = Bounded(self.connection, ";".join(self.script), nulls="leave out" if self.has_nulls else "refuse")
        found = self.bridge.query(text)
        if found.rows != wanted or list(found.columns) != run.prepared.header:
            return f"the bridge answers {found.columns} {found.rows}, the second program {run.prepared.header} {wanted}"
        if (found.reads, found.bound, found.probes) != (run.reads, run.prepared.number, len(run.probes)):
            return f"reads, bound and probes {found.reads, found.bound, found.probes}, and {run.reads, run.prepared.number, len(run.probes)}"
        if found.reads > found.bound or len(found.statements) > self.bridge.price(text).plan.round_trips:
            return f"{found.reads} reads above the bound {found.bound}, or {len(found.statements)} statements"
        if self.bridge.price(text).plan.lines() != run.prepared.lines:
            return f"lines of the plan {self.bridge.price(text).plan.lines()}, and {run.prepared.lines}"
        own = self.own_answer(text)
        return None if own == wanted else f"the database answers {own} by itself, the bridge {wanted}"

    def own_answer(self, text: str) -> list[Row]:
        self.cursor.execute(f"SET search_path = {SHOWN}")
        self.cursor.execute(text)
        found = sorted(self.cursor.fetchall())
        self.connection.rollback()
        return found


def with_null(row: Row, place: int) -> tuple[int | str | None, ...]:
    return (*row[:place], None, *row[place + 1 :])
