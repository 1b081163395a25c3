"""A database of PostgreSQL whose queries have a bound."""
from collections.abc import Iterator, Sequence
from dataclasses import dataclass
from types import TracebackType

from .._errors import BadValue
from .._lexing import refuse_another
from .._parameters import Parameters, filled
from .._schema import Column, Constraint
from ..plans import Plan, Value
from ._carrying import Carrying
from ._catalogue import IndexThere, TableThere, indexes_there, matched, tables_there
from ._connection import READING, WRITING, Connection, Cursor, transaction
from ._errors import BoundBroken, ColumnMissing, TableMissing
from ._planning import planner_for
from ._relations import Row
from ._schema import Described, described, refuse_others
from ._soundness import check_plan
from ._statements import (
    IS_KEPT,
    create_index,
    create_keeper,
    drop_index,
    drop_keeper,
    greatest,
    lock,
    made_name,
    rest_of,
)

REFUSE, LEAVE_OUT = "refuse", "leave out"


@dataclass(frozen=True)
class Price:
    """What a query may read at most, and its plan."""

    bound: int
    plan: Plan


@dataclass(frozen=True)
class Answer:
    """The answer of a query: its columns, its rows in ascending order, the bound, and what was read."""

    columns: tuple[str, ...]
    rows: list[Row]
    bound: int
    #: The tuples that were read, and the keys that have none.
    reads: int
    #: How many keys were asked.
    probes: int
    #: The statements that were sent, with the keys of each, one list for each column.
    statements: list[tuple[str, Sequence[list[Value]]]]

    def __iter__(self) -> Iterator[Row]:
        return iter(self.rows)

    def __len__(self) -> int:
        return len(self.rows)


@dataclass(frozen=True)
class Verdict:
    """Whether a constraint holds: its greatest group, and the first key that has one so great."""

    constraint: Constraint
    greatest: int
    #: None if the table has no rows.
    key: Row | None
    #: Whether a trigger of `keep` is there and on.
    is_kept: bool

    @property
    def holds(self) -> bool:
        return self.greatest <= self.constraint.limit


@dataclass(frozen=True)
class Index:
    """The index that a constraint wants, and the one that is there."""

    constraint: Constraint
    #: The name of an index that finds the rows of a key, or None.
    there: str | None
    #: Whether it has the fetched columns too, so that the table itself needn't be read.
    covers: bool
    #: The statement that makes the wanted one, and the one that takes it away again.
    create: str
    undo: str


@dataclass(frozen=True)
class Kept:
    """What was made to keep a constraint, and the statements that take it away again."""

    constraint: Constraint
    made: tuple[str, ...]
    undo: tuple[str, ...]


class Bounded:
    """Tables of a database, with constraints on them from which the bound of each query follows.

    `schema` is a script of CREATE TABLE and CREATE ACCESS. Its tables are on the search path of the connection, and have at least the
    columns that the script names. A column that may be NULL is refused; with `nulls="leave out"` the rows that have NULL in one of the
    script's columns are left out of all that is done here, as if they weren't there. `budget` is the greatest bound that a query may have.

    The connection is one of psycopg2 or psycopg 3, and stays the caller's.
    """

    def __init__(self, connection: Connection, schema: str, *, nulls: str = REFUSE, budget: int | None = None) -> None:
        if nulls not in (REFUSE, LEAVE_OUT):
            raise BadValue(f"nulls is {REFUSE!r} or {LEAVE_OUT!r}")
        refuse_others(schema)
        self._connection, self._nulls, self._budget = connection, nulls, budget
        self._planner = planner_for(schema, budget)
        try:
            self._schema = described(schema)
            self._tables = self._matched()
        except BaseException:
            self.close()
            raise

    def _matched(self) -> dict[str, TableThere]:
        columns = self._schema.tables
        with transaction(self._connection) as cursor:
            there = tables_there(cursor, list(columns))
        leaves_out = self._nulls == LEAVE_OUT
        return {name: matched(name, its, there.get(name), leaves_out) for name, its in columns.items()}

    # ---- what is there

    @property
    def script(self) -> str:
        """The schema, as a script."""
        return self._schema.script

    @property
    def tables(self) -> dict[str, tuple[Column, ...]]:
        """The columns of each table."""
        return dict(self._schema.tables)

    @property
    def constraints(self) -> list[Constraint]:
        """The constraints, in the order in which the script makes them."""
        return list(self._schema.constraints.values())

    def with_access(self, name: str, table: str, key: Sequence[str], fetched: Sequence[str], limit: int) -> "Bounded":
        """The same with one more constraint. The database isn't asked whether it holds; `check` does that."""
        more = f"CREATE ACCESS {name} ON {table} ({', '.join(key)}) FETCH ({', '.join(fetched)}) LIMIT {limit}"
        return Bounded(self._connection, f"{self.script};\n{more};\n", nulls=self._nulls, budget=self._budget)

    # ---- constraints

    def discover(self, table: str, key: Sequence[str], fetched: Sequence[str]) -> tuple[int, Row | None]:
        """The size of the greatest group that a constraint of these columns would have, and the first key that has it. It reads the table
        whole."""
        one = Constraint("discovered", table.lower(), tuple(map(str.lower, key)), tuple(map(str.lower, fetched)), 1)
        if one.table not in self.tables:
            raise TableMissing(f"the schema has no table {table}")
        columns = {column.name for column in self.tables[one.table]}
        if unknown := [column for column in one.key + one.fetched if column not in columns]:
            raise ColumnMissing(f"the schema has no column {table}.{unknown[0]}")
        with transaction(self._connection) as cursor:
            return greatest_group(cursor, self._tables[one.table], one)

    def check(self) -> list[Verdict]:
        """Whether each constraint holds now, all in one snapshot. It reads each table whole, once for each of its constraints."""
        with transaction(self._connection) as cursor:
            return [self._verdict(cursor, one) for one in self.constraints]

    def _verdict(self, cursor: Cursor, one: Constraint) -> Verdict:
        table = self._tables[one.table]
        most, key = greatest_group(cursor, table, one)
        cursor.execute(IS_KEPT, (table.oid, made_name("keep", one)))
        ((count,),) = cursor.fetchall()
        return Verdict(one, most, key, count > 0)

    def indexes(self) -> list[Index]:
        """Which index each constraint wants, and which is there."""
        with transaction(self._connection) as cursor:
            there = {name: indexes_there(cursor, table) for name, table in self._tables.items()}
        return [index_for(self._tables[one.table], one, there[one.table]) for one in self.constraints]

    def keep(self, *names: str) -> list[Kept]:
        """Makes the triggers that keep constraints true from now on: those of these names, or all. Raises BoundBroken, and makes none, if
        one of them doesn't hold now. Nobody writes into their tables meanwhile."""
        with transaction(self._connection, WRITING) as cursor:
            return [self._keep(cursor, one) for one in self._named(names)]

    def _keep(self, cursor: Cursor, one: Constraint) -> Kept:
        table = self._tables[one.table]
        cursor.execute(lock(table))
        most, key = greatest_group(cursor, table, one)
        if most > one.limit:
            raise BoundBroken(one.name, key or (), one.limit)
        made = create_keeper(table, one)
        for statement in made:
            cursor.execute(statement)
        return Kept(one, made, drop_keeper(table, one))

    def let_go(self, *names: str) -> None:
        """Takes away what `keep` made for these constraints, or for all."""
        with transaction(self._connection, WRITING) as cursor:
            for one in self._named(names):
                for statement in drop_keeper(self._tables[one.table], one):
                    cursor.execute(statement)

    def _named(self, names: Sequence[str]) -> list[Constraint]:
        if unknown := [it for it in names if it not in self._schema.constraints]:
            raise BadValue(f"there is no constraint {unknown[0]}")
        return [self._schema.constraints[it] for it in names] if names else self.constraints

    # ---- queries

    def price(self, query: str, parameters: Parameters | None = None) -> Price:
        """What a query may read at most, and its plan. The database isn't asked. Raises the refusal of a query that has no bound, as
        beas.NotCovered, or whose bound is above the budget."""
        plan = self._plan(query, parameters)
        return Price(plan.bound, plan)

    def query(self, query: str, parameters: Parameters | None = None) -> Answer:
        """The answer of a query, all in one snapshot. Raises BoundBroken if a constraint turns out not to hold."""
        plan = self._plan(query, parameters)
        with transaction(self._connection, READING) as cursor:
            carrying = Carrying(plan, self._schema, self._tables, cursor)
            rows = carrying.answers()
        return Answer(plan.columns, rows, plan.bound, carrying.reads, carrying.probes, carrying.statements)

    def _plan(self, query: str, parameters: Parameters | None) -> Plan:
        refuse_another(query)
        plan = self._planner.plan(query if parameters is None else filled(query, parameters))
        check_plan(self._schema, plan)
        return plan

    # ---- the end

    def close(self) -> None:
        """Gives the planner's memory back. The connection stays open."""
        self._planner.close()

    def __enter__(self) -> "Bounded":
        return self

    def __exit__(self, kind: type[BaseException] | None, why: BaseException | None, where: TracebackType | None) -> None:
        self.close()


def greatest_group(cursor: Cursor, table: TableThere, one: Constraint) -> tuple[int, Row | None]:
    cursor.execute(greatest(table, one))
    found = cursor.fetchall()
    if not found or not found[0][0]:
        return 0, None
    most, *key = found[0]
    return most, tuple(key)


def index_for(table: TableThere, one: Constraint, there: Sequence[IndexThere]) -> Index:
    """The best of the indexes that serve a constraint: one that has all its columns, and else any."""
    serving = [it for it in there if it.serves(table, one.key)]
    covering = [it for it in serving if set(rest_of(one)) <= set(it.columns)]
    best = next((it.name for it in covering or serving), None)
    return Index(one, best, bool(covering), create_index(table, one), drop_index(table, one))
