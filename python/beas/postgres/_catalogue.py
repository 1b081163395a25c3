"""What the database itself says of tables, columns and indexes."""
import re
from collections.abc import Iterable, Mapping, Sequence
from dataclasses import dataclass

from .._schema import Column
from ._connection import Cursor
from ._errors import ColumnMissing, NotASchema, NullsAllowed, OtherEncoding, TableMissing, TypeDiffers, UnknownType

INTEGERS = ("int2", "int4", "int8")
TEXTS = ("text", "varchar")
KNOWN = INTEGERS + TEXTS
# The collation by which texts compare by bytes, by its number in each database.
BY_BYTES = 950
# Tables, partitioned and foreign ones, views of both kinds.
KINDS = ["r", "p", "f", "v", "m"]
ENCODINGS = """
SELECT pg_catalog.current_setting('server_encoding'), pg_catalog.current_setting('client_encoding')
"""
TABLES = """
SELECT DISTINCT ON (c.relname) c.oid::bigint, n.nspname::text, c.relname::text
FROM pg_catalog.pg_class AS c JOIN pg_catalog.pg_namespace AS n ON n.oid = c.relnamespace
WHERE n.nspname = ANY (pg_catalog.current_schemas(false)) AND c.relkind::text = ANY (%s::text[]) AND NOT c.relispartition
    AND (%s::text[] IS NULL OR c.relname::text = ANY (%s::text[]))
ORDER BY c.relname, pg_catalog.array_position(pg_catalog.current_schemas(false), n.nspname)
"""
COLUMNS = """
SELECT a.attname::text, CASE n.nspname WHEN 'pg_catalog' THEN t.typname::text ELSE n.nspname || '.' || t.typname END,
    NOT a.attnotnull, COALESCE(o.collisdeterministic, true)
FROM pg_catalog.pg_attribute AS a JOIN pg_catalog.pg_type AS t ON t.oid = a.atttypid
    JOIN pg_catalog.pg_namespace AS n ON n.oid = t.typnamespace LEFT JOIN pg_catalog.pg_collation AS o ON o.oid = a.attcollation
WHERE a.attrelid = %s::bigint::oid AND a.attnum > 0 AND NOT a.attisdropped ORDER BY a.attnum
"""
INDEXES = """
SELECT c.relname::text, i.indisunique, i.indnkeyatts, pg_catalog.pg_get_expr(i.indpred, i.indrelid),
    array_agg(a.attname::text ORDER BY u.nth), array_agg(COALESCE(u.collated::bigint, a.attcollation::bigint) ORDER BY u.nth),
    array_agg(a.attcollation::bigint ORDER BY u.nth)
FROM pg_catalog.pg_index AS i JOIN pg_catalog.pg_class AS c ON c.oid = i.indexrelid JOIN pg_catalog.pg_am AS m ON m.oid = c.relam
    CROSS JOIN LATERAL unnest(i.indkey::int2[], i.indcollation::oid[]) WITH ORDINALITY AS u(attnum, collated, nth)
    JOIN pg_catalog.pg_attribute AS a ON a.attrelid = i.indrelid AND a.attnum = u.attnum
WHERE i.indrelid = %s::bigint::oid AND i.indisvalid AND i.indisready AND m.amname = 'btree' AND i.indexprs IS NULL
GROUP BY c.relname, i.indisunique, i.indnkeyatts, i.indpred, i.indrelid, i.indisprimary
ORDER BY i.indisprimary DESC, i.indisunique DESC, c.relname
"""
NOT_NULL = re.compile(r'\(?"?(\w+)"? IS NOT NULL\)?')


@dataclass(frozen=True)
class ColumnThere:
    """A column as the database has it."""

    name: str
    type: str
    may_be_null: bool
    #: Whether its own collation calls two texts equal only if their bytes are.
    by_bytes: bool

    @property
    def is_text(self) -> bool:
        return self.type in TEXTS

    @property
    def is_known(self) -> bool:
        return self.type in KNOWN


@dataclass(frozen=True)
class TableThere:
    """A table as the database has it, with the columns of which a row is left out if one is NULL."""

    oid: int
    namespace: str
    name: str
    columns: Mapping[str, ColumnThere]
    wanted: tuple[str, ...] = ()

    @property
    def qualified(self) -> str:
        return f'"{self.namespace}"."{self.name}"'


@dataclass(frozen=True)
class IndexThere:
    """An index as the database has it: its columns, of which the first `keys` are those by which it is ordered."""

    name: str
    is_unique: bool
    keys: int
    condition: str | None
    columns: tuple[str, ...]
    collations: tuple[int, ...]
    own_collations: tuple[int, ...]

    @property
    def key(self) -> tuple[str, ...]:
        return self.columns[: self.keys]

    def asks_no_more_than(self, present: Iterable[str]) -> bool:
        """Whether it holds each row in which none of these columns is NULL."""
        if self.condition is None:
            return True
        asked = [NOT_NULL.fullmatch(part) for part in self.condition.strip("()").split(") AND (")]
        return all(it is not None and it[1] in set(present) for it in asked)

    def serves(self, table: TableThere, key: Sequence[str]) -> bool:
        """Whether a key's rows are found by it at once."""
        fits = all(
            own == collated if table.columns[name].by_bytes else collated == BY_BYTES
            for name, collated, own in zip(self.key[: len(key)], self.collations, self.own_collations)
            if table.columns[name].is_text
        )
        return set(self.key[: len(key)]) == set(key) and fits and self.asks_no_more_than([*table.wanted, *key])


def tables_there(cursor: Cursor, names: Sequence[str] | None = None) -> dict[str, TableThere]:
    """The tables of these names, or all, that are on the search path of the connection."""
    cursor.execute(ENCODINGS)
    if other := [it for it in cursor.fetchall()[0] if it != "UTF8"]:
        raise OtherEncoding(f"texts are in {other[0]}")
    asked = None if names is None else list(names)
    cursor.execute(TABLES, (KINDS, asked, asked))
    found = {}
    for oid, namespace, name in cursor.fetchall():
        if not re.fullmatch(r"[A-Za-z_][A-Za-z0-9_$]*", namespace):
            raise NotASchema(f"the name {namespace!r} of a schema has other signs than letters, digits, _ and $")
        cursor.execute(COLUMNS, (oid,))
        found[name] = TableThere(oid, namespace, name, {it[0]: ColumnThere(*it) for it in cursor.fetchall()})
    return found


def indexes_there(cursor: Cursor, table: TableThere) -> list[IndexThere]:
    """The whole indexes of a table that find equal values, over columns alone."""
    cursor.execute(INDEXES, (table.oid,))
    return [IndexThere(*row[:4], *map(tuple, row[4:])) for row in cursor.fetchall()]


def matched(name: str, columns: Sequence[Column], there: TableThere | None, leaves_out: bool) -> TableThere:
    """A table of the database that has the columns of a table of the schema, or the error that says what is wrong with it."""
    if there is None:
        raise TableMissing(f"there is no table {name}")
    for column in columns:
        found = there.columns.get(column.name)
        where = f"{name}.{column.name}"
        if found is None:
            raise ColumnMissing(f"there is no column {where}")
        if not found.is_known:
            raise UnknownType(f"{where} is of type {found.type}")
        if found.is_text != column.is_text:
            raise TypeDiffers(f"{where} is of type {found.type}")
        if found.may_be_null and not leaves_out:
            raise NullsAllowed(f"{where} may be NULL")
    wanted = tuple(it.name for it in columns if there.columns[it.name].may_be_null)
    return TableThere(there.oid, there.namespace, name, there.columns, wanted)
