"""The statements that the database is asked. A name in them is one of beas, so it has letters, digits and _ alone."""
import hashlib
from collections.abc import Iterable, Sequence

from .._schema import Constraint
from ._catalogue import TableThere
from ._schema import LONGEST_NAME


def cell(table: TableThere, column: str, row: str = "t") -> str:
    """A column of a row, which compares by bytes if it is a text."""
    there = table.columns[column]
    return f'{row}."{column}" COLLATE "C"' if there.is_text and not there.by_bytes else f'{row}."{column}"'


def list_of(table: TableThere, columns: Iterable[str]) -> str:
    return ", ".join(cell(table, column) for column in columns)


def rest_of(one: Constraint) -> tuple[str, ...]:
    """The fetched columns that aren't in the key."""
    return tuple(column for column in one.fetched if column not in one.key)


def present(table: TableThere) -> list[str]:
    """What leaves out the rows with NULL."""
    return [f't."{column}" IS NOT NULL' for column in table.wanted]


def where(conditions: Sequence[str]) -> str:
    return f" WHERE {' AND '.join(conditions)}" if conditions else ""


def group(table: TableThere, one: Constraint, key: Sequence[str]) -> str:
    """The tuples of a key, whose values have these names, and at most one more than the limit."""
    equal = [f"{cell(table, column)} = {value}" for column, value in zip(one.key, key)]
    rest = rest_of(one)
    what = f"DISTINCT {list_of(table, rest)}" if rest else "true"
    most = one.limit + 1 if rest else 1
    return f"SELECT {what} FROM {table.qualified} AS t{where(equal + present(table))} LIMIT {most}"


def fetch(table: TableThere, one: Constraint) -> str:
    """Fetches the groups of many keys, each tuple with the number of its key from 1 on. Its values are one list for each key column."""
    if not one.key:
        return f"SELECT 1, g.* FROM ({group(table, one, ())}) AS g"
    names = [f"k{nth}" for nth in range(len(one.key))]
    lists = ", ".join(f"%s::{'text' if table.columns[column].is_text else 'bigint'}[]" for column in one.key)
    keys = f"unnest({lists}) WITH ORDINALITY AS k({', '.join(names)}, n)"
    return f"SELECT k.n, g.* FROM {keys} CROSS JOIN LATERAL ({group(table, one, [f'k.{name}' for name in names])}) AS g"


def greatest(table: TableThere, one: Constraint) -> str:
    """The greatest group: how many tuples it has, and its key."""
    # All have names of our own, since a column of the table may have any.
    names = [f"k{nth}" for nth in range(len(one.key))]
    keys = [f"{cell(table, column)} AS {name}" for column, name in zip(one.key, names)]
    rest = [f"{cell(table, column)} AS r{nth}" for nth, column in enumerate(rest_of(one))]
    columns = ", ".join(keys + rest)
    groups = f"SELECT DISTINCT {columns} FROM {table.qualified} AS t{where(present(table))}"
    by = ", ".join(names)
    ordered = ", ".join(f'{name}{collated(table, column)}' for column, name in zip(one.key, names))
    if not names:
        return f"SELECT count(*) FROM ({groups}) AS g"
    return f"SELECT count(*), {by} FROM ({groups}) AS g GROUP BY {by} ORDER BY count(*) DESC, {ordered} LIMIT 1"


def collated(table: TableThere, column: str) -> str:
    return ' COLLATE "C"' if table.columns[column].is_text else ""


# ---- what is made in the database


def made_name(what: str, one: Constraint) -> str:
    """The name of what is made for a constraint, within the length that the database keeps."""
    name = f"beas_{what}_{one.name}"
    if len(name) <= LONGEST_NAME:
        return name
    return f"{name[: LONGEST_NAME - 9]}_{hashlib.sha256(name.encode()).hexdigest()[:8]}"


def create_index(table: TableThere, one: Constraint) -> str:
    """The index that a constraint wants. The fetched columns are in its order too, so that the first tuples of a key are found without a
    look at the others."""
    columns = [f'"{column}"' + ('' if table.columns[column].by_bytes else ' COLLATE "C"') for column in one.key + rest_of(one)]
    condition = where([f'"{column}" IS NOT NULL' for column in table.wanted])
    return f'CREATE INDEX "{made_name("index", one)}" ON {table.qualified} ({", ".join(columns)}){condition}'


def drop_index(table: TableThere, one: Constraint) -> str:
    return f'DROP INDEX "{table.namespace}"."{made_name("index", one)}"'


KEEPING = """CREATE FUNCTION {function}() RETURNS trigger LANGUAGE plpgsql SET search_path = pg_catalog, pg_temp AS $beas$
BEGIN
    IF {absent} THEN RETURN NULL; END IF;
    -- The count below has to see what others committed before they gave up the lock.
    IF current_setting('transaction_isolation') <> 'read committed' THEN
        RAISE EXCEPTION USING ERRCODE = 'feature_not_supported', MESSAGE = '{name} is kept in READ COMMITTED alone';
    END IF;
    -- By the table's own name, since a key may have rows in several of its partitions.
    PERFORM pg_advisory_xact_lock(hashtextextended(ROW('{table}', '{name}'{values})::text, 0));
    IF (SELECT count(*) > {limit} FROM ({group}) AS g) THEN
        RAISE EXCEPTION USING ERRCODE = 'check_violation', CONSTRAINT = '{name}', TABLE = TG_TABLE_NAME, SCHEMA = TG_TABLE_SCHEMA,
            MESSAGE = 'key ' || ROW({shown})::text || ' breaks {name}, limit {limit}';
    END IF;
    RETURN NULL;
END $beas$"""


def create_keeper(table: TableThere, one: Constraint) -> tuple[str, str]:
    """What keeps a constraint from now on: a function, and the trigger that calls it for each new row."""
    function = f'"{table.namespace}"."{made_name("keep", one)}"'
    key = [f'NEW."{column}"' for column in one.key]
    text = KEEPING.format(
        function=function,
        name=one.name,
        table=f"{table.namespace}.{table.name}",
        limit=one.limit,
        absent=" OR ".join(f'NEW."{column}" IS NULL' for column in table.wanted) or "false",
        values="".join(f", {it}" for it in key),
        shown=", ".join(key),
        group=group(table, one, key),
    )
    columns = ", ".join(f'"{column}"' for column in dict.fromkeys([*one.key, *one.fetched, *table.wanted]))
    trigger = (
        f'CREATE CONSTRAINT TRIGGER "{made_name("keep", one)}" AFTER INSERT OR UPDATE OF {columns} ON {table.qualified}'
        f" DEFERRABLE INITIALLY IMMEDIATE FOR EACH ROW EXECUTE FUNCTION {function}()"
    )
    return text, trigger


def drop_keeper(table: TableThere, one: Constraint) -> tuple[str, str]:
    name = made_name("keep", one)
    return f'DROP TRIGGER "{name}" ON {table.qualified}', f'DROP FUNCTION "{table.namespace}"."{name}"()'


def lock(table: TableThere) -> str:
    """Lets nobody else write into a table until the transaction ends."""
    return f"LOCK TABLE {table.qualified} IN SHARE ROW EXCLUSIVE MODE"


IS_KEPT = """
SELECT count(*) FROM pg_catalog.pg_trigger
WHERE tgrelid = %s::bigint::oid AND tgname::text = %s AND tgenabled IN ('O', 'A') AND NOT tgisinternal
"""
