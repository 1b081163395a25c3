"""Workloads of queries: chains, the cafés, UNION, EXCEPT and EXPLAIN."""
import operator
import os
import random
from collections.abc import Iterator
from itertools import accumulate

from .timed import MILLION, SMALL_GROUPS, Timed, beyond, rows_of, sqlite_pass, taking_turns, written


FAN = (10, 10, 10, 100)
# of each of 10,000 probes at the end ten tuples are found, of which a comparison leaves ten in all
WIDE_FAN, FEW = (100, 10, 10, 10), " AND t.b < 10"


def chain_query(output: str, more: str = "") -> str:
    return f"SELECT DISTINCT {output} FROM r0 p, r1 q, r2 s, r3 t WHERE p.a = 0 AND p.b = q.a AND q.b = s.a AND s.b = t.a{more}"


def chain_rows(fans: tuple[int, ...]) -> list[list[tuple[int, int]]]:
    return [[(i // fan, i) for i in range(count)] for fan, count in zip(fans, accumulate(fans, operator.mul))]


def chain_begun(tables: list[list[tuple[int, int]]], fans: tuple[int, ...]) -> list[str]:
    """The statements that make the tables of a chain and load them, with the files that they load."""
    begun = []
    for at, (rows, fan) in enumerate(zip(tables, fans)):
        rows_of(f"r{at}.csv", rows)
        begun += [f"CREATE TABLE r{at} (a INTEGER, b INTEGER); CREATE ACCESS c{at} ON r{at} (a) FETCH (b) LIMIT {fan};\n"]
        begun += [f"LOAD r{at} FROM 'r{at}.csv';\n"]
    return begun


def chain(program: str, output: str, fans: tuple[int, ...] = FAN, more: str = "") -> Timed:
    """Four tables, of which each value leads to some in the next: 100,000 valuations."""
    query, tables = chain_query(output, more), chain_rows(fans)
    begun, times = chain_begun(tables, fans), 50
    asked = sqlite_pass(
        [f"CREATE TABLE r{at} (a INTEGER, b INTEGER)" for at in range(4)],
        [f"CREATE INDEX c{at} ON r{at} (a, b)" for at in range(4)],
        [(f"INSERT INTO r{at} VALUES (?, ?)", rows) for at, rows in enumerate(tables)],
        [(query + " ORDER BY 1", ())] * times,
    )
    (spent, beside), refusals = taking_turns(program, begun, [[query + ";\n"] * times], asked)
    return spent / times, refusals, beside / times


TABLES = {
    "friend": ("pid INTEGER, fid INTEGER", "f1", "pid", "fid", 5000),
    "dine": ("pid INTEGER, cid INTEGER, year INTEGER, month INTEGER", "d1", "pid, year, month", "cid", 31),
    "cafe": ("cid INTEGER, city TEXT", "c1", "cid", "city", 1),
}


def cafes_of(count: int) -> tuple[int, dict[str, list[tuple[int | str, ...]]]]:
    """Rows of friends, meals and cafes, about `count` meals."""
    draw = random.Random(count)
    people = max(100, count // 5)
    cafes = max(50, people // 4)
    return people, {
        "friend": [(person, draw.randrange(people)) for person in range(people) for _ in range(10)],
        "dine": [(person, draw.randrange(cafes), 2015, 1 + draw.randrange(12)) for person in range(people) for _ in range(5)],
        "cafe": [(cafe, f"c{draw.randrange(10)}") for cafe in range(cafes)],
    }


def cafe_draws(people: int, times: int) -> Iterator[tuple[int, int, int]]:
    draw = random.Random(times)
    for _ in range(times):
        yield draw.randrange(people), 1 + draw.randrange(12), draw.randrange(10)


CAFE_QUERY = (
    "SELECT DISTINCT c.cid FROM friend AS f, dine AS d, cafe AS c WHERE f.pid = {} AND f.fid = d.pid AND d.year = 2015"
    " AND d.month = {} AND d.cid = c.cid AND c.city = {}"
)


def cafes_begun(rows: dict[str, list[tuple[int | str, ...]]]) -> list[str]:
    """The statements that make the tables and load them, a line for each, with the files that they load."""
    begun = []
    for table, (columns, name, key, fetched, bound) in TABLES.items():
        head = ",".join(word.split()[0] for word in columns.split(", "))
        written(f"{table}.csv", [head + "\n", *(",".join(map(str, row)) + "\n" for row in rows[table])])
        begun += [f"CREATE TABLE {table} ({columns});\n", f"CREATE ACCESS {name} ON {table} ({key}) FETCH ({fetched}) LIMIT {bound};\n"]
        begun += [f"LOAD {table} FROM '{table}.csv';\n"]
    return begun


def cafes(program: str, count: int, is_prepared: bool = False) -> Timed:
    """Queries of about 20 probes over three tables, the greatest of so many rows. SQLite gets each as a text of its own, or prepares
    one statement once and gets the values."""
    people, rows = cafes_of(count)
    begun = cafes_begun(rows)
    # A load of many rows takes long, and its time varies by more than few queries take.
    times = 20_000 if count < MILLION else 80_000
    draws = list(cafe_draws(people, times))
    queries = [CAFE_QUERY.format(person, month, f"'c{city}'") for person, month, city in draws]
    asked = [(query + " ORDER BY 1", ()) for query in queries]
    if is_prepared:
        asked = [(CAFE_QUERY.format("?", "?", "?") + " ORDER BY 1", (person, month, f"c{city}")) for person, month, city in draws]
    one_pass = sqlite_pass(
        [f"CREATE TABLE {table} ({columns})" for table, (columns, *_) in TABLES.items()],
        [f"CREATE INDEX {name} ON {table} ({key}, {fetched})" for table, (_, name, key, fetched, _) in TABLES.items()],
        [(f"INSERT INTO {table} VALUES ({', '.join('?' * len(rows[table][0]))})", rows[table]) for table in TABLES],
        asked,
    )
    (spent, beside), refusals = taking_turns(program, begun, [[query + ";\n" for query in queries]], one_pass)
    return spent / times, refusals, beside / times


def cafes_as_started(program: str) -> Timed:
    """The queries over a million rows, by the program without what the launcher asks of the C library."""
    people, rows = cafes_of(MILLION)
    begun, draws = cafes_begun(rows), cafe_draws(people, 80_000)
    asked = [CAFE_QUERY.format(person, month, f"'c{city}'") + ";\n" for person, month, city in draws]
    settings = os.environ.pop("GLIBC_TUNABLES", None)
    try:
        spent, refusals = beyond(program, begun, asked)
    finally:
        if settings is not None:
            os.environ["GLIBC_TUNABLES"] = settings
    return spent / len(asked), refusals


def union(program: str) -> Timed:
    """Sixteen blocks, each of one probe that finds ten tuples."""
    rows = [(i // 10, i) for i in range(100_000)]
    rows_of("rows.csv", rows)
    blocks = lambda at: " UNION ".join(f"SELECT DISTINCT b FROM r WHERE a = {(at * 16 + i) % 10_000}" for i in range(16))
    times = 2_000
    begun = [SMALL_GROUPS, "LOAD r FROM 'rows.csv';\n"]
    one_pass = sqlite_pass(
        ["CREATE TABLE r (a INTEGER, b INTEGER)"],
        ["CREATE INDEX ab ON r (a, b)"],
        [("INSERT INTO r VALUES (?, ?)", rows)],
        [(blocks(at).replace("SELECT DISTINCT", "SELECT") + " ORDER BY 1", ()) for at in range(times)],
    )
    (spent, beside), refusals = taking_turns(program, begun, [[blocks(at) + ";\n" for at in range(times)]], one_pass)
    return spent / times, refusals, beside / times


def guided_except(program: str) -> Timed:
    """Ten rows of a person, less those that are known by name: the left side guides the right one."""
    rows = [(i // 10, i) for i in range(100_000)]
    rows_of("rows.csv", rows)
    names = [(i, 0) for i in range(0, 100_000, 2)]
    written("names.csv", ["k,v\n", *(f"{k},{v}\n" for k, v in names)])
    times = 20_000
    queries = [f"SELECT b FROM r WHERE a = {i % 10_000} EXCEPT SELECT k FROM names" for i in range(times)]
    begun = [SMALL_GROUPS, "CREATE TABLE names (k INTEGER, v INTEGER); CREATE ACCESS kv ON names (k) FETCH (v) LIMIT 1;\n"]
    begun += ["LOAD r FROM 'rows.csv';\n", "LOAD names FROM 'names.csv';\n"]
    asked = [(f"SELECT b FROM r WHERE a = {i % 10_000} AND NOT EXISTS (SELECT 1 FROM names WHERE k = b) ORDER BY 1", ()) for i in range(times)]
    one_pass = sqlite_pass(
        ["CREATE TABLE r (a INTEGER, b INTEGER)", "CREATE TABLE names (k INTEGER, v INTEGER)"],
        ["CREATE INDEX ab ON r (a, b)", "CREATE INDEX kv ON names (k, v)"],
        [("INSERT INTO r VALUES (?, ?)", rows), ("INSERT INTO names VALUES (?, ?)", names)],
        asked,
    )
    (spent, beside), refusals = taking_turns(program, begun, [[query + ";\n" for query in queries]], one_pass)
    return spent / times, refusals, beside / times


def explain_under_many_constraints(program: str) -> Timed:
    """64 blocks of 16 atoms, over a table with 1,000 constraints: each atom has a step that is dropped."""
    begun = ["CREATE TABLE w (a INTEGER, b INTEGER, c INTEGER); CREATE ACCESS near ON w (a) FETCH (b) LIMIT 1;\n"]
    begun += ["CREATE ACCESS whole ON w (a) FETCH (b, c) LIMIT 2;\n"]
    begun += [f"CREATE ACCESS other{nth} ON w (b, c) FETCH (a) LIMIT {3 + nth};\n" for nth in range(998)]
    atoms = ", ".join(f"w AS x{nth}" for nth in range(16))
    joins = " AND ".join(f"x{nth}.a = x{nth - 1}.b AND x{nth}.c > 0" for nth in range(1, 16))
    blocks = (f"SELECT x15.c FROM {atoms} WHERE x0.a = {nth} AND x0.c > 0 AND {joins}" for nth in range(64))
    return beyond(program, begun, ["EXPLAIN " + " UNION ".join(blocks) + ";\n"])
