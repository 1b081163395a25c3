"""The tables, constraints and queries of the benchmark."""
import csv
import hashlib
import random
from collections.abc import Callable, Iterable, Iterator

# records of a file
PART = 1_000_000
# so many valuations stand between in its queries that more would take minutes
GREATEST_CHAIN = 1_000_000
# few, so that most queries have an answer
CITIES = 3
Rows = Iterator[tuple[str, Iterable[tuple[int | str, ...]]]]
Values = tuple[int | str, ...]


class Set:
    """Tables with their columns, constraints (table, key, fetched, limit), rows and one query with parameters. Some sets have also the
    SELECTs by which PostgreSQL itself makes such rows, by table; these are other rows, drawn alike."""

    def __init__(self, title: str, tables: dict[str, str], constraints: list[tuple[str, str, str, int]], query: str,
                 rows: Callable[[], Rows], parameters: Callable[[], Values], in_sql: dict[str, str] | None = None) -> None:
        self.title, self.tables, self.constraints, self.query = title, tables, constraints, query
        self.rows, self.parameters, self.in_sql = rows, parameters, in_sql

    def schema(self) -> Iterator[str]:
        for table, columns in self.tables.items():
            yield f"CREATE TABLE {table} ({columns})"

    def indexes(self) -> Iterator[str]:
        for nth, (table, key, fetched, _) in enumerate(self.constraints):
            yield f"CREATE INDEX i{nth} ON {table} ({', '.join(filter(None, [key, fetched]))})"

    def accesses(self) -> Iterator[str]:
        for nth, (table, key, fetched, limit) in enumerate(self.constraints):
            yield f"CREATE ACCESS i{nth} ON {table} ({key}) FETCH ({fetched}) LIMIT {limit}"


def numbers(count: int) -> str:
    """The numbers below a count, as PostgreSQL gives them one by one."""
    return f"(SELECT generate_series(0, {count - 1}::bigint) AS n) AS numbers"


def drawn(draw: int, below: int, of: str = "n") -> str:
    """A number below another one, the same in each run: what a draw gives for a number."""
    return f"((hashint8extended({of}, {draw}) & {2**63 - 1}) % {below})"


def cafes(count: int) -> Set:
    draw, people = random.Random(count), max(100, count // 5)
    places = max(50, people // 4)

    def rows() -> Rows:
        yield "friend", ((person, draw.randrange(people)) for person in range(people) for _ in range(5))
        yield "dine", ((person, draw.randrange(places), 2015, 1 + draw.randrange(12)) for person in range(people) for _ in range(5))
        yield "cafe", ((cafe, f"c{draw.randrange(CITIES)}") for cafe in range(places))

    in_sql = {
        "friend": f"SELECT n / 5, {drawn(1, people)} FROM {numbers(5 * people)}",
        "dine": f"SELECT n / 5, {drawn(2, places)}, 2015, 1 + {drawn(3, 12)} FROM {numbers(5 * people)}",
        "cafe": f"SELECT n, 'c' || {drawn(4, CITIES)} FROM {numbers(places)}",
    }
    asked = random.Random(count + 1)
    return Set(
        "cafés: where friends of a person dined in a month, in a city",
        {"friend": "pid INTEGER, fid INTEGER", "dine": "pid INTEGER, cid INTEGER, year INTEGER, month INTEGER", "cafe": "cid INTEGER, city TEXT"},
        [("friend", "pid", "fid", 5000), ("dine", "pid, year, month", "cid", 31), ("cafe", "cid", "city", 1)],
        "SELECT DISTINCT c.cid FROM friend AS f, dine AS d, cafe AS c WHERE f.pid = ? AND f.fid = d.pid AND d.year = 2015 AND d.month = ?"
        " AND d.cid = c.cid AND c.city = ?",
        rows, lambda: (asked.randrange(people), 1 + asked.randrange(12), f"c{asked.randrange(CITIES)}"), in_sql)


def drawn_day(draw: random.Random) -> int:
    return 19920000 + 10000 * draw.randrange(7) + 100 * draw.randint(1, 12) + draw.randint(1, 28)


def orders(count: int) -> Set:
    draw, orders_there = random.Random(count), max(10, count // 4)
    customers, parts, suppliers = max(1, orders_there // 10), max(1, count // 30), max(1, count // 600)

    def rows() -> Rows:
        yield "customers", ((it, f"Customer {it}", draw.randrange(25)) for it in range(customers))
        yield "orders", ((it, it % customers, drawn_day(draw)) for it in range(orders_there))
        lines = ((it, nth) for it in range(orders_there) for nth in range(1, 1 + (it % 7 + 1)))
        yield "lines", ((it, nth, draw.randrange(parts), draw.randrange(suppliers), draw.randint(1, 50)) for it, nth in lines)
        yield "parts", ((it, f"Part {it}", f"Brand {draw.randrange(25)}") for it in range(parts))
        yield "suppliers", ((it, f"Supplier {it}", draw.randrange(25)) for it in range(suppliers))

    day = f"19920101 + 10000 * {drawn(2, 7)} + 100 * {drawn(3, 12)} + {drawn(4, 28)}"
    lines_there = f"(SELECT n, generate_series(1, n % 7 + 1) AS nth FROM {numbers(orders_there)}) AS lines_there"
    line = ", ".join(drawn(nth, below, "8 * n + nth") for nth, below in ((5, parts), (6, suppliers), (7, 50)))
    in_sql = {
        "customers": f"SELECT n, 'Customer ' || n, {drawn(1, 25)} FROM {numbers(customers)}",
        "orders": f"SELECT n, n % {customers}, {day} FROM {numbers(orders_there)}",
        "lines": f"SELECT n, nth, {line} + 1 FROM {lines_there}",
        "parts": f"SELECT n, 'Part ' || n, 'Brand ' || {drawn(8, 25)} FROM {numbers(parts)}",
        "suppliers": f"SELECT n, 'Supplier ' || n, {drawn(9, 25)} FROM {numbers(suppliers)}",
    }
    asked = random.Random(count + 1)
    return Set(
        "orders: parts and suppliers of a customer's orders in a year",
        {"customers": "custkey INTEGER, name TEXT, nation INTEGER", "orders": "orderkey INTEGER, custkey INTEGER, day INTEGER",
         "lines": "orderkey INTEGER, nth INTEGER, partkey INTEGER, suppkey INTEGER, quantity INTEGER",
         "parts": "partkey INTEGER, name TEXT, brand TEXT", "suppliers": "suppkey INTEGER, name TEXT, nation INTEGER"},
        [("customers", "custkey", "name, nation", 1), ("orders", "custkey", "orderkey, day", 50),
         ("lines", "orderkey", "nth, partkey, suppkey, quantity", 7), ("parts", "partkey", "name, brand", 1), ("suppliers", "suppkey", "name, nation", 1)],
        "SELECT DISTINCT o.orderkey, p.name, s.name FROM customers AS c, orders AS o, lines AS l, parts AS p, suppliers AS s WHERE c.custkey = ?"
        " AND o.custkey = c.custkey AND o.day BETWEEN ? AND ? AND l.orderkey = o.orderkey AND p.partkey = l.partkey AND s.suppkey = l.suppkey",
        rows, lambda: (asked.randrange(customers), *((lambda year: (year * 10000, year * 10000 + 9999))(1992 + asked.randrange(7)))), in_sql)


def chain(count: int) -> Set:
    fans, sizes = [10, 10, 10, max(1, count // 1000)], [10, 100, 1000, count]

    def rows() -> Rows:
        for nth, (fan, size) in enumerate(zip(fans, sizes)):
            yield f"r{nth}", ((it // fan, it) for it in range(size))

    return Set(
        "chain: all rows stand between, and 10 are the answer",
        {f"r{nth}": "a INTEGER, b INTEGER" for nth in range(4)},
        [(f"r{nth}", "a", "b", fan) for nth, fan in enumerate(fans)],
        "SELECT DISTINCT p.b FROM r0 AS p, r1 AS q, r2 AS s, r3 AS t WHERE p.a = ? AND p.b = q.a AND q.b = s.a AND s.b = t.a",
        rows, lambda: (0,))


SETS = {"cafes": cafes, "orders": orders, "chain": chain}


def queries_of(name: str, queries: int) -> int:
    return queries if name != "chain" else max(3, queries // 400)


def literal(value: int | str) -> str:
    return str(value) if isinstance(value, int) else f"'{value}'"


def filled(query: str, values: Values) -> str:
    for value in values:
        query = query.replace("?", literal(value), 1)
    return query


def write_files(the_set: Set, room: str) -> tuple[list[tuple[str, str]], int]:
    """The rows as files of at most a million records, table by table; and how many rows there are."""
    files, count = [], 0
    for table, rows in the_set.rows():
        header = [it.split()[0] for it in the_set.tables[table].split(", ")]
        out = None
        for nth, row in enumerate(rows):
            if nth % PART == 0:
                files.append((table, f"{table}{nth // PART}.csv"))
                out = open(f"{room}/{files[-1][1]}", "w", encoding="utf-8", newline="")
                writer = csv.writer(out, lineterminator="\n")
                writer.writerow(header)
            writer.writerow(row)
        count += nth + 1
        out.close()
    return files, count


def mark_of(answers: Iterable[Iterable[Iterable[object]]]) -> str:
    """One number for all answers of a run, which doesn't depend on the order of rows."""
    digest = hashlib.sha256()
    for rows in answers:
        digest.update(repr(sorted([str(it) for it in row] for row in rows)).encode())
    return digest.hexdigest()[:16]
