"""Workloads of rows that are loaded, probed and deleted, and of scripts of many statements."""
import random
import sqlite3
import time

from .timed import EMPTY_KEY, MILLION, SMALL_GROUPS, Pass, Timed, beyond, rows_of, shuffled, sqlite_pass, taking_turns, written


def load_ascending(program: str) -> Timed:
    rows_of("rows.csv", ((i, i % 1000) for i in range(MILLION)))
    return beyond(program, [EMPTY_KEY], ["LOAD r FROM 'rows.csv';\n"])


def load_at_random(program: str) -> Timed:
    rows_of("rows.csv", ((i, i % 1000) for i in shuffled(range(MILLION))))
    return beyond(program, [EMPTY_KEY], ["LOAD r FROM 'rows.csv';\n"])


def load_small_groups(program: str) -> Timed:
    rows_of("rows.csv", ((i // 5, i) for i in range(MILLION)))
    return beyond(program, [SMALL_GROUPS], ["LOAD r FROM 'rows.csv';\n"])


def load_small_groups_at_random(program: str) -> Timed:
    rows_of("rows.csv", ((i // 5, i) for i in shuffled(range(MILLION))))
    return beyond(program, [SMALL_GROUPS], ["LOAD r FROM 'rows.csv';\n"])


def constraint_over_rows(program: str) -> Timed:
    rows_of("rows.csv", ((i // 5, i) for i in shuffled(range(MILLION))))
    begun = ["CREATE TABLE r (a INTEGER, b INTEGER); LOAD r FROM 'rows.csv';\n"]
    return beyond(program, begun, ["CREATE ACCESS ab ON r (a) FETCH (b) LIMIT 100;\n"])


def triples_of(count: int) -> list[tuple[int, int, int]]:
    return [(i // 5, i, i % 1000) for i in shuffled(range(count))]


def loads_of(rows: list[tuple[int, int, int]]) -> list[str]:
    """Files of a million of the rows at most, since a file has a greatest length, and the LOADs of them."""
    loads = []
    for at in range(0, len(rows), MILLION):
        written(f"three{at}.csv", ["a,b,c\n", *(f"{a},{b},{c}\n" for a, b, c in rows[at : at + MILLION])])
        loads.append(f"LOAD t FROM 'three{at}.csv';\n")
    return loads


def sqlite_load(rows: list[tuple[int, int, int]]) -> Pass:
    """What puts rows into a new table with an index, and gives the seconds of that."""

    def seconds() -> float:
        base = sqlite3.connect(":memory:")
        base.execute("CREATE TABLE t (a INTEGER, b INTEGER, c INTEGER)")
        base.execute("CREATE INDEX ab ON t (a, b)")
        began = time.process_time()
        base.executemany("INSERT INTO t VALUES (?, ?, ?)", rows)
        return time.process_time() - began

    return seconds


def load_triples(program: str, count: int) -> Timed:
    """Rows of three integers at random, in groups of five; SQLite puts the same into a table with such an index."""
    rows = triples_of(count)
    begun = ["CREATE TABLE t (a INTEGER, b INTEGER, c INTEGER); CREATE ACCESS ab ON t (a) FETCH (b) LIMIT 100;\n"]
    (spent, beside), refusals = taking_turns(program, begun, [loads_of(rows)], sqlite_load(rows))
    return spent / count, refusals, beside / count


def keys_over(rows: list[tuple[int, int, int]], first: int) -> tuple[list[int], list[str]]:
    """A table of 100,000 keys at random, from a first one on, beside a million rows in groups of five."""
    keys = random.Random(2).sample(range(first, first + MILLION // 5), 100_000)
    written("keys.csv", ["k,v\n", *(f"1,{key}\n" for key in keys)])
    begun = [
        "CREATE TABLE t (a INTEGER, b INTEGER, c INTEGER); CREATE ACCESS ab ON t (a) FETCH (b) LIMIT 5;\n",
        "CREATE TABLE keys (k INTEGER, v INTEGER); CREATE ACCESS kv ON keys (k) FETCH (v) LIMIT 100000;\n",
        "LOAD keys FROM 'keys.csv';\n",
        *loads_of(rows),
    ]
    return keys, begun


PROBES = "SELECT DISTINCT k.k FROM keys k, t WHERE k.k = 1 AND k.v = t.a"


def probes(program: str) -> Timed:
    """A step that probes 100,000 keys, each with five tuples."""
    rows = triples_of(MILLION)
    keys, begun = keys_over(rows, 0)
    one_pass = sqlite_pass(
        ["CREATE TABLE t (a INTEGER, b INTEGER, c INTEGER)", "CREATE TABLE keys (k INTEGER, v INTEGER)"],
        ["CREATE INDEX ab ON t (a, b)", "CREATE INDEX kv ON keys (k, v)"],
        [("INSERT INTO t VALUES (?, ?, ?)", rows), ("INSERT INTO keys VALUES (1, ?)", [(key,) for key in keys])],
        [("SELECT DISTINCT k.k, t.b FROM keys k, t WHERE k.k = 1 AND k.v = t.a ORDER BY 1", ())] * 5,
    )
    (spent, beside), refusals = taking_turns(program, begun, [[PROBES + ";\n"] * 5], one_pass)
    return spent / 500_000, refusals, beside / 500_000


def probes_of_nothing(program: str) -> Timed:
    """A step that probes 100,000 keys that aren't there, beyond the step that gives the keys."""
    _, begun = keys_over(triples_of(MILLION), MILLION)
    keys_alone = ["SELECT DISTINCT k.k FROM keys k WHERE k.k = 1;\n"] * 5
    (one, both), refusals = taking_turns(program, begun, [keys_alone, [PROBES + ";\n"] * 5])
    return (both - one) / 500_000, refusals


def delete_of_half(program: str) -> Timed:
    rows_of("rows.csv", ((i // 5, i) for i in range(MILLION)))
    return beyond(program, [SMALL_GROUPS, "LOAD r FROM 'rows.csv';\n"], ["DELETE FROM r WHERE b >= 500000;\n"])


def small_statements(program: str) -> Timed:
    pairs = ((f"INSERT INTO r VALUES ({i}, {i});\n", f"SELECT DISTINCT b FROM r WHERE a = {i};\n") for i in range(50_000))
    return beyond(program, [SMALL_GROUPS], [line for pair in pairs for line in pair])


def insert_of_a_million(program: str) -> Timed:
    tuples = ", ".join(f"({i % 9}, {i % 7})" for i in range(MILLION))
    return beyond(program, [SMALL_GROUPS], [f"INSERT INTO r VALUES {tuples};\n"])


def million_conditions(program: str) -> Timed:
    conditions = "".join(" AND b <> 5" for _ in range(MILLION))
    return beyond(program, [SMALL_GROUPS], [f"SELECT DISTINCT b FROM r WHERE a = 1{conditions};\n"])


def answer_of_a_million(program: str) -> Timed:
    rows_of("rows.csv", ((i, i % 1000) for i in range(MILLION)))
    return beyond(program, [EMPTY_KEY, "LOAD r FROM 'rows.csv';\n"], ["SELECT DISTINCT a, b FROM r;\n"])


def mining(program: str) -> Timed:
    rows = ((i, i % 1000, i // 5, i % 77) for i in shuffled(range(MILLION)))
    written("four.csv", ["a,b,c,d\n", *(",".join(map(str, row)) + "\n" for row in rows)])
    begun = ["CREATE TABLE q (a INTEGER, b INTEGER, c INTEGER, d INTEGER); LOAD q FROM 'four.csv';\n"]
    return beyond(program, begun, ["DISCOVER q LIMIT 10;\n"])
