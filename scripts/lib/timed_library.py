"""Workloads of queries by libraries: beas and SQLite by their C libraries, and both from Python; and by C beside a script of the program.

A row of scripts/times has the time of a query from its text to its cells. A small query makes one probe and finds five tuples, so what is
timed is mostly the way there and back."""
import sqlite3
import subprocess
import sys
import time
from collections.abc import Callable
from typing import Any

from . import timed
from .place import TOP
from .timed import SMALL_GROUPS, Timed, beyond, reports_in, rows_of, written
from .timed_queries import CAFE_QUERY, TABLES, cafe_draws, cafes_begun, cafes_of

LIBRARY = TOP / "out/libbeas.so"
SOURCE = TOP / "scripts/lib/timed_library.c"
GROUPS, OF_A_GROUP, QUERIES = 20_000, 5, 100_000
QUERY = "SELECT DISTINCT b FROM r WHERE a = {}"
INDEX = "CREATE INDEX ab ON r (a, b)"
BEGUN = [f"{statement};\n" for statement in SMALL_GROUPS.strip("; \n").split("; ")] + ["LOAD r FROM 'rows.csv';\n"]
MEALS, CAFE_QUERIES = 10_000, 20_000


def rows() -> list[tuple[int, int]]:
    return [(nth // OF_A_GROUP, nth) for nth in range(GROUPS * OF_A_GROUP)]


def values(queries: int) -> list[int]:
    """The keys that are asked for, in no order that a cache would like."""
    return [nth * 7919 % GROUPS for nth in range(queries)]


# ---- by the C libraries


def write_inputs(queries: int) -> None:
    """The files that scripts/lib/timed_library.c reads."""
    rows_of("rows.csv", rows())
    written("begun.beas", BEGUN)
    inserts = [f"INSERT INTO r VALUES {', '.join(map(str, rows()[at : at + 500]))};\n" for at in range(0, GROUPS * OF_A_GROUP, 500)]
    written("begun.sql", ["CREATE TABLE r (a INTEGER, b INTEGER);\n", *inserts, f"{INDEX};\n"])
    written("queries.txt", [QUERY.format(value) + " ORDER BY 1\n" for value in values(queries)])
    written("prepared.txt", [QUERY.format("?") + " ORDER BY 1\n"])
    written("values.txt", [f"{value}\n" for value in values(queries)])


def compiled() -> None:
    words = ["cc", "-O2", "-Wall", "-Wextra", f"-I{TOP}/include", "-o", "timed_library", str(SOURCE), str(LIBRARY), f"-Wl,-rpath,{LIBRARY.parent}"]
    # Where only the library itself is there, and no link of this name for compilers, it is named by its file.
    for sqlite in ("-lsqlite3", "-l:libsqlite3.so.0"):
        if subprocess.run([*words, sqlite], capture_output=True, check=False).returncode == 0:
            return
    subprocess.run([*words, "-lsqlite3"], check=True)


def seconds_by_c(way: str, queries: int, *files: str) -> tuple[float, str]:
    """The least processor seconds of a query, and the number of all rows with the sum of their cells."""
    told = subprocess.run(["./timed_library", way, str(timed.RUNS), *files], capture_output=True, text=True, check=True).stdout
    seconds, _, answers = told.strip().partition(" ")
    return float(seconds) / queries, answers


def by_c(is_prepared: bool, queries: int = QUERIES) -> Timed:
    """A query from its text by beas_say, its cells by beas_cell_integer; SQLite from its text too, or by a statement prepared once."""
    write_inputs(queries)
    compiled()
    beside, wanted = seconds_by_c("prepared" if is_prepared else "sqlite", queries)
    # beas answers in order by itself, and has no words for it.
    written("queries.txt", [QUERY.format(value) + "\n" for value in values(queries)])
    spent, answers = seconds_by_c("beas", queries, "rows.csv")
    see_equal(wanted, answers)
    return spent, 0, beside


def see_equal(wanted: object, found: object) -> None:
    """What is timed has to be the same answers."""
    if wanted != found:
        raise RuntimeError(f"one gave {wanted}, the other {found}")


# ---- by C, beside a script of the program


def answers_of(program: str, script: str) -> str:
    """The number of rows that a script's queries give with the sum of their cells, as often as the library asks them."""
    out = subprocess.run([program, script], stdout=subprocess.PIPE, check=False).stdout.decode()
    found = [row for it in reports_in(out) if it.outcome == "answer" for row in it.records]
    return f"{timed.RUNS * len(found)} {timed.RUNS * sum(int(cell) for row in found for cell in row)}"


def beside_script(program: str, begun: list[str], queries: list[str], files: list[str]) -> Timed:
    """A query by C, from its text to its cells, and within a script, from its text to its report."""
    written("begun.beas", begun)
    written("queries.txt", [f"{it}\n" for it in queries])
    compiled()
    spent, answers = seconds_by_c("beas", len(queries), *files)
    within, refusals = beyond(program, begun, [f"{it};\n" for it in queries])
    see_equal(answers_of(program, "whole.beas"), answers)
    return spent, refusals, within / len(queries)


def small_beside_script(program: str, queries: int = QUERIES) -> Timed:
    rows_of("rows.csv", rows())
    return beside_script(program, BEGUN, [QUERY.format(value) for value in values(queries)], ["rows.csv"])


def cafes_beside_script(program: str, queries: int = CAFE_QUERIES) -> Timed:
    people, tables = cafes_of(MEALS)
    asked = [CAFE_QUERY.format(person, month, f"'c{city}'") for person, month, city in cafe_draws(people, queries)]
    return beside_script(program, cafes_begun(tables), asked, [f"{table}.csv" for table in TABLES])


# ---- from Python


def best(ask: Callable[[int], Any], queries: int) -> float:
    """The least processor seconds of a query, of some runs of them all."""
    least = float("inf")
    for _ in range(timed.RUNS):
        began = time.process_time()
        for value in values(queries):
            ask(value)
        least = min(least, time.process_time() - began)
    return least / queries


def by_python(is_prepared: bool, queries: int = QUERIES) -> Timed:
    """A query from Python to its rows as tuples, by the package and by sqlite3, which keeps a statement prepared if its text comes again.
    The package puts values into the text."""
    sys.path.insert(0, str(TOP / "python"))
    import beas

    base = sqlite3.connect(":memory:")
    base.execute("CREATE TABLE r (a INTEGER, b INTEGER)")
    base.executemany("INSERT INTO r VALUES (?, ?)", rows())
    base.execute(INDEX)
    with beas.Database() as db:
        db.run(SMALL_GROUPS)
        db.load("r", rows())
        ordered, query = QUERY + " ORDER BY 1", QUERY.format("?")
        if is_prepared:
            ours, theirs = lambda value: db.query(query, (value,)).rows, lambda value: base.execute(ordered.format("?"), (value,)).fetchall()
        else:
            ours, theirs = lambda value: db.query(QUERY.format(value)).rows, lambda value: base.execute(ordered.format(value)).fetchall()
        see_equal([theirs(value) for value in values(100)], [ours(value) for value in values(100)])
        return best(ours, queries), 0, best(theirs, queries)


def if_built(workload: Callable[[str], Timed]) -> Callable[[str], Timed | None]:
    """A row of scripts/times, which is passed over where the library isn't built."""
    return lambda program: workload(program) if LIBRARY.exists() else None


Workloads = dict[str, Callable[[str], Timed | None]]
BESIDE_SQLITE: Workloads = {
    "a small query by the C library, from its text to its cells": if_built(lambda _: by_c(False)),
    "the same by the C library, SQLite by a statement that it prepared once": if_built(lambda _: by_c(True)),
    "a small query by the Python package, from its text to its rows, beside Python's `sqlite3`": if_built(lambda _: by_python(False)),
    "the same by the package with a value for its place, which `sqlite3` keeps prepared": if_built(lambda _: by_python(True)),
}
BESIDE_A_SCRIPT: Workloads = {
    "a small query: one probe with its five tuples": if_built(small_beside_script),
    "a query of the cafés by C": if_built(cafes_beside_script),
}
