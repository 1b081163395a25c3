"""Instructions and blocks of memory that a query of the cafés takes, counted by valgrind."""
import functools
import os
import re
import subprocess
from typing import NamedTuple

from .timed import written
from .timed_queries import CAFE_QUERY, TABLES, cafe_draws, cafes_of

ROWS, QUERIES = 10_000, 2_000
C_PROGRAM = r"""
#include <stdio.h>
#include <stdlib.h>
#include <string.h>
typedef struct sqlite3 sqlite3;
typedef struct sqlite3_stmt sqlite3_stmt;
int sqlite3_open(const char *, sqlite3 **);
int sqlite3_exec(sqlite3 *, const char *, void *, void *, char **);
int sqlite3_prepare_v2(sqlite3 *, const char *, int, sqlite3_stmt **, const char **);
int sqlite3_step(sqlite3_stmt *);
int sqlite3_reset(sqlite3_stmt *);
int sqlite3_finalize(sqlite3_stmt *);
int sqlite3_bind_int64(sqlite3_stmt *, int, long long);
int sqlite3_bind_text(sqlite3_stmt *, int, const char *, int, void *);
long long sqlite3_column_int64(sqlite3_stmt *, int);

/* begun.sql makes the tables; of draws.txt each line has the values of one query. Mode 0 asks none, 1 each from its text, 2 a prepared one. */
int main(int argc, char **argv) {
  static char text[1 << 16], query[1 << 10];
  int mode = argc > 1 ? atoi(argv[1]) : 0, person, month, city;
  long long sum = 0;
  sqlite3 *base;
  sqlite3_stmt *statement = 0;
  FILE *begun = fopen("begun.sql", "r"), *draws = fopen("draws.txt", "r");
  sqlite3_open(":memory:", &base);
  while (fgets(text, sizeof text, begun)) sqlite3_exec(base, text, 0, 0, 0);
  if (mode == 2) sqlite3_prepare_v2(base, PREPARED, -1, &statement, 0);
  while (mode && fscanf(draws, "%d %d %d", &person, &month, &city) == 3) {
    if (mode == 1) {
      snprintf(query, sizeof query, FORMAT, person, month, city);
      sqlite3_prepare_v2(base, query, -1, &statement, 0);
    } else {
      snprintf(query, sizeof query, "c%d", city);
      sqlite3_bind_int64(statement, 1, person);
      sqlite3_bind_int64(statement, 2, month);
      sqlite3_bind_text(statement, 3, query, -1, 0);
    }
    while (sqlite3_step(statement) == 100) sum += sqlite3_column_int64(statement, 0);
    if (mode == 1) sqlite3_finalize(statement);
    else sqlite3_reset(statement);
  }
  printf("%lld\n", sum);
  return 0;
}
"""


def write_workload(rows: int, queries: int) -> str:
    """The files of both programs, in the folder that stands."""
    people, tables = cafes_of(rows)
    begun, sql = [], ["BEGIN;\n"]
    for table, (columns, name, key, fetched, bound) in TABLES.items():
        head = ",".join(word.split()[0] for word in columns.split(", "))
        written(f"{table}.csv", [head + "\n", *(",".join(map(str, row)) + "\n" for row in tables[table])])
        begun += [f"CREATE TABLE {table} ({columns}); CREATE ACCESS {name} ON {table} ({key}) FETCH ({fetched}) LIMIT {bound};\n"]
        begun += [f"LOAD {table} FROM '{table}.csv';\n"]
        sql += [f"CREATE TABLE {table} ({columns});\n"]
        sql += [f"INSERT INTO {table} VALUES ({', '.join(map(repr, row))});\n" for row in tables[table]]
        sql += [f"CREATE INDEX {name} ON {table} ({key}, {fetched});\n"]
    draws = list(cafe_draws(people, queries))
    asked = [CAFE_QUERY.format(person, month, f"'c{city}'") + ";\n" for person, month, city in draws]
    written("begun.beas", begun)
    written("whole.beas", begun + asked)
    written("begun.sql", [*sql, "COMMIT;\n"])
    written("draws.txt", [f"{person} {month} {city}\n" for person, month, city in draws])
    return CAFE_QUERY + " ORDER BY 1"


def built(query: str) -> str:
    with open("asked.c", "w", encoding="utf-8") as file:
        file.write(f'#define FORMAT "{query.format("%d", "%d", chr(39) + "c%d" + chr(39))}"\n')
        file.write(f'#define PREPARED "{query.format("?", "?", "?")}"\n{C_PROGRAM}')
    subprocess.run(["cc", "-O2", "-o", "asked", "asked.c", "-l:libsqlite3.so.0"], check=True)
    return os.path.abspath("asked")


class Counted(NamedTuple):
    """What a run took, and what it wrote."""

    instructions: int
    blocks: int
    out: str


def number_in(pattern: str, text: str) -> int:
    found = re.search(pattern, text)
    if not found:
        raise RuntimeError(f"valgrind didn't say {pattern}: {text[-300:]}")
    return int(found[1].replace(",", ""))


def counted(*words: str) -> Counted:
    run = subprocess.run(["valgrind", "--tool=callgrind", "--callgrind-out-file=/dev/null", *words], capture_output=True, text=True, check=False)
    instructions = number_in(r"Collected : (\d+)", run.stderr)
    run = subprocess.run(["valgrind", *words], capture_output=True, text=True, check=False)
    return Counted(instructions, number_in(r"total heap usage: ([\d,]+) allocs", run.stderr), run.stdout)


def sum_of_answers(out: str) -> int:
    return sum(int(line) for line in out.splitlines() if line.isdigit())


# the two runs of each way: one begins without queries, the other asks them
WAYS = {
    "beas": ("begun.beas", "whole.beas"),
    "SQLite's library, from the query's text on": ("0", "1"),
    "SQLite's library, one statement prepared once that gets the values": ("0", "2"),
}


@functools.cache
def counts_of(program: str, rows: int = ROWS, queries: int = QUERIES) -> dict[str, tuple[float, float]]:
    """Instructions and blocks of a query by each way, in the folder that stands. The sums of the answers are compared."""
    asked = built(write_workload(rows, queries))
    found, sums = {}, set()
    for way, (begun, whole) in WAYS.items():
        runs = [counted(program if way == "beas" else asked, it) for it in (begun, whole)]
        found[way] = ((runs[1].instructions - runs[0].instructions) / queries, (runs[1].blocks - runs[0].blocks) / queries)
        sums.add(sum_of_answers(runs[1].out))
    if len(sums) > 1:
        raise RuntimeError(f"the answers differ: {sums}")
    return found
