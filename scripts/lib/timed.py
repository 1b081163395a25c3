"""What statements take beyond those that prepare them, in beas and in SQLite, and what their files hold."""
import random
import resource
import sqlite3
import subprocess
import sys
import time
from collections.abc import Callable, Iterable, Sequence
from typing import Any, TypeVar

from .measures import refuse_broken
from .place import TOP

sys.path.insert(0, str(TOP / "examples"))
from read_reports import reports_in

MILLION = 1_000_000
RUNS = 5
EMPTY_KEY = "CREATE TABLE r (a INTEGER, b INTEGER); CREATE ACCESS all_rows ON r () FETCH (a, b) LIMIT 2000000;\n"
SMALL_GROUPS = "CREATE TABLE r (a INTEGER, b INTEGER); CREATE ACCESS ab ON r (a) FETCH (b) LIMIT 100;\n"
Kind = TypeVar("Kind")
Row = tuple[Any, ...]
# Whatever takes longer is broken.
SECONDS_OF_A_RUN = 300
# what was measured first, refused statements, and what was measured besides: mostly processor seconds, and those of SQLite for the same
Timed = tuple[float, int] | tuple[float, int, float] | tuple[float, int, float, float]
# gives the seconds of one pass
Pass = Callable[[], float]


def written(name: str, lines: Iterable[str]) -> None:
    with open(name, "w", encoding="utf-8") as file:
        file.writelines(lines)


def rows_of(name: str, rows: Iterable[tuple[int, int]]) -> None:
    written(name, ["a,b\n", *(f"{a},{b}\n" for a, b in rows)])


def shuffled(items: Iterable[Kind]) -> list[Kind]:
    mixed = list(items)
    random.Random(1).shuffle(mixed)
    return mixed


def seconds_of(program: str, script: str) -> float:
    """Processor seconds of a run. What it writes goes nowhere, as SQLite's rows are fetched and not written: a pipe and whoever reads it
    would be measured too."""
    before = resource.getrusage(resource.RUSAGE_CHILDREN)
    run = subprocess.run([program, script], stdout=subprocess.DEVNULL, timeout=SECONDS_OF_A_RUN, check=False)
    refuse_broken(run.returncode)
    after = resource.getrusage(resource.RUSAGE_CHILDREN)
    return after.ru_utime + after.ru_stime - before.ru_utime - before.ru_stime


def refusals_of(program: str, script: str) -> int:
    """How many statements of a run were refused."""
    out = subprocess.run([program, script], stdout=subprocess.PIPE, timeout=SECONDS_OF_A_RUN, check=False).stdout
    return sum(it.outcome == "refused" for it in reports_in(out.decode()))


def taking_turns(program: str, prepared: list[str], scripts: list[list[str]], *others: Pass) -> tuple[list[float], int]:
    """Processor seconds of scripts beyond those of a first part, and then of whatever else takes turns with them, each the best of its
    runs; and how many statements were refused. They take turns, since the machine's own speed varies from minute to minute."""
    names = ["whole.beas", *(f"whole{nth}.beas" for nth in range(1, len(scripts)))]
    written("first.beas", prepared)
    for name, script in zip(names, scripts):
        written(name, [*prepared, *script])
    runs = [[*(seconds_of(program, it) for it in ("first.beas", *names)), *(one() for one in others)] for _ in range(RUNS)]
    first, *best = map(min, zip(*runs))
    spent = [it - first for it in best[: len(scripts)]]
    return [*spent, *best[len(scripts) :]], sum(refusals_of(program, it) for it in names)


def beyond(program: str, prepared: list[str], script: list[str]) -> tuple[float, int]:
    """Processor seconds of a script beyond those of its first part, each the best of its runs, and how many statements were refused."""
    (spent,), refusals = taking_turns(program, prepared, [script])
    return spent, refusals


def sqlite_pass(tables: list[str], indexes: list[str], fill: list[tuple[str, Sequence[Row]]], queries: list[tuple[str, Row]]) -> Pass:
    """What gives the processor seconds that SQLite takes for queries, each a text with the values of its parameters, rows fetched."""
    base = sqlite3.connect(":memory:")
    for statement in tables:
        base.execute(statement)
    for statement, rows in fill:
        base.executemany(statement, rows)
    for statement in indexes:
        base.execute(statement)

    def seconds() -> float:
        began = time.process_time()
        for query, values in queries:
            base.execute(query, values).fetchall()
        return time.process_time() - began

    return seconds
