"""Workloads that take memory, and queries that a session asks by turns.

A run is started by a small process of its own, since the greatest memory of a process is at least that of the one which starts it."""
import subprocess
import sys
from collections.abc import Iterable

from .measures import refuse_broken
from .timed import MILLION, SECONDS_OF_A_RUN, SMALL_GROUPS, Timed, refusals_of, rows_of, shuffled, taking_turns, written

RUNS = 3
STARTER = """
import os, resource, sys
resource.setrlimit(resource.RLIMIT_CPU, (int(sys.argv[1]),) * 2)
nowhere = [(os.POSIX_SPAWN_OPEN, 1, "/dev/null", os.O_WRONLY, 0)]
_, status, used = os.wait4(os.posix_spawn(sys.argv[2], sys.argv[2:], os.environ, file_actions=nowhere), 0)
print(os.waitstatus_to_exitcode(status), used.ru_utime + used.ru_stime, used.ru_maxrss / 1024)
"""
Rows = Iterable[tuple[int, int]]


def used_by(program: str, script: str) -> tuple[float, float]:
    """Processor seconds of a run, and its greatest memory in MB."""
    words = [sys.executable, "-S", "-E", "-c", STARTER, str(SECONDS_OF_A_RUN), program, script]
    status, *used = subprocess.run(words, capture_output=True, text=True, check=True).stdout.split()
    refuse_broken(int(status))
    seconds, megabytes = map(float, used)
    return seconds, megabytes


def least_of(program: str, statements: list[str]) -> tuple[float, float, int]:
    """The least seconds and the least memory of some runs, as other work only adds, and the refused statements."""
    written("taken.beas", statements)
    runs = [used_by(program, "taken.beas") for _ in range(RUNS)]
    return min(it[0] for it in runs), min(it[1] for it in runs), refusals_of(program, "taken.beas")


# ---- memory of rows


def groups_of(size: int, count: int = MILLION) -> Rows:
    return ((i // size, i) for i in range(count))


def groups_of_five(count: int = MILLION) -> Rows:
    return ((i // 5, i) for i in shuffled(range(count)))


def memory_of(program: str, rows: Rows) -> Timed:
    """MB of the rows, of the list of their values, and of an index: the runs have no constraint, one, and a second like it."""
    rows_of("rows.csv", rows)
    table, load = "CREATE TABLE r (a INTEGER, b INTEGER);\n", "LOAD r FROM 'rows.csv';\n"
    access = [f"CREATE ACCESS {name} ON r (a) FETCH (b) LIMIT 2000000;\n" for name in ("ab", "again")]
    scripts = [[table], [table, load], [table, access[0], load], [table, *access, load]]
    taken = [least_of(program, it) for it in scripts]
    start, bare, one, two = (it[1] for it in taken)
    return bare - start, sum(it[2] for it in taken), max(0.0, one - bare - (two - one)), two - one


# ---- queries that stand open


def opened(count: int, rows: int) -> tuple[list[str], list[str]]:
    """A table in groups of five, and so many queries over it, each of a session of its own."""
    rows_of("rows.csv", groups_of(5, rows))
    queries = [f"@{nth} SELECT DISTINCT b FROM r WHERE a = {nth};\n" for nth in range(1, count + 1)]
    return [SMALL_GROUPS, "LOAD r FROM 'rows.csv';\n"], queries


def between(program: str, first: list[str], more: list[str]) -> Timed:
    """Seconds and MB of some statements beyond those before them."""
    before, whole = least_of(program, first), least_of(program, [*first, *more])
    return max(0.0, whole[0] - before[0]), whole[2], max(0.0, whole[1] - before[1])


ROW = ["INSERT INTO r VALUES (99999999, 1);\n"]


def open_queries(program: str, count: int, rows: int) -> Timed:
    begun, queries = opened(count, rows)
    return between(program, begun, queries)


def open_and_insert(program: str, count: int, rows: int) -> Timed:
    begun, queries = opened(count, rows)
    return between(program, begun, [*queries, *ROW])


def turns_after_insert(program: str, count: int, rows: int) -> Timed:
    """Each query makes its one probe, and then is answered."""
    begun, queries = opened(count, rows)
    steps = [f"@{nth} STEP;\n" for _ in range(2) for nth in range(1, count + 1)]
    return between(program, [*begun, *queries, *ROW], steps)


# ---- a query by turns


ONE_PROBE = "SELECT DISTINCT b FROM r WHERE a = {}"
SIX_PROBES = "SELECT DISTINCT y.b FROM r x, r y WHERE x.a = {} AND y.a = x.b"
GROUPS = 20_000


def by_turns(program: str, query: str, probes: int, times: int = 20_000) -> Timed:
    """A query that a session opens and steps to its answer, and the same without a session."""
    rows_of("rows.csv", groups_of(5, 5 * GROUPS))
    # each of their five values is a group, too
    asked = [query.format(nth * 7919 % (GROUPS // 5)) for nth in range(times)]
    begun = [SMALL_GROUPS, "LOAD r FROM 'rows.csv';\n"]
    one_by_one = [f"@1 {it};\n{'@1 STEP; ' * (probes + 1)}\n" for it in asked]
    (at_once, spent), refusals = taking_turns(program, begun, [[f"{it};\n" for it in asked], one_by_one])
    return spent / times, refusals, at_once / times
