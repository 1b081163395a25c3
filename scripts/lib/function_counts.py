"""How many instructions each function takes for a piece of work, counted by valgrind's callgrind."""
import collections
import re
import subprocess
from collections.abc import Callable, Iterable
from typing import NamedTuple

from .measures import refuse_broken
from .timed import SMALL_GROUPS, rows_of, written
from .timed_memory import groups_of_five
from .timed_queries import CAFE_QUERY, FAN, FEW, WIDE_FAN, cafe_draws, cafes_begun, cafes_of, chain_begun, chain_query, chain_rows

ROWS, QUERIES = 10_000, 500
Counts = collections.Counter[str]


class Work(NamedTuple):
    """Statements, those that prepare them, and of how many pieces alike they are."""

    prepared: list[str]
    script: list[str]
    pieces: int


def cafes() -> Work:
    people, rows = cafes_of(ROWS)
    asked = [CAFE_QUERY.format(person, month, f"'c{city}'") + ";\n" for person, month, city in cafe_draws(people, QUERIES)]
    return Work(cafes_begun(rows), asked, QUERIES)


def chain(output: str, fans: tuple[int, ...], more: str = "") -> Work:
    tables = chain_rows(fans)
    return Work(chain_begun(tables, fans), [chain_query(output, more) + ";\n"], len(tables[-1]))


def loaded() -> Work:
    rows_of("rows.csv", groups_of_five(20_000))
    return Work([SMALL_GROUPS], ["LOAD r FROM 'rows.csv';\n"], 20_000)


def copied() -> Work:
    """The copy that an open query gets of its table, before a row goes in; the query stands open until the end of the script."""
    rows_of("rows.csv", groups_of_five(20_000))
    opened = [SMALL_GROUPS, "LOAD r FROM 'rows.csv';\n", "@1 SELECT DISTINCT b FROM r WHERE a = 7;\n"]
    return Work(opened, ["INSERT INTO r VALUES (9999999, 1);\n"], 20_000)


WORKS: dict[str, Callable[[], Work]] = {
    "a query of the cafés over 10,000 rows": cafes,
    "a valuation of the chain, of which all are answers": lambda: chain("t.b", FAN),
    "a valuation of the chain with ten answers": lambda: chain("p.b", FAN),
    "a tuple of the chain whose comparison leaves 10 of 100,000": lambda: chain("t.b", WIDE_FAN, FEW),
    "a row of two integers at random, in groups of five, loaded": loaded,
    "a row of such a table, copied for an open query": copied,
}


def own_counts(lines: Iterable[str]) -> Counts:
    """The instructions of each function without those of what it calls, of a file that callgrind wrote with whole names."""
    found, function, is_call = Counts(), "", False
    for line in lines:
        if line.startswith("fn="):
            function = re.sub(r"::<#[0-9a-f]+>|'[0-9]+$", "", line[3:].strip())
        elif line.startswith("calls="):
            is_call = True
        elif line[:1].isdigit() or line[:1] in "+-*":
            found[function] += 0 if is_call else int(line.split()[1])
            is_call = False
    return found


def counts_of_run(program: str, script: list[str]) -> Counts:
    written("counted.beas", script)
    words = ["valgrind", "--tool=callgrind", "--callgrind-out-file=counts.out", "--compress-strings=no", "--compress-pos=no"]
    run = subprocess.run([*words, program, "counted.beas"], stdout=subprocess.DEVNULL, stderr=subprocess.DEVNULL, check=False)
    refuse_broken(run.returncode)
    with open("counts.out", encoding="utf-8", errors="replace") as file:
        return own_counts(file)


def counts_of(program: str, make: Callable[[], Work]) -> dict[str, float]:
    """The instructions of each function for one piece of a work, beyond those of what prepares it, the most first."""
    work = make()
    before, after = counts_of_run(program, work.prepared), counts_of_run(program, [*work.prepared, *work.script])
    after.subtract(before)
    return {name: count / work.pieces for name, count in after.most_common()}
