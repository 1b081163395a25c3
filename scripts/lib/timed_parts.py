"""The tables of docs/times.md that scripts/times writes: of each its rows with what takes them, and how their cells are written."""
from collections.abc import Callable, Iterable
from typing import NamedTuple

from . import timed_library as library
from . import timed_memory as memory
from . import timed_rows as rows
from . import timed_scans as scans
from .timed import MILLION, Timed
from .timed_counts import WAYS, counts_of
from .timed_queries import FEW, WIDE_FAN, cafes, cafes_as_started, chain, explain_under_many_constraints, guided_except, union

Workload = Callable[[str], Timed | None]


class Part(NamedTuple):
    """A table between marks: the heads of its columns, and the cells of a row beside its name."""

    heads: tuple[str, ...]
    cells: Callable[[list[float]], list[str]]
    workloads: dict[str, Workload]

    @property
    def columns(self) -> int:
        return len(self.heads) - 1


def told(seconds: float) -> str:
    if seconds < 1e-9:
        return "0 s"
    for unit, factor in (("s", 1), ("ms", 1e3), ("µs", 1e6)):
        if seconds * factor >= 1:
            digits = 0 if seconds * factor >= 100 else 1 if seconds * factor >= 10 else 2
            return f"{seconds * factor:.{digits}f} {unit}"
    return f"{seconds * 1e9:.0f} ns"


def beside(values: list[float]) -> list[str]:
    """What another took, what beas takes, and how much of the other's that is."""
    return [told(values[1]), told(values[0]), f"{values[0] / max(values[1], 1e-12):.2f}"]


def alone(values: list[float]) -> list[str]:
    return [told(values[0])]


def megabytes(values: Iterable[float]) -> list[str]:
    return [f"{it:,.0f} MB" for it in values]


def time_and_memory(values: list[float]) -> list[str]:
    return [told(values[0]) if values[0] >= 0.01 else "below 0.01 s", *megabytes(values[1:])]


def counted(values: list[float]) -> list[str]:
    return [f"{round(values[0], -2):,.0f}", f"{values[1]:,.0f}"]


SIZES = (10_000, 100_000, MILLION)
# so many triples are loaded
LOADED = (100_000, MILLION, 4 * MILLION)

BESIDE: dict[str, Workload] = {
    **{f"a query of the cafés over {size:,} rows": lambda program, size=size: cafes(program, size)
       for size in SIZES},
    **{f"a query of the cafés over {size:,} rows, SQLite by a statement that it prepared once":
       lambda program, size=size: cafes(program, size, True) for size in SIZES},
    "a UNION of 16 blocks, each with one probe that finds ten tuples": union,
    "an EXCEPT whose right side is guided by ten rows": guided_except,
    "a chain of four tables with 100,000 valuations, all of them answers": lambda program: chain(program, "t.b"),
    "a chain of four tables with 100,000 valuations and 10 answers": lambda program: chain(program, "p.b"),
    "a chain of four tables with a comparison on its last column, which leaves 10 of 100,000 valuations":
        lambda program: chain(program, "t.b", WIDE_FAN, FEW),
    **{f"a row of {size:,} at random, in groups of five, loaded": lambda program, size=size: rows.load_triples(program, size) for size in LOADED},
    "a probe with its five tuples, 100,000 of them in one step over 1,000,000 rows": rows.probes,
    "100,000 rows in 5,000 groups, with a COUNT and a MAX": scans.grouped,
    "SCAN OK of a selection that keeps 1,000 of 1,000,000 rows": scans.scan,
    **library.BESIDE_SQLITE,
}
ALONE: dict[str, Workload] = {
    "a query of the cafés over 1,000,000 rows, in the pages that the system gives": cafes_as_started,
    "a probe that finds nothing, 100,000 of them in one step": rows.probes_of_nothing,
    "100,000 small statements, half of them queries": rows.small_statements,
    "LOAD of 1,000,000 rows under a constraint with an empty key, in ascending order": rows.load_ascending,
    "LOAD of 1,000,000 rows under a constraint with an empty key, in random order": rows.load_at_random,
    "LOAD of 1,000,000 rows with a constraint in small groups": rows.load_small_groups,
    "LOAD of 1,000,000 rows with a constraint in small groups, in random order": rows.load_small_groups_at_random,
    "CREATE ACCESS over 1,000,000 rows in random order": rows.constraint_over_rows,
    "DELETE of half of 1,000,000 rows": rows.delete_of_half,
    "DISCOVER of all twelve pairs of four columns over 1,000,000 rows": rows.mining,
    "a query with 1,000,000 conditions, from its text to its answer": rows.million_conditions,
    "an INSERT of 1,000,000 tuples under a constraint, from its text on": rows.insert_of_a_million,
    "1,000,000 rows written as one answer": rows.answer_of_a_million,
    "EXPLAIN of 64 blocks of 16 atoms under 1,000 constraints": explain_under_many_constraints,
    "SPECIALISE of a SELECT with 16 candidates, without a constraint": lambda program: scans.specialised(program, 0),
    "SPECIALISE of a SELECT with 16 candidates, over 16 constraints that want all of them": lambda program: scans.specialised(program, 16),
}
MEMORY: dict[str, Workload] = {
    "groups of five, in random order": lambda program: memory.memory_of(program, memory.groups_of_five()),
    "groups of 500": lambda program: memory.memory_of(program, memory.groups_of(500)),
    "one group": lambda program: memory.memory_of(program, memory.groups_of(MILLION)),
}
OPEN: dict[str, Workload] = {}
for count, size in ((8, MILLION), (64, 100_000)):
    queries, of = f"{count} queries over {size:,} rows", (count, size)
    OPEN[f"{queries}, opened"] = lambda program, of=of: memory.open_queries(program, *of)
    OPEN[f"{queries}, opened, and one INSERT"] = lambda program, of=of: memory.open_and_insert(program, *of)
    OPEN[f"the turns of the {count} queries after that, with their answers"] = lambda program, of=of: memory.turns_after_insert(program, *of)
TURNS: dict[str, Workload] = {
    "a query with one probe, which finds five tuples": lambda program: memory.by_turns(program, memory.ONE_PROBE, 1),
    "a query with six probes, each of which finds five tuples": lambda program: memory.by_turns(program, memory.SIX_PROBES, 6),
}


def counts(way: str) -> Workload:
    def workload(program: str) -> Timed:
        instructions, blocks = counts_of(program)[way]
        return instructions, 0, blocks

    return workload


COUNTS = {way: counts(way) for way in WAYS}

PARTS = {
    "beside": Part(("What", "SQLite", "beas", "Ratio"), beside, BESIDE),
    "script": Part(("What", "Within a script", "By the C library", "Ratio"), beside, library.BESIDE_A_SCRIPT),
    "alone": Part(("What", "Time"), alone, ALONE),
    "counts": Part(("What", "Instructions", "Blocks"), counted, COUNTS),
    "memory": Part(("What", "Rows", "Values", "Index"), megabytes, MEMORY),
    "open": Part(("What", "Time", "Memory"), time_and_memory, OPEN),
    "turns": Part(("What", "At once", "By turns", "Ratio"), beside, TURNS),
}
