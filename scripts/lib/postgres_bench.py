"""The measurements of the bridge to PostgreSQL: time and pages of a query by the bridge and by the database alone."""
import time
from collections.abc import Callable, Iterable, Iterator, Sequence
from pathlib import Path
from typing import Any

from .benchmark_sets import SETS, Set, Values
from .postgres_stored import Stored

# of so many queries the pages are counted, since EXPLAIN carries each out once more
EXPLAINED = 50
# Without indexes each query reads its tables whole: so many are asked, and of large tables so few.
SOME, FEW, LARGE = 10, 3, 10_000_000
WAYS = {"bridge": "the bridge", "own": "PostgreSQL", "bare": "PostgreSQL without indexes"}
Figures = dict[str, Any]
Ask = Callable[[Values], Any]


class Measured(Stored):
    """A set's tables, and the ways to ask."""

    def by_bridge(self, values: Values) -> Any:
        return self.bridge.query(self.set.query, values)

    def by_itself(self, values: Values) -> Any:
        self.cursor.execute(self.set.query.replace("?", "%s"), values)
        return self.cursor.fetchall()

    def pages_by_bridge(self, values: Values) -> int:
        return sum(self.pages(text, tuple(lists)) for text, lists in self.by_bridge(values).statements)

    def pages_by_itself(self, values: Values) -> int:
        return self.pages(self.set.query.replace("?", "%s"), values)

    def pages(self, statement: str, values: Sequence[Any]) -> int:
        """How many pages a statement looks at, in the server's memory and outside it."""
        self.cursor.execute(f"EXPLAIN (ANALYZE, BUFFERS, TIMING OFF, FORMAT JSON) {statement}", values)
        top = self.cursor.fetchone()[0][0]["Plan"]
        return int(top["Shared Hit Blocks"] + top["Shared Read Blocks"])

    def ways(self) -> dict[str, tuple[Ask, Callable[[Values], int]]]:
        own = (self.by_itself, self.pages_by_itself)
        return {"bridge": (self.by_bridge, self.pages_by_bridge), "own": own, "bare": own}


def times_of(ask: Ask, asked: Iterable[Values]) -> Iterator[float]:
    for values in asked:
        began = time.perf_counter()
        ask(values)
        yield time.perf_counter() - began


def share(found: Sequence[float], percent: int) -> float:
    """The least that so many percent are at most."""
    ordered = sorted(found)
    return ordered[min(len(ordered) - 1, len(ordered) * percent // 100)]


def figures_of(measured: Measured, way: str, asked: Sequence[Values]) -> Figures:
    """Warm: all queries are asked once before, or one of them where each reads the tables whole."""
    ask, pages = measured.ways()[way]
    list(times_of(ask, asked[:1] if way == "bare" else asked))
    warm, counted = list(times_of(ask, asked)), list(map(pages, asked[:EXPLAINED]))
    return {
        "queries": len(asked),
        "time": share(warm, 50),
        "late": share(warm, 99),
        "pages": sum(counted) / len(counted),
        "most pages": max(counted),
    }


def cold_figures(measured: Measured, way: str, asked: Sequence[Values]) -> Figures:
    """The first time that each query is asked after the server was started anew; without indexes there is one such query."""
    measured.make_cold()
    few = asked[: 1 if way == "bare" else EXPLAINED]
    # plans that are made before are made anew for the new bridge
    for values in few:
        measured.bridge.price(measured.set.query, values)
    before = measured.from_outside()
    if way == "bare":
        with measured.without_indexes():
            cold = list(times_of(measured.by_itself, few))
    else:
        cold = list(times_of(measured.ways()[way][0], few))
    return {"cold": share(cold, 50), "cold late": share(cold, 99), "cold pages": (measured.from_outside() - before) / len(few)}


def warm_figures(measured: Measured, asked: Sequence[Values]) -> Figures:
    """All that is measured without another start of the server. Each way has to give the same answers."""
    few = asked[: SOME if measured.most < LARGE else FEW]
    for values in asked:
        measured.bridge.price(measured.set.query, values)
    found: Figures = {way: figures_of(measured, way, asked) for way in ("bridge", "own")}
    answers = [measured.by_bridge(values) for values in asked]
    assert all(sorted(measured.by_itself(values)) == answer.rows for values, answer in zip(asked, answers)), "the bridge answers otherwise"
    with measured.without_indexes():
        found["bare"] = figures_of(measured, "bare", few)
    reads = [answer.reads for answer in answers]
    steps = len(measured.bridge.price(measured.set.query, asked[0]).plan.blocks[0].steps)
    return {**found, "bound": answers[0].bound, "steps": steps, "reads": sum(reads) / len(reads), "late reads": share(reads, 99)}


def measure(name: str, rows: int, queries: int, buffers: str, kept: Path | None) -> Figures:
    """All figures of a set at one size."""
    the_set: Set = SETS[name](rows)
    measured = Measured(the_set, buffers, f"{name}_{rows}", kept)
    try:
        asked = [the_set.parameters() for _ in range(queries)]
        found = {"set": name, "rows": measured.most, "queries": queries, "size": measured.size(), **warm_figures(measured, asked)}
        for way in WAYS:
            found[way] |= cold_figures(measured, way, asked)
        return found
    finally:
        measured.end()
