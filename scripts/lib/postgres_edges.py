"""Where the database's own planner and the bridge part ways: tables without statistics, and keys with very many rows."""
import random
from collections.abc import Callable

from .benchmark_sets import SETS, Rows, Set
from .postgres_bench import Figures, Measured, figures_of

# one person of so many has as many friends as the constraint allows
ONE_OF, FRIENDS = 1000, 5000


class WithoutStatistics(Measured):
    """Tables that nobody has analysed since they were loaded."""

    def tidy(self) -> None:
        self.cursor.execute("VACUUM")


def crowded(count: int) -> Set:
    """The cafés, where some persons have 5,000 friends, and these are asked for."""
    plain, draw, asked = SETS["cafes"](count), random.Random(count), random.Random(count + 1)
    people = max(2 * ONE_OF, count // 5)

    def rows() -> Rows:
        yield "friend", ((it, draw.randrange(people)) for it in range(people) for _ in range(5 if it % ONE_OF else FRIENDS))
        yield "dine", ((it, draw.randrange(people // 4), 2015, 1 + draw.randrange(12)) for it in range(people) for _ in range(5))
        yield "cafe", ((it, f"c{draw.randrange(3)}") for it in range(people // 4))

    parameters = lambda: (ONE_OF * asked.randrange(people // ONE_OF), 1 + asked.randrange(12), f"c{asked.randrange(3)}")
    return Set("cafés where a person has 5,000 friends", plain.tables, plain.constraints, plain.query, rows, parameters)


# what a page calls a case, with its tables
CASES: dict[str, tuple[type[Measured], Callable[[int], Set]]] = {
    "orders that nobody analysed since they were loaded": (WithoutStatistics, SETS["orders"]),
    "cafés, a person with 5,000 friends": (Measured, crowded),
}


def measure_edge(measured: Measured, queries: int) -> Figures:
    try:
        asked = [measured.set.parameters() for _ in range(queries)]
        for values in asked:
            assert sorted(measured.by_itself(values)) == measured.by_bridge(values).rows, "the bridge answers otherwise"
        return {way: figures_of(measured, way, asked) for way in ("bridge", "own")}
    finally:
        measured.end()


def measure_edges(sizes: list[int], queries: int, buffers: str) -> list[Figures]:
    """The figures of each case at each size."""
    return [
        {"case": name, "rows": count, "queries": queries, **measure_edge(kind(make(count), buffers), queries)}
        for name, (kind, make) in CASES.items()
        for count in sizes
    ]
