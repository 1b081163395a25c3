"""The bridge over tables that are spread over three servers: who is asked, how often, and for how many rows."""
from collections.abc import Iterator, Sequence
from typing import Any

from .benchmark_sets import SETS, Set, Values
from .known_plans import use_plans
from .postgres_bench import Figures, share, times_of
from .postgres_server import Server
from .spread_tables import SPREAD_BY, Parts

from beas.postgres import Bounded

PARTS = 3
# a cursor on a part is one ask; of so many queries they are counted
COUNTED = 100
WAYS = {"bridge": "the bridge", "own": "PostgreSQL", "estimated": "PostgreSQL with `use_remote_estimate`"}


class Asked:
    """What the parts were asked while something was done: of each how often, and for how many rows."""

    def __init__(self, parts: Parts) -> None:
        self.parts, self.before = parts, parts.asked()

    def since(self) -> list[int]:
        before, self.before = self.before, self.parts.asked()
        return [new - old for old, new in zip(before, self.before)]


class Spread:
    """A server in front of three, over which the tables of a set are spread."""

    def __init__(self, the_set: Set) -> None:
        self.set, self.parts = the_set, Parts(PARTS)
        self.front = Server("front")
        use_plans()
        self.connection = self.front.connect()
        self.connection.autocommit = True
        self.cursor = self.connection.cursor()

    def load(self, by: dict[str, str]) -> None:
        self.parts.link(self.cursor)
        self.parts.spread(self.cursor, self.set, by)
        for table, rows in (self.set.in_sql or {}).items():
            self.cursor.execute(f"INSERT INTO {table} {rows}")
        for server in self.parts.servers:
            for statement in self.set.indexes():
                self.parts.make_part(server, statement)
            self.parts.make_part(server, "VACUUM ANALYZE")
        self.cursor.execute("ANALYZE")
        self.bridge = Bounded(self.connection, ";".join([*self.set.schema(), *self.set.accesses()]))

    def let_parts_estimate(self) -> None:
        """From now on the server in front asks the parts what a look-up of theirs would cost, before it plans."""
        for nth in range(PARTS):
            self.cursor.execute(f"ALTER SERVER part{nth} OPTIONS (ADD use_remote_estimate 'true')")

    def end(self) -> None:
        self.connection.close()
        self.front.end()
        self.parts.end()

    def by_itself(self, values: Values) -> Any:
        self.cursor.execute(self.set.query.replace("?", "%s"), values)
        return self.cursor.fetchall()

    def by_bridge(self, values: Values) -> Any:
        return self.bridge.query(self.set.query, values)

    def fetched(self, statement: str, values: Sequence[Any]) -> int:
        """How many rows come from the parts for a statement."""
        self.cursor.execute(f"EXPLAIN (ANALYZE, TIMING OFF, FORMAT JSON) {statement}", values)
        return sum(it["Actual Rows"] * it["Actual Loops"] for it in nodes(self.cursor.fetchone()[0][0]["Plan"]) if it["Node Type"] == "Foreign Scan")


def nodes(plan: dict[str, Any]) -> Iterator[dict[str, Any]]:
    yield plan
    for inner in plan.get("Plans", []):
        yield from nodes(inner)


def figures_by_step(spread: Spread, asked: Sequence[Values]) -> list[Figures]:
    """Of each step the keys and the servers that it asks, in the mean and at most. No step asks more servers than it has keys."""
    found: dict[int, list[tuple[int, int]]] = {}
    for values in asked[:COUNTED]:
        for nth, (text, lists) in enumerate(spread.by_bridge(values).statements):
            counted = Asked(spread.parts)
            spread.cursor.execute(text, tuple(lists))
            keys, servers = len(lists[0]), sum(it > 0 for it in counted.since())
            assert servers <= keys, "a step asks more servers than it has keys"
            found.setdefault(nth, []).append((keys, servers))
    steps = spread.bridge.price(spread.set.query, asked[0]).plan.blocks[0].steps
    mean = lambda them: sum(them) / len(them)
    return [
        {
            "step": nth + 1,
            "table": steps[nth].table,
            "keys": mean([it[0] for it in its]),
            "servers": mean([it[1] for it in its]),
            "most": max(it[1] for it in its),
        }
        for nth, its in found.items()
    ]


def figures_of_way(spread: Spread, way: str, asked: Sequence[Values]) -> Figures:
    ask = spread.by_bridge if way == "bridge" else spread.by_itself
    list(times_of(ask, asked[:10]))
    times, counted = list(times_of(ask, asked)), Asked(spread.parts)
    asks, servers, rows = 0, 0, 0
    for values in asked[:COUNTED]:
        ask(values)
        since = counted.since()
        asks, servers = asks + sum(since), servers + sum(it > 0 for it in since)
        texts = spread.by_bridge(values).statements if way == "bridge" else [(spread.set.query.replace("?", "%s"), values)]
        rows += sum(spread.fetched(text, tuple(lists)) for text, lists in texts)
        counted.since()
    count = len(asked[:COUNTED])
    return {"time": share(times, 50), "late": share(times, 99), "asks": asks / count, "servers": servers / count, "rows": rows / count}


def measure_spread(name: str, rows: int, queries: int) -> Figures:
    """All figures of a set at one size. The bridge's answers and the database's have to be equal."""
    the_set = SETS[name](rows)
    spread = Spread(the_set)
    try:
        spread.load(SPREAD_BY[name])
        asked = [the_set.parameters() for _ in range(queries)]
        for values in asked:
            assert sorted(spread.by_itself(values)) == spread.by_bridge(values).rows, "the bridge answers otherwise"
        found: Figures = {"set": name, "rows": rows, "queries": queries, "steps": figures_by_step(spread, asked)}
        for way in ("bridge", "own"):
            found[way] = figures_of_way(spread, way, asked)
        spread.let_parts_estimate()
        return {**found, "estimated": figures_of_way(spread, "own", asked)}
    finally:
        spread.end()
