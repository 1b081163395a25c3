"""Tables spread over three servers: the same answers and reads, and how many servers each step asks."""
import unittest
from collections.abc import Sequence

from support import Case, HookedConnection

from beas.plans import Value
from beas.postgres import Bounded
from lib.benchmark_sets import SETS, Set
from lib.spread_tables import SPREAD_BY, Parts, columns_of, fill

ROWS, SERVERS, QUERIES = 2000, 3, 60


class Spread(Case):
    """What both sets of tables share: each on three servers, and beside it on one."""

    NAME = "cafes"
    parts: Parts
    set: Set
    schema: str

    @classmethod
    def setUpClass(cls) -> None:
        cls.set = SETS[cls.NAME](ROWS)
        cls.schema = ";".join([*cls.set.schema(), *cls.set.accesses()])
        cls.parts = Parts(SERVERS)
        cls.addClassCleanup(cls.parts.end)

    def setUp(self) -> None:
        super().setUp()
        self.run_sql("DROP SCHEMA IF EXISTS spread CASCADE; CREATE SCHEMA spread; DROP TABLE friend, dine")
        self.front = self.connected()
        with self.front.cursor() as front, self.connection.cursor() as alone:
            front.execute("SET search_path = spread")
            self.parts.link(front)
            self.parts.spread(front, self.set, SPREAD_BY[self.NAME])
            for table, rows in self.set.rows():
                kept = list(rows)
                alone.execute(f"CREATE TABLE {table} ({columns_of(self.set, table)})")
                fill(alone, table, kept)
                fill(front, table, kept)
        self.front.commit()
        self.connection.commit()

    def tearDown(self) -> None:
        # Foreign tables go before their servers.
        self.front.close()
        self.run_sql("DROP SCHEMA spread CASCADE")

    def try_answers_reads_and_servers(self) -> None:
        seen: list[list[int]] = []
        hooked = HookedConnection(self.front, lambda statement: seen.append(self.parts.asked()))
        alone, spread = self.bridge(self.schema), self.bridge(self.schema, hooked)
        rows = most = 0
        for _ in range(QUERIES):
            values = self.set.parameters()
            wanted = alone.query(self.set.query, values)
            seen.clear()
            found = spread.query(self.set.query, values)
            self.assertEqual((wanted.rows, wanted.reads, wanted.bound), (found.rows, found.reads, found.bound))
            rows, most = rows + len(found), max(most, self.look_at_steps(found.statements, [*seen, self.parts.asked()]))
        self.assertGreater(rows, 0)
        self.assertEqual(SERVERS, most)

    def look_at_steps(self, statements: Sequence[tuple[str, Sequence[Sequence[Value]]]], seen: list[list[int]]) -> int:
        """No step asks more servers than it has keys, nor asks more than once for each. Gives the most that one asks."""
        most = 0
        for (_, lists), before, after in zip(statements, seen[1:], seen[2:]):
            keys, asked = len(lists[0]), [new - old for old, new in zip(before, after)]
            self.assertLessEqual(sum(it > 0 for it in asked), min(keys, SERVERS))
            self.assertEqual(keys, sum(asked))
            most = max(most, sum(it > 0 for it in asked))
        return most


class Cafes(Spread):
    def test_answers_reads_and_servers(self) -> None:
        self.try_answers_reads_and_servers()

    def test_a_key_that_isn_t_the_spread_s(self) -> None:
        """Where a step's key lacks the columns by which its table is spread, all servers are asked for each key."""
        more = f"{self.schema}; CREATE ACCESS of_place ON dine (cid) FETCH (pid) LIMIT 200"
        seen: list[list[int]] = []
        bridge: Bounded = self.bridge(more, HookedConnection(self.front, lambda statement: seen.append(self.parts.asked())))
        seen.clear()
        bridge.query("SELECT DISTINCT pid FROM dine WHERE cid = 7")
        self.assertEqual([1] * SERVERS, [new - old for old, new in zip(seen[-1], self.parts.asked())])


class Orders(Spread):
    NAME = "orders"

    def test_answers_reads_and_servers(self) -> None:
        self.try_answers_reads_and_servers()


if __name__ == "__main__":
    unittest.main()
