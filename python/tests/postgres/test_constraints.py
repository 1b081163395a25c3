"""Constraints over a database: whether they hold, which index they want, and how they are kept."""
import threading
import unittest
from typing import Any

from support import SCHEMA, Case

from beas import BadValue
from beas.postgres import BoundBroken, CannotKeep, ColumnMissing, DatabaseFailed, Denied, TableMissing

PARTED = """
CREATE TABLE parted (a bigint NOT NULL, b bigint NOT NULL) PARTITION BY RANGE (b);
CREATE TABLE low PARTITION OF parted FOR VALUES FROM (0) TO (100);
CREATE TABLE high PARTITION OF parted FOR VALUES FROM (100) TO (200);
INSERT INTO parted VALUES (1, 1);
"""
PARTED_SCHEMA = "CREATE TABLE parted (a INTEGER, b INTEGER); CREATE ACCESS ab ON parted (a) FETCH (b) LIMIT 2"
MIXED = "CREATE TABLE mixed (a TEXT, b INTEGER); CREATE ACCESS by_a ON mixed (a) FETCH (b) LIMIT 5"


class Checks(Case):
    def test_check(self) -> None:
        found = [(it.constraint.name, it.greatest, it.key, it.holds, it.is_kept) for it in self.bridge().check()]
        self.assertEqual([("friends", 2, (1,), True, False), ("dined", 2, (2,), True, False)], found)

    def test_a_constraint_that_doesn_t_hold(self) -> None:
        self.run_sql("INSERT INTO friend VALUES (2, 5), (2, 6), (2, 7)")
        verdict = self.bridge().check()[0]
        self.assertEqual((4, (2,), False), (verdict.greatest, verdict.key, verdict.holds))

    def test_empty_tables_and_empty_keys(self) -> None:
        bridge = self.bridge("CREATE TABLE friend (pid INTEGER, fid INTEGER); CREATE ACCESS whole ON friend () FETCH (fid, pid) LIMIT 9")
        self.assertEqual((5, ()), (bridge.check()[0].greatest, bridge.check()[0].key))
        self.run_sql("DELETE FROM friend")
        self.assertEqual((0, None), (bridge.check()[0].greatest, bridge.check()[0].key))
        self.assertEqual((0, None), (self.bridge().check()[0].greatest, self.bridge().check()[0].key))

    def test_discover_and_with_access(self) -> None:
        bridge = self.bridge()
        self.assertEqual((3, (10,)), bridge.discover("dine", ["cid"], ["pid"]))
        more = bridge.with_access("of_place", "dine", ["cid"], ["pid"], 3)
        self.addCleanup(more.close)
        self.assertEqual([(2,), (3,), (4,)], more.query("SELECT DISTINCT pid FROM dine WHERE cid = 10").rows)
        self.fails(ColumnMissing, lambda: bridge.discover("dine", ["nope"], ["pid"]), "dine.nope")
        self.fails(TableMissing, lambda: bridge.discover("nope", ["pid"], ["pid"]), "no table nope")
        with self.assertRaisesRegex(BadValue, "no constraint nope"):
            bridge.keep("nope")


class Indexes(Case):
    def test_an_index_is_wanted_made_and_there(self) -> None:
        bridge = self.bridge()
        friends, dined = bridge.indexes()
        self.assertEqual((None, None), (friends.there, dined.there))
        self.assertEqual('CREATE INDEX "beas_index_friends" ON "tried"."friend" ("pid", "fid")', friends.create)
        self.run_sql(friends.create)
        self.assertEqual([("beas_index_friends", True), (None, False)], [(it.there, it.covers) for it in bridge.indexes()])
        self.run_sql(friends.undo)
        self.assertEqual([None, None], [it.there for it in bridge.indexes()])

    def test_the_database_uses_it(self) -> None:
        self.run_sql("INSERT INTO friend SELECT nth / 3, nth FROM generate_series(30, 30000) AS nth")
        bridge = self.bridge()
        self.run_sql(bridge.indexes()[0].create + "; ANALYZE friend")
        ((statement, lists),) = bridge.query("SELECT DISTINCT fid FROM friend WHERE pid = 20").statements
        with self.connection.cursor() as cursor:
            cursor.execute(f"EXPLAIN {statement}", tuple(lists))
            plan = "\n".join(row[0] for row in cursor.fetchall())
        self.assertIn("Index Only Scan using beas_index_friends", plan)
        self.assertNotIn("Seq Scan", plan)

    def test_other_indexes(self) -> None:
        bridge = self.bridge()
        cases = [
            ("CREATE INDEX one ON dine (pid)", "one", False),
            ("CREATE INDEX one ON dine (pid) INCLUDE (cid, city)", "one", True),
            ("CREATE INDEX one ON dine (cid, pid, city)", None, False),
            ("CREATE INDEX one ON dine USING hash (pid)", None, False),
            ("CREATE INDEX one ON dine ((pid + 0))", None, False),
            ("CREATE INDEX one ON dine (pid) WHERE cid > 3", None, False),
            ("CREATE INDEX one ON dine (pid) WHERE pid IS NOT NULL", "one", False),
        ]
        for create, there, covers in cases:
            with self.subTest(create=create):
                self.run_sql(create)
                found = bridge.indexes()[1]
                self.assertEqual((there, covers), (found.there, found.covers))
                self.run_sql("DROP INDEX one")

    def test_collations(self) -> None:
        """An index serves only if it is in the collation by which keys are compared."""
        self.run_sql("CREATE COLLATION loose (provider = icu, locale = 'und-u-ks-level2', deterministic = false)")
        self.run_sql("CREATE TABLE mixed (a text COLLATE loose NOT NULL, b bigint NOT NULL); INSERT INTO mixed VALUES ('A', 1), ('a', 2)")
        bridge = self.bridge(MIXED)
        self.run_sql("CREATE INDEX own ON mixed (a)")
        (wanted,) = bridge.indexes()
        self.assertEqual((None, True), (wanted.there, '"a" COLLATE "C"' in wanted.create))
        self.run_sql(wanted.create)
        self.assertEqual(("beas_index_by_a", True), (bridge.indexes()[0].there, bridge.indexes()[0].covers))
        self.assertEqual([(2,)], bridge.query("SELECT DISTINCT b FROM mixed WHERE a = 'a'").rows)
        self.assertEqual((1, ("A",)), (bridge.check()[0].greatest, bridge.check()[0].key))

    def test_rows_with_null(self) -> None:
        self.run_sql("ALTER TABLE dine ALTER COLUMN city DROP NOT NULL")
        bridge = self.bridge(nulls="leave out")
        dined = bridge.indexes()[1]
        self.assertTrue(dined.create.endswith(' WHERE "city" IS NOT NULL'), dined.create)
        self.run_sql(dined.create)
        self.assertEqual("beas_index_dined", bridge.indexes()[1].there)

    def test_a_partitioned_table(self) -> None:
        self.run_sql(PARTED + "INSERT INTO parted VALUES (1, 150), (2, 3)")
        bridge = self.bridge(PARTED_SCHEMA)
        self.run_sql(bridge.indexes()[0].create)
        self.assertEqual(("beas_index_ab", True), (bridge.indexes()[0].there, bridge.indexes()[0].covers))
        self.assertEqual([(1,), (150,)], bridge.query("SELECT DISTINCT b FROM parted WHERE a = 1").rows)

    def test_long_names(self) -> None:
        name = "f" * 64
        (wanted,) = self.bridge(f"CREATE TABLE friend (pid INTEGER, fid INTEGER); CREATE ACCESS {name} ON friend (pid) FETCH (fid) LIMIT 3").indexes()
        self.run_sql(f"{wanted.create}; {wanted.undo}")


class Kept(Case):
    def refused(self, statement: str, connection: Any = None) -> str:
        chosen = connection or self.connection
        with self.assertRaises(self.connection.Error) as caught:
            self.run_sql(statement, chosen)
        chosen.rollback()
        return str(caught.exception)

    def test_what_is_kept(self) -> None:
        bridge = self.bridge()
        made = bridge.keep()
        self.assertEqual(["friends", "dined"], [it.constraint.name for it in made])
        self.assertEqual([True, True], [it.is_kept for it in bridge.check()])
        self.run_sql("INSERT INTO friend VALUES (1, 5), (1, 5), (1, 2)")
        self.assertIn("key (1) breaks friends, limit 3", self.refused("INSERT INTO friend VALUES (7, 7), (1, 6)"))
        self.assertIn("breaks friends", self.refused("UPDATE friend SET pid = 1 WHERE pid = 4"))
        self.run_sql("DELETE FROM friend WHERE fid = 5; INSERT INTO friend VALUES (1, 6)")
        self.assertEqual([3, 2], [it.greatest for it in bridge.check()])

    def test_undo(self) -> None:
        bridge = self.bridge()
        for one in bridge.keep("friends"):
            self.run_sql("; ".join(one.undo))
        bridge.keep()
        bridge.let_go()
        self.assertEqual([False, False], [it.is_kept for it in bridge.check()])
        self.assertEqual([(0,)], self.rows("SELECT count(*) FROM pg_proc WHERE proname LIKE 'beas%'"))
        self.fails(DatabaseFailed, bridge.let_go)
        self.run_sql("INSERT INTO friend SELECT 1, nth FROM generate_series(1, 9) AS nth")

    def test_a_trigger_that_is_off(self) -> None:
        bridge = self.bridge()
        bridge.keep()
        self.run_sql("ALTER TABLE friend DISABLE TRIGGER USER; INSERT INTO friend SELECT 1, nth FROM generate_series(1, 9) AS nth")
        self.assertEqual([(False, False), (True, True)], [(it.holds, it.is_kept) for it in bridge.check()])

    def test_nothing_is_made_if_one_doesn_t_hold(self) -> None:
        self.run_sql("INSERT INTO dine SELECT 9, nth, 'x' FROM generate_series(1, 9) AS nth")
        bridge = self.bridge()
        why = self.fails(BoundBroken, bridge.keep)
        self.assertEqual(("dined", (9,), 4), (why.constraint, why.key, why.limit))
        self.assertEqual([False, False], [it.is_kept for it in bridge.check()])

    def test_a_writer_who_is_not_done(self) -> None:
        """What others have written and not committed yet is waited for, and then counted."""
        bridge, other, said = self.bridge(), self.connected(), list[object]()
        with other.cursor() as cursor:
            cursor.execute("INSERT INTO friend SELECT 1, nth FROM generate_series(1, 9) AS nth")
        waiting = threading.Thread(target=lambda: said.append(self.fails(BoundBroken, bridge.keep)))
        waiting.start()
        waiting.join(0.3)
        self.assertTrue(waiting.is_alive(), "keep doesn't wait")
        other.commit()
        waiting.join(10)
        self.assertEqual([BoundBroken], list(map(type, said)))
        self.assertEqual([False, False], [it.is_kept for it in bridge.check()])

    def test_what_can_t_be_kept(self) -> None:
        self.run_sql("ALTER TABLE friend RENAME TO other; CREATE VIEW friend AS SELECT * FROM other")
        self.fails(CannotKeep, self.bridge(nulls="leave out").keep)
        self.run_sql("DROP ROLE IF EXISTS nobody; CREATE ROLE nobody; GRANT USAGE ON SCHEMA tried TO nobody; SET ROLE nobody")
        self.fails(Denied, self.bridge(nulls="leave out").keep)
        self.run_sql("RESET ROLE; DROP OWNED BY nobody; DROP ROLE nobody")

    def test_two_at_once(self) -> None:
        self.bridge().keep()
        self.one_of_two("INSERT INTO friend VALUES (2, 5)", "INSERT INTO friend VALUES (2, 6), (2, 7)", "breaks friends")

    def test_two_at_once_in_two_partitions(self) -> None:
        self.run_sql(PARTED)
        self.bridge(PARTED_SCHEMA).keep()
        self.one_of_two("INSERT INTO parted VALUES (1, 2)", "INSERT INTO parted VALUES (1, 102)", "breaks ab")

    def one_of_two(self, one: str, other: str, why: str) -> None:
        """Of two statements that break a constraint together the second waits for the first, and is refused."""
        first, second, said = self.connected(), self.connected(), list[str]()
        with first.cursor() as cursor:
            cursor.execute(one)
        waiting = threading.Thread(target=lambda: said.append(self.refused(other, second)))
        waiting.start()
        waiting.join(0.3)
        self.assertTrue(waiting.is_alive(), "the second doesn't wait")
        first.commit()
        waiting.join(10)
        self.assertIn(why, said[0])

    def test_other_keys_don_t_wait(self) -> None:
        self.bridge().keep()
        first, second = self.connected(), self.connected()
        with first.cursor() as cursor:
            cursor.execute("INSERT INTO friend VALUES (2, 5)")
        self.run_sql("INSERT INTO friend VALUES (3, 5)", second)
        first.commit()

    def test_other_levels_are_refused(self) -> None:
        self.bridge().keep()
        for level in ("REPEATABLE READ", "SERIALIZABLE"):
            said = self.refused(f"BEGIN ISOLATION LEVEL {level}; INSERT INTO friend VALUES (2, 5)", self.with_autocommit())
            self.assertIn("kept in READ COMMITTED alone", said)

    def with_autocommit(self) -> Any:
        connection = self.connected()
        connection.autocommit = True
        return connection

    def test_at_the_end_of_a_transaction(self) -> None:
        self.bridge().keep()
        self.run_sql("SET CONSTRAINTS ALL DEFERRED; INSERT INTO friend VALUES (1, 5), (1, 6); DELETE FROM friend WHERE fid IN (5, 6)")
        self.assertIn("breaks friends", self.refused("SET CONSTRAINTS ALL DEFERRED; INSERT INTO friend VALUES (1, 5), (1, 6)"))

    def test_rows_with_null(self) -> None:
        self.run_sql("ALTER TABLE friend ALTER COLUMN fid DROP NOT NULL")
        self.bridge(SCHEMA, nulls="leave out").keep("friends")
        self.run_sql("INSERT INTO friend VALUES (1, NULL), (1, NULL), (1, 4)")
        self.assertIn("breaks friends", self.refused("UPDATE friend SET fid = 9 WHERE fid IS NULL"))

    def test_an_empty_key(self) -> None:
        self.bridge("CREATE TABLE friend (pid INTEGER, fid INTEGER); CREATE ACCESS whole ON friend () FETCH (pid) LIMIT 4").keep()
        self.run_sql("INSERT INTO friend VALUES (1, 77)")
        self.assertIn("breaks whole", self.refused("INSERT INTO friend VALUES (5, 77)"))


if __name__ == "__main__":
    unittest.main()
