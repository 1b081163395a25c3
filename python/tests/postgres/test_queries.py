"""Answers, reads and snapshots of the bridge, and what its calls raise."""
import importlib
import json
import unittest
from typing import Any

from support import DINED, SCHEMA, Case, HookedConnection

import beas
from beas.plans import BadPlan, Plan, plan_of
from beas.postgres import (
    BoundBroken,
    Bounded,
    ColumnMissing,
    ConnectionBroken,
    DatabaseFailed,
    Denied,
    InTransaction,
    NotASchema,
    NullsAllowed,
    OtherEncoding,
    TableMissing,
    TypeDiffers,
    UnknownType,
    use_planner,
)
from lib.second_plans import SecondPlanner, use_plans_there


class Answers(Case):
    def test_an_answer(self) -> None:
        answer = self.bridge().query(DINED, (1,))
        self.assertEqual([(10, "oslo"), (11, "Rom"), (12, "ähtäri")], answer.rows)
        self.assertEqual((("cid", "city"), 3 + 3 * 4, 2 + 4, 3), (answer.columns, answer.bound, answer.reads, answer.probes))
        self.assertEqual((3, answer.rows), (len(answer), list(answer)))

    def test_one_statement_for_each_step(self) -> None:
        seen: list[str] = []
        connection = HookedConnection(self.connection, seen.append)
        bridge = self.bridge(connection=connection)
        seen.clear()
        answer = bridge.query(DINED, (1,))
        self.assertEqual([it for it, _ in answer.statements], [it for it in seen if "ISOLATION" not in it])
        self.assertEqual(bridge.price(DINED, (1,)).plan.round_trips, len(answer.statements))

    def test_texts_stand_by_their_bytes(self) -> None:
        self.run_sql("INSERT INTO friend VALUES (9, 1), (9, 2), (9, 3)")
        answer = self.bridge().query("SELECT DISTINCT d.city FROM friend f, dine d WHERE f.pid = 9 AND f.fid = d.pid AND d.city > 'Rom'")
        self.assertEqual([("Zug",), ("oslo",), ("ähtäri",)], answer.rows)
        self.assertEqual(3 + 5, answer.reads)

    def test_a_key_without_rows_counts_one(self) -> None:
        answer = self.bridge().query(DINED, (77,))
        self.assertEqual(([], 1, 1), (answer.rows, answer.reads, len(answer.statements)))

    def test_constants_that_contradict_read_nothing(self) -> None:
        answer = self.bridge().query("SELECT DISTINCT fid FROM friend WHERE pid = 1 AND pid = 2")
        self.assertEqual(([], 0, 0), (answer.rows, answer.reads, len(answer.statements)))

    def test_union_and_except(self) -> None:
        bridge = self.bridge()
        one, other = "SELECT DISTINCT fid FROM friend WHERE pid = 1", "SELECT DISTINCT fid FROM friend WHERE pid = 2"
        self.assertEqual([(1,), (2,), (3,)], bridge.query(f"{one} UNION {other}").rows)
        guided = f"{one} EXCEPT SELECT DISTINCT pid FROM dine WHERE city = 'Rom'"
        answer = bridge.query(guided)
        self.assertEqual(([(3,)], 2 + 2 + 2), (answer.rows, answer.reads))

    def test_keys_beyond_a_column_s_type(self) -> None:
        bridge = self.bridge()
        self.assertEqual([], bridge.query("SELECT DISTINCT city FROM dine WHERE pid = ?", (2**40,)).rows)
        self.assertEqual([], bridge.query("SELECT DISTINCT city FROM dine WHERE pid = ?", (-(2**63),)).rows)

    def test_texts_that_the_database_can_t_have(self) -> None:
        schema = "CREATE TABLE dine (cid INTEGER, city TEXT); CREATE ACCESS of_city ON dine (city) FETCH (cid) LIMIT 9"
        bridge = self.bridge(schema)
        for text, rows in (("oslo", [(10,)]), ("os\0lo", []), ("", [(10,)]), ("%s'\\", [])):
            answer = bridge.query("SELECT DISTINCT cid FROM dine WHERE city = ?", (text,))
            self.assertEqual((rows, 1), (answer.rows, answer.probes), text)

    def test_an_empty_key_and_a_key_that_is_all(self) -> None:
        schema = (
            "CREATE TABLE friend (pid INTEGER, fid INTEGER); CREATE ACCESS whole ON friend () FETCH (pid) LIMIT 9;"
            "CREATE ACCESS there ON friend (pid, fid) FETCH (pid) LIMIT 1"
        )
        bridge = self.bridge(schema)
        answer = bridge.query("SELECT DISTINCT pid FROM friend WHERE pid > 1")
        self.assertEqual(([(2,), (3,), (4,)], 4), (answer.rows, answer.reads))
        self.assertEqual([(1, 3)], bridge.query("SELECT DISTINCT pid, fid FROM friend WHERE pid = 1 AND fid = 3").rows)
        self.assertEqual([], bridge.query("SELECT DISTINCT pid, fid FROM friend WHERE pid = 1 AND fid = 9").rows)

    def test_equal_classes_within_a_tuple(self) -> None:
        self.run_sql("INSERT INTO friend VALUES (5, 5), (5, 6)")
        self.assertEqual([(5,)], self.bridge().query("SELECT DISTINCT fid FROM friend WHERE pid = 5 AND pid = fid").rows)

    def test_autocommit(self) -> None:
        self.connection.autocommit = True
        self.assertEqual(3, len(self.bridge().query(DINED, (1,))))
        self.assertEqual(0, self.connection.info.transaction_status)

    def test_a_connection_whose_rows_are_no_tuples(self) -> None:
        if hasattr(self.connection, "row_factory"):
            self.connection.row_factory = importlib.import_module("psycopg.rows").dict_row
        else:
            self.connection.cursor_factory = importlib.import_module("psycopg2.extras").RealDictCursor
        bridge = self.bridge()
        self.assertEqual((3, [2, 2]), (len(bridge.query(DINED, (1,))), [it.greatest for it in bridge.check()]))

    def test_a_column_that_is_named_as_those_of_a_step(self) -> None:
        self.run_sql("CREATE TABLE named (n bigint NOT NULL, k0 bigint NOT NULL, k bigint NOT NULL, t text NOT NULL, g bigint NOT NULL)")
        self.run_sql("INSERT INTO named VALUES (1, 2, 3, 'x', 4), (1, 5, 6, 'y', 7)")
        names = "n INTEGER, k0 INTEGER, k INTEGER, t TEXT, g INTEGER"
        for key, rest, values in (("n, t", "k0, k, g", "1 AND t = 'y'"), ("k0", "n, k, t, g", "5"), ("g, k", "t, n, k0", "7 AND k = 6")):
            bridge = self.bridge(f"CREATE TABLE named ({names}); CREATE ACCESS a ON named ({key}) FETCH ({rest}) LIMIT 2")
            answer = bridge.query(f"SELECT DISTINCT n, k0, k, t, g FROM named WHERE {key.split(',')[0]} = {values}")
            self.assertEqual([(1, 5, 6, "y", 7)], answer.rows)
            self.assertEqual([True], [it.holds for it in bridge.check()])
            bridge.keep()
            self.run_sql("UPDATE named SET g = g")
            bridge.let_go()

    def test_rows_with_null_are_left_out(self) -> None:
        self.run_sql("ALTER TABLE dine ALTER COLUMN city DROP NOT NULL; INSERT INTO dine VALUES (2, 14, NULL, 1)")
        self.fails(NullsAllowed, self.bridge, "dine.city may be NULL")
        bridge = self.bridge(nulls="leave out")
        query = "SELECT DISTINCT cid FROM dine WHERE pid = 2"
        self.assertEqual([(10,), (11,)], bridge.query(query).rows)
        self.run_sql("UPDATE dine SET city = 'x' WHERE cid = 14")
        self.assertEqual([(10,), (11,), (14,)], bridge.query(query).rows)

    def test_a_column_that_may_be_null_since(self) -> None:
        bridge = self.bridge()
        self.run_sql("ALTER TABLE dine ALTER COLUMN city DROP NOT NULL; INSERT INTO dine VALUES (2, 14, NULL, 1)")
        self.fails(NullsAllowed, lambda: bridge.query("SELECT DISTINCT cid FROM dine WHERE pid = 2"), "has NULL")


class Snapshots(Case):
    def test_one_snapshot(self) -> None:
        other = self.connected()
        changes = ["DELETE FROM dine", "INSERT INTO dine VALUES (2, 99, 'late', 1)"]

        def change(statement: str) -> None:
            if '"dine"' in statement and changes:
                self.run_sql(changes.pop(), other)

        for autocommit in (False, True):
            self.connection.autocommit = autocommit
            answer = self.bridge(connection=HookedConnection(self.connection, change)).query(DINED, (1,))
            self.assertEqual([(10, "oslo"), (11, "Rom"), (12, "ähtäri")] + [(99, "late")] * autocommit, answer.rows)
        self.assertEqual([], changes)

    def test_it_reads_only(self) -> None:
        seen: list[object] = []

        def look(statement: str) -> None:
            if '"friend"' in statement:
                with self.connection.cursor() as cursor:
                    cursor.execute("SELECT current_setting('transaction_read_only'), current_setting('transaction_isolation')")
                    seen.extend(cursor.fetchall())

        for autocommit in (False, True):
            self.connection.autocommit = autocommit
            self.bridge(connection=HookedConnection(self.connection, look)).query(DINED, (1,))
        self.assertEqual([("on", "repeatable read")] * 2, seen)

    def test_a_connection_within_a_transaction(self) -> None:
        bridge = self.bridge()
        with self.connection.cursor() as cursor:
            cursor.execute("SELECT 1")
            with self.assertRaises(InTransaction):
                bridge.query(DINED, (1,))
            cursor.execute("SELECT 2")
            self.assertEqual([(2,)], cursor.fetchall())
        self.connection.rollback()
        self.assertEqual(3, len(bridge.query(DINED, (1,))))


class Prices(Case):
    def test_a_price_asks_nobody(self) -> None:
        bridge = self.bridge()
        self.connection.close()
        price = bridge.price(DINED, (1,))
        self.assertEqual((15, 2), (price.bound, price.plan.round_trips))

    def test_refusals(self) -> None:
        bridge = self.bridge(budget=10)
        with self.assertRaisesRegex(beas.NotCovered, "not covered: block 1 atom 1 column pid"):
            bridge.price("SELECT DISTINCT pid FROM friend WHERE fid = 1")
        with self.assertRaisesRegex(beas.OverBudget, "bound 15 above budget 10"):
            bridge.query(DINED, (1,))
        with self.assertRaises(beas.UnknownColumn):
            bridge.query("SELECT DISTINCT nope FROM friend")
        with self.assertRaises(beas.NotAQuery):
            bridge.query("DELETE FROM friend")
        with self.assertRaises(beas.BadValue):
            bridge.query(DINED, (1, 2))
        with self.assertRaises(beas.TypeMismatch):
            bridge.query(DINED, ("x",))
        self.assertEqual([(6,)], self.rows("SELECT count(*) FROM friend"))


class Told:
    """A planner that tells one plan, whatever it is asked."""

    def __init__(self, told: dict[str, Any]) -> None:
        self.text = json.dumps(told)

    def plan(self, query: str) -> Plan:
        return plan_of(self.text)

    def close(self) -> None:
        """Nothing is held."""


class WrongPlans(Case):
    def setUp(self) -> None:
        super().setUp()
        self.told = json.loads(SecondPlanner(SCHEMA).text(DINED.replace("?", "1") + " AND d.cid > 3"))
        self.block = self.told["blocks"][0]
        self.addCleanup(use_plans_there)

    def is_refused(self, why: str, bound: int) -> None:
        """The plan is refused, where its bound is that of its steps."""
        self.told["bound"] = str(bound)
        use_planner(lambda script, budget: Told(self.told))
        bridge = self.bridge()
        self.fails(BadPlan, lambda: bridge.query(DINED, (1,)), why)

    def test_another_limit(self) -> None:
        self.block["steps"][1]["limit"] = 5
        self.is_refused("another constraint dined", 3 + 3 * 5)

    def test_another_constraint(self) -> None:
        self.block["steps"][1]["constraint"] = "nope"
        self.is_refused("another constraint nope", 15)

    def test_another_table(self) -> None:
        self.block["classes"][0].append(1)
        self.is_refused("another table friend", 15)

    def test_steps_in_another_order(self) -> None:
        self.block["steps"].reverse()
        self.is_refused("the step by dined needs a value that no step before gives", 4 + 4 * 3)

    def test_an_output_that_no_step_gives(self) -> None:
        self.block["comparisons"], self.block["steps"] = [], self.block["steps"][:1]
        self.is_refused("the output or a comparison needs a value", 3)

    def test_a_comparison_that_is_never_made(self) -> None:
        self.block["output"], self.block["steps"] = [[0, 1], [0, 0]], self.block["steps"][:1]
        self.is_refused("the output or a comparison needs a value", 3)

    def test_steps_that_say_wrongly_what_they_add(self) -> None:
        self.block["steps"][0]["adds"] = self.block["steps"][1]["adds"] = False
        self.is_refused("friends says wrongly whether it adds", 3 + 4)

    def test_an_atom_without_a_step_of_its_own(self) -> None:
        self.block["output"], self.block["comparisons"], self.block["steps"] = [[0, 1], [0, 0]], [], self.block["steps"][:1]
        self.is_refused("no step has all columns of atom 1", 3)


class Failures(Case):
    def test_a_constraint_that_doesn_t_hold(self) -> None:
        self.run_sql("INSERT INTO friend SELECT 1, nth FROM generate_series(10, 5000) AS nth")
        connection = HookedConnection(self.connection, lambda _: None)
        bridge = self.bridge(connection=connection)
        why = self.fails(BoundBroken, lambda: bridge.query(DINED, (1,)), r"friends doesn't hold: key \(1\) has more than 3 tuples")
        self.assertEqual(("friends", (1,), 3), (why.constraint, why.key, why.limit))
        self.assertEqual(4, connection.cursors[-1].fetched)
        self.assertEqual(2, len(bridge.query(DINED, (3,))) + 1)

    def test_a_schema_that_isn_t_the_database_s(self) -> None:
        cases = [
            (TableMissing, "CREATE TABLE nope (a INTEGER)", "no table nope"),
            (ColumnMissing, "CREATE TABLE friend (pid INTEGER, nope INTEGER)", "no column friend.nope"),
            (UnknownType, "CREATE TABLE dine (note INTEGER)", "dine.note is of type numeric"),
            (TypeDiffers, "CREATE TABLE dine (pid TEXT)", "dine.pid is of type int4"),
            (TypeDiffers, "CREATE TABLE dine (city INTEGER)", "dine.city is of type varchar"),
            (NotASchema, "CREATE TABLE friend (pid INTEGER); INSERT INTO friend VALUES (1)", "line 1: a schema has no statement"),
            (NotASchema, f"CREATE TABLE {'t' * 64} (pid INTEGER)", "at most 63 signs"),
        ]
        for kind, schema, why in cases:
            with self.subTest(schema=schema):
                self.fails(kind, lambda: self.bridge(schema), why)
        with self.assertRaises(beas.Syntax):
            self.bridge("CREATE TABLE friend")
        with self.assertRaises(beas.BadValue):
            self.bridge(nulls="perhaps")

    def test_another_encoding(self) -> None:
        self.run_sql("SET client_encoding = 'LATIN1'")
        self.fails(OtherEncoding, self.bridge, "LATIN1")

    def test_the_least_key_is_named(self) -> None:
        self.run_sql("INSERT INTO dine SELECT friend, nth, 'x' FROM unnest(ARRAY[2, 3]) AS friend, generate_series(20, 30) AS nth")
        why = self.fails(BoundBroken, lambda: self.bridge().query(DINED, (1,)), "dined doesn't hold")
        self.assertEqual((2,), why.key)

    def test_types_that_aren_t_known(self) -> None:
        self.run_sql("CREATE DOMAIN even AS bigint; CREATE TABLE odd (a even NOT NULL, b char(3) NOT NULL, c boolean NOT NULL)")
        for column, kind in (("a", "tried.even"), ("b", "bpchar"), ("c", "bool")):
            self.fails(UnknownType, lambda: self.bridge(f"CREATE TABLE odd ({column} INTEGER)"), kind)

    def test_a_table_that_goes(self) -> None:
        bridge = self.bridge()
        self.run_sql("ALTER TABLE dine DROP COLUMN city")
        self.fails(ColumnMissing, lambda: bridge.query(DINED, (1,)), "city")
        self.run_sql("DROP TABLE dine")
        self.fails(TableMissing, lambda: bridge.query(DINED, (1,)), "dine")
        self.assertEqual([(2,), (3,)], bridge.query("SELECT DISTINCT fid FROM friend WHERE pid = 1").rows)

    def test_a_column_that_has_another_type_since(self) -> None:
        bridge = self.bridge()
        self.run_sql("ALTER TABLE friend ALTER COLUMN pid TYPE text")
        self.fails(TypeDiffers, lambda: bridge.query(DINED, (1,)))

    def test_a_connection_that_breaks(self) -> None:
        bridge = self.bridge()
        self.run_sql(f"SELECT pg_terminate_backend({self.connection.info.backend_pid})", self.connected())
        with self.assertRaises(ConnectionBroken):
            bridge.query(DINED, (1,))
        with self.assertRaises(ConnectionBroken):
            bridge.query(DINED, (1,))

    def test_a_connection_that_breaks_in_the_middle(self) -> None:
        other = self.connected()

        def end(statement: str) -> None:
            if '"dine"' in statement:
                self.run_sql(f"SELECT pg_terminate_backend({self.connection.info.backend_pid})", other)

        bridge = self.bridge(connection=HookedConnection(self.connection, end))
        with self.assertRaises(ConnectionBroken):
            bridge.query(DINED, (1,))

    def test_a_closed_connection(self) -> None:
        bridge = self.bridge()
        self.connection.close()
        with self.assertRaises(ConnectionBroken):
            bridge.query(DINED, (1,))
        with self.assertRaises(ConnectionBroken):
            Bounded(self.connection, SCHEMA)

    def test_what_a_user_may_not(self) -> None:
        bridge = self.bridge()
        self.run_sql("DROP ROLE IF EXISTS nobody; CREATE ROLE nobody; GRANT USAGE ON SCHEMA tried TO nobody; SET ROLE nobody")
        self.fails(Denied, lambda: bridge.query(DINED, (1,)), "permission denied")
        self.run_sql("RESET ROLE; DROP OWNED BY nobody; DROP ROLE nobody")

    def test_another_failure(self) -> None:
        bridge = self.bridge()
        self.run_sql("ALTER TABLE friend RENAME TO kept; CREATE VIEW friend AS SELECT pid, fid / 0 AS fid FROM kept")
        self.fails(DatabaseFailed, lambda: bridge.query(DINED, (1,)), "division by zero")


if __name__ == "__main__":
    unittest.main()
