"""Plans are read from a text with strict checks, and have the lines and the bound that the second program has."""
import ast
import copy
import json
import re
import unittest
from typing import Any

from support import TOP, Case

import beas
from beas.plans import BadPlan, Leaf, Pair, Place, plan_of
from beas.postgres import use_planner
from beas.postgres._planning import LibraryPlanner, planner_for
from lib.second_plans import SecondPlanner

SCHEMA = """
CREATE TABLE friend (pid INTEGER, fid INTEGER);
CREATE TABLE dine (pid INTEGER, cid INTEGER, year INTEGER, city TEXT);
CREATE ACCESS f1 ON friend (pid) FETCH (fid) LIMIT 5000;
CREATE ACCESS d1 ON dine (pid, year) FETCH (cid, city) LIMIT 31;
CREATE ACCESS d2 ON dine (cid) FETCH (pid, year, city) LIMIT 7;
"""
DINED = "SELECT DISTINCT d.cid FROM friend f, dine d WHERE f.pid = 7 AND f.fid = d.pid AND d.year = 2015 AND d.city <> 'rome' AND d.cid >= f.pid"
QUERIES = [
    DINED,
    "SELECT DISTINCT fid FROM friend WHERE pid = 7 UNION SELECT DISTINCT fid FROM friend WHERE pid = 8",
    "SELECT DISTINCT cid FROM dine WHERE pid = 7 AND year = 1 EXCEPT SELECT DISTINCT cid FROM dine WHERE city = 'oslo'",
]
# where in the text of a plan, what is put there, and what is said of it
WRONG: list[tuple[list[Any], Any, str]] = [
    (["bound"], 7, "text of digits"),
    (["bound"], "07", "text of digits"),
    (["bound"], "+7", "text of digits"),
    (["bound"], "٣", "text of digits"),
    (["bound"], str(2**128), "below 2"),
    (["bound"], "7", "isn't that of the steps"),
    (["columns"], [], "another output"),
    (["columns"], ["cid", 7], "columns is a text"),
    (["columns"], "cid", "columns is a list"),
    (["more"], 1, "has the fields"),
    (["query"], {"block": 1}, "numbered from left"),
    (["query"], {"block": True}, "number from 0"),
    (["query"], {"union": [{"block": 0}]}, "two sides"),
    (["query"], {"intersect": [{"block": 0}, {"block": 0}]}, "two sides"),
    (["query"], {}, "a query is"),
    (["blocks"], {}, "blocks is a list"),
    (["blocks", 0], [], "a block has the fields"),
    (["blocks", 0, "atoms"], ["friend"], "classes for each atom"),
    (["blocks", 0, "atoms", 1], "friend", "table of its atom"),
    (["blocks", 0, "classes", 0, 0], 99, "below their count"),
    (["blocks", 0, "classes", 0, 0], -1, "number from 0"),
    (["blocks", 0, "classes", 0, 0], 1.0, "number from 0"),
    (["blocks", 0, "constants", 0, 0], 99, "one of a class"),
    (["blocks", 0, "constants", 0, 1], 2**63, "64 bits"),
    (["blocks", 0, "constants", 0, 1], None, "64 bits"),
    (["blocks", 0, "constants", 0, 1], True, "64 bits"),
    (["blocks", 0, "constants", 0], [0], "class and a value"),
    (["blocks", 0, "comparisons", 0, "sign"], "=", "five signs"),
    (["blocks", 0, "comparisons", 0, "right"], {"of": 1}, "value or a place"),
    (["blocks", 0, "comparisons", 0, "right"], {"at": [0, 9]}, "column of an atom"),
    (["blocks", 0, "comparisons", 0, "right"], {"at": [0]}, "atom and a column"),
    (["blocks", 0, "output", 0], [9, 0], "column of an atom"),
    (["blocks", 0, "guided"], 0, "true or false"),
    (["blocks", 0, "guided"], True, "no guide"),
    (["blocks", 0, "steps", 0, "limit"], 0, "between 1"),
    (["blocks", 0, "steps", 0, "limit"], 2**32, "between 1"),
    (["blocks", 0, "steps", 0, "limit"], 4999, "that of the steps"),
    (["blocks", 0, "steps", 0, "adds"], None, "true or false"),
    (["blocks", 0, "steps", 0, "atom"], 7, "table of its atom"),
    (["blocks", 0, "steps", 0, "constraint"], "", "is a text"),
    (["blocks", 0, "bound"], "9", "has the fields"),
]


def changed(told: Any, path: list[Any], value: Any) -> str:
    other = copy.deepcopy(told)
    inner = other
    for part in path[:-1]:
        inner = inner[part]
    inner[path[-1]] = value
    return json.dumps(other)


class Plans(Case):
    def test_lines_and_bounds(self) -> None:
        planner = SecondPlanner(SCHEMA)
        for query in QUERIES:
            prepared, plan = planner.prepared(query), planner.plan(query)
            self.assertEqual(prepared.lines, plan.lines())
            self.assertEqual((prepared.number, tuple(prepared.header)), (plan.bound, plan.columns))

    def test_parts(self) -> None:
        plan = SecondPlanner(SCHEMA).plan(DINED)
        (block,) = plan.blocks
        self.assertEqual((("friend", "dine"), ((0, 1), (1, 2, 3, 4)), 5), (block.atoms, block.classes, block.count))
        self.assertEqual((((0, 7), (3, 2015)), (Place(1, 1),)), (block.constants, block.output))
        self.assertEqual([("<>", "rome"), (">=", Place(0, 0))], [(it.sign, it.right) for it in block.comparisons])
        self.assertEqual([("f1", True), ("d1", True)], [(it.constraint, it.adds) for it in block.steps])
        self.assertEqual(5000 + 5000 * 31, plan.bound)

    def test_guided(self) -> None:
        plan = SecondPlanner(SCHEMA).plan(QUERIES[2])
        self.assertEqual(Pair("except", Leaf(0), Leaf(1)), plan.query)
        self.assertEqual([False, True], [it.guided for it in plan.blocks])
        self.assertEqual((31, 31 * 7), plan.bounds)
        self.assertEqual(2, plan.round_trips)

    def test_a_bound_of_128_bits(self) -> None:
        joins = " AND ".join(f"x{nth}.b = x{nth + 1}.a" for nth in range(3))
        query = f"SELECT DISTINCT x3.b FROM r x0, r x1, r x2, r x3 WHERE x0.a = 1 AND {joins}"
        planner = SecondPlanner(f"CREATE TABLE r (a INTEGER, b INTEGER); CREATE ACCESS ab ON r (a) FETCH (b) LIMIT {2**32 - 1}")
        most = 2**32 - 1
        self.assertEqual(most + most**2 + most**3 + most**4, planner.plan(query).bound)

    def test_wrong_plans(self) -> None:
        told = json.loads(SecondPlanner(SCHEMA).text(DINED))
        for path, value, why in WRONG:
            with self.subTest(path=path, value=value), self.assertRaisesRegex(BadPlan, why):
                plan_of(changed(told, path, value))

    def test_fields_that_lack(self) -> None:
        told = json.loads(SecondPlanner(SCHEMA).text(DINED))
        for inner in (told, told["blocks"][0], told["blocks"][0]["steps"][0], told["blocks"][0]["comparisons"][0]):
            for name in list(inner):
                value = inner.pop(name)
                with self.subTest(name=name), self.assertRaises(BadPlan):
                    plan_of(json.dumps(told))
                inner[name] = value

    def test_no_plans(self) -> None:
        for text in ("", "{", "[]", "7", "null", '{"bound": "1"}', "[" * 100_000):
            with self.subTest(text=text[:9]), self.assertRaises(BadPlan):
                plan_of(text)


class OnThePage(Case):
    def test_the_plan_of_the_page(self) -> None:
        """It is the plan of the question in the page's story, over the constraints that it uses."""
        page = (TOP / "docs/postgres.md").read_text(encoding="utf-8")
        (text,) = re.findall(r"^```json\n(.*?)^```$", page, re.M | re.S)
        tables = re.findall(r"^CREATE TABLE \w+ \(\w+ INTEGER.*;$", page, re.M)
        accesses = re.findall(r"^\.\.\. +(CREATE ACCESS .*;)$", page, re.M)
        (source,) = re.findall(r"^>>> question = (.*(?:\n\.\.\. .*)*)$", page, re.M)
        question = ast.literal_eval(source.replace("\n...", "\n"))
        planner = SecondPlanner("\n".join(tables + accesses))
        self.assertEqual(json.loads(planner.text(question.replace("?", "8"))), json.loads(text))
        self.assertEqual((550, 2), (plan_of(text).bound, plan_of(text).round_trips))


class FromTheLibrary(Case):
    """The library's plans, or those of the stand-in, which has them from the second program."""

    def test_texts_are_those_of_the_second_program(self) -> None:
        db, planner = self.database(SCHEMA), SecondPlanner(SCHEMA)
        for query in [*QUERIES, DINED.replace("rome", 'r\n"\\ö\x7f\x01')]:
            self.assertEqual((0, planner.text(query)), db._planned(query.encode()))
            self.assertEqual(planner.plan(query), db.plan(query))

    def test_it_is_the_plan_of_the_price(self) -> None:
        db = self.database(SCHEMA)
        for query in QUERIES:
            self.assertEqual((db.price(query).bound, list(db.price(query).plan)), (db.plan(query).bound, db.plan(query).lines()))

    def test_it_leaves_no_report(self) -> None:
        db = self.database(SCHEMA, budget=1)
        before = db.report_text()
        self.assertEqual(31 + 31 * 7, db.plan(QUERIES[2]).bound)
        self.assertEqual(db.plan("SELECT DISTINCT fid FROM friend WHERE pid = 7"), db.plan("SELECT DISTINCT fid FROM friend WHERE pid = ?", (7,)))
        self.assertEqual(before, db.report_text())
        with self.assertRaises(beas.NotCovered) as caught:
            db.plan("SELECT DISTINCT pid FROM friend")
        self.assertEqual(caught.exception.written, db.report_text())

    def test_a_long_plan(self) -> None:
        db = self.database(SCHEMA)
        plan = db.plan(" UNION ".join(["SELECT fid FROM friend WHERE pid = 7"] * 60))
        self.assertEqual((60, 60 * 5000), (len(plan.blocks), plan.bound))

    def test_what_has_no_plan(self) -> None:
        db = self.database(SCHEMA)
        for kind, text in [(beas.NoStatement, ""), (beas.SeveralStatements, f"{DINED};{DINED}"), (beas.NotText, "\ud800"), (beas.Syntax, "SELECT"),
                           (beas.NotAQuery, f"EXPLAIN {DINED}"), (beas.NotAQuery, f"SCAN OK {DINED}"), (beas.NotAQuery, "DROP ACCESS f1")]:
            with self.subTest(text), self.assertRaises(kind):
                db.plan(text)

    def test_the_planner_of_bridges(self) -> None:
        planner = planner_for(SCHEMA, 1000)
        self.addCleanup(planner.close)
        self.assertIsInstance(planner, LibraryPlanner)
        self.assertEqual(31 + 31 * 7, planner.plan(QUERIES[2]).bound)
        with self.assertRaisesRegex(beas.OverBudget, "bound 160000 above budget 1000"):
            planner.plan(DINED)
        with self.assertRaises(beas.Syntax):
            LibraryPlanner("CREATE TABLE", None)

    def test_another_planner(self) -> None:
        self.addCleanup(use_planner, None)
        use_planner(SecondPlanner)
        self.assertIsInstance(planner_for(SCHEMA, None), SecondPlanner)


if __name__ == "__main__":
    unittest.main()
