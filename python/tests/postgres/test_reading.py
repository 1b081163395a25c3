"""A schema read from the database's own catalogue."""
import unittest

from support import DINED, Case

from beas.postgres import LeftOut, found_schema, from_database

ODD = """
CREATE TABLE cafe (cid bigint PRIMARY KEY, city text NOT NULL, street varchar, size numeric NOT NULL, "Big" bigint NOT NULL);
CREATE UNIQUE INDEX "The Street" ON cafe (city, cid);
CREATE UNIQUE INDEX upper_city ON cafe (upper(city));
CREATE UNIQUE INDEX some_city ON cafe (city) WHERE cid > 3;
CREATE UNIQUE INDEX of_street ON cafe (street);
CREATE TABLE pairs (a bigint, b bigint, PRIMARY KEY (a, b));
CREATE TABLE "Order" (a bigint NOT NULL);
CREATE TABLE "order" (a bigint NOT NULL);
CREATE TABLE bare (a json);
"""


class Reading(Case):
    def setUp(self) -> None:
        super().setUp()
        self.run_sql(ODD)

    def test_a_schema(self) -> None:
        found = found_schema(self.connection)
        self.assertEqual(
            [
                "CREATE TABLE cafe (cid INTEGER, city TEXT)",
                "CREATE ACCESS cafe_pkey ON cafe (cid) FETCH (city) LIMIT 1",
                "CREATE ACCESS cafe_key ON cafe (city, cid) FETCH (city) LIMIT 1",
                "CREATE TABLE dine (pid INTEGER, cid INTEGER, city TEXT)",
                "CREATE TABLE friend (pid INTEGER, fid INTEGER)",
                "CREATE TABLE pairs (a INTEGER, b INTEGER)",
                "CREATE ACCESS pairs_pkey ON pairs (a, b) FETCH (a) LIMIT 1",
                "",
            ],
            found.script.split(";\n"),
        )
        wanted = [
            LeftOut("Order", None, "its name"),
            LeftOut("bare", "a", "its type json"),
            LeftOut("bare", None, "it has no column that can be taken"),
            LeftOut("cafe", "street", "it may be NULL"),
            LeftOut("cafe", "size", "its type numeric"),
            LeftOut("cafe", "Big", "its name"),
            LeftOut("dine", "note", "its type numeric"),
            LeftOut("order", None, "its name"),
        ]
        self.assertEqual(sorted(map(str, wanted)), sorted(map(str, found.left_out)))

    def test_rows_with_null_left_out(self) -> None:
        found = found_schema(self.connection, ["cafe"], nulls="leave out")
        self.assertIn("CREATE TABLE cafe (cid INTEGER, city TEXT, street TEXT)", found.script)
        self.assertIn("CREATE ACCESS of_street ON cafe (street) FETCH (cid, city) LIMIT 1", found.script)

    def test_a_bridge(self) -> None:
        more = ["CREATE ACCESS friends ON friend (pid) FETCH (fid) LIMIT 3", "CREATE ACCESS dined ON dine (pid) FETCH (cid, city) LIMIT 4;"]
        with from_database(self.connection, ["friend", "dine", "cafe", "nope"], constraints=more) as bridge:
            self.assertEqual(["cafe", "dine", "friend"], list(bridge.tables))
            self.assertEqual([(10, "oslo"), (11, "Rom"), (12, "ähtäri")], bridge.query(DINED, (1,)).rows)
            self.assertEqual(["cafe_pkey", "The Street"], [it.there for it in bridge.indexes()][:2])
        self.assertIn(LeftOut("nope", None, "it isn't there"), found_schema(self.connection, ["nope"]).left_out)

    def test_no_two_constraints_of_one_name(self) -> None:
        self.run_sql("CREATE TABLE twice (a bigint NOT NULL, b bigint NOT NULL)")
        self.run_sql('CREATE UNIQUE INDEX "A!" ON twice (a); CREATE UNIQUE INDEX "B!" ON twice (b)')
        script = found_schema(self.connection, ["twice"]).script
        self.assertIn("twice_key ON", script)
        self.assertIn("twice_key_2 ON", script)


if __name__ == "__main__":
    unittest.main()
