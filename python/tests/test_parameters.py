"""Values are put into a statement as literals, and nowhere else."""
import random
import unittest

from support import Case

from beas import BadValue
from beas._lexing import tokens_of
from beas._parameters import Parameters, filled, literal

# a statement, its values, and what is said
FILLED: list[tuple[str, Parameters, str]] = [
    ("a = ?", (7,), "a =  7 "),
    ("a = ?", [-7], "a =  -7 "),
    ("a = -?", (-7,), "a = - -7 "),
    ("?,?", (1, "x"), " 1 , 'x' "),
    ("'?' = ? -- ?\n", ("?",), "'?' =  '?'  -- ?\n"),
    ("'a''?' = ?", (1,), "'a''?' =  1 "),
    ("'a'?", ("b",), "'a' 'b' "),
    ("?", ("it's; -- '",), " 'it''s; -- ''' "),
    ("?", ("",), " '' "),
    ("?", (-(2**63),), " -9223372036854775808 "),
    ("?", (True,), " 1 "),
    ("a = 7", (), "a = 7"),
    ("a = 'b ?", (), "a = 'b ?"),
    ("a = :a AND b = :b2 AND c = :a", {"a": 1, "b2": "x"}, "a =  1  AND b =  'x'  AND c =  1 "),
    ("':a' -- :a\n:a", {"a": 1, "unused": 2}, "':a' -- :a\n 1 "),
    ("a : b", {}, "a : b"),
]
WRONG: list[tuple[str, Parameters, str]] = [
    ("?", (), "more placeholders"),
    ("a", (1,), "0 placeholders for 1"),
    ("'?'", (1,), "0 placeholders for 1"),
    ("?", "7", "one text"),
    ("?", {"a": 1}, "without a name"),
    (":b", {"a": 1}, "no value for :b"),
    ("?", (1.5,), "neither"),  # type: ignore[list-item]
    ("?", (None,), "neither"),  # type: ignore[list-item]
    ("?", (b"x",), "neither"),  # type: ignore[list-item]
    ("?", (2**63,), "64 bits"),
    ("?", (-(2**63) - 1,), "64 bits"),
]


class FilledStatements(Case):
    def test_filled(self) -> None:
        for statement, values, wanted in FILLED:
            self.assertEqual(wanted, filled(statement, values), statement)

    def test_wrong_values(self) -> None:
        for statement, values, wanted in WRONG:
            with self.assertRaisesRegex(BadValue, wanted):
                filled(statement, values)

    def test_drawn_texts_stay_one_literal(self) -> None:
        """Whatever a text holds, it is one token of the statement, with this text; and what stands around it stays."""
        draw = random.Random(1)
        for _ in range(5000):
            text = "".join(draw.choices(["'", "''", ";", "--", "\n", "?", ":a", "\\", '"', "\x00", "é", "a", "@1"], k=draw.randrange(9)))
            number = draw.choice([0, 7, -7, 2**63 - 1, -(2**63)])
            tokens = tokens_of(filled("SELECT ?,-?;", (text, number)))
            digits = [("mark", "-"), ("number", str(-number))] if number < 0 else [("number", str(number))]
            wanted = [("word", "select"), ("text", text), ("mark", ","), ("mark", "-"), *digits, ("mark", ";")]
            self.assertEqual(wanted, [tuple(it) for it in tokens])

    def test_literals(self) -> None:
        self.assertEqual(["7", "'7'", "''''"], [literal(it) for it in (7, "7", "'")])

    def test_they_reach_the_database(self) -> None:
        db = self.database("CREATE TABLE t (n INTEGER, s TEXT); CREATE ACCESS a ON t () FETCH (n, s) LIMIT 100")
        draw = random.Random(3)
        rows = {(draw.randrange(-(2**63), 2**63), "".join(draw.choices("'a;?-\n:é\x00", k=5))) for _ in range(50)}
        for row in rows:
            db.say("INSERT INTO t VALUES (?, ?)", row)
        self.assertEqual(sorted(rows, key=lambda it: (it[0], it[1].encode())), db.query("SELECT DISTINCT * FROM t").rows)
        for number, text in rows:
            self.assertEqual([(text,)], db.query("SELECT DISTINCT s FROM t WHERE n = :n AND s = :s", {"n": number, "s": text}).rows)


if __name__ == "__main__":
    unittest.main()
