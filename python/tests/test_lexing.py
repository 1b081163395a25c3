"""Scripts are cut by the lexical rules of docs/language.md."""
import random
import unittest

from support import Case

from beas import statements_of
from beas._lexing import RESERVED, first_token, is_name, is_whole, tokens_of

from lib.place import read
from lib.second_program.tokens import pieces_of
from lib.second_program.tokens import tokens_of as tokens_by_the_second_program
from read_reports import statements_in

# a script, and its statements with their lines
SCRIPTS: dict[str, list[tuple[str, int]]] = {
    "": [],
    " \t\r\n\f": [],
    ";;;": [],
    "-- nothing": [],
    "--;\n;--": [],
    "A": [("A", 1)],
    "A;": [("A", 1)],
    ";A;;B": [("A", 1), ("B", 1)],
    "A -- b;\nc;D": [("A -- b;\nc", 1), ("D", 2)],
    "-- it's\nA\n'b;\n''c' ; D -- ;": [("A\n'b;\n''c'", 2), ("D", 4)],
    "A ';'; B": [("A ';'", 1), ("B", 1)],
    "A ''';'; B": [("A ''';'", 1), ("B", 1)],
    "A ''; B ''": [("A ''", 1), ("B ''", 1)],
    "A '--' ; B": [("A '--'", 1), ("B", 1)],
    "A;'b;\nC;": [("A", 1), ("'b;\nC;", 1)],
    "a--b'\n;'": [("a", 1), ("'", 2)],
    "a - - b;\f\t\r\n\v;": [("a - - b", 1), ("\v", 2)],
    "a-1;b--1;\n": [("a-1", 1), ("b", 1)],
    "@2 STEP;@2\nSTEP": [("@2 STEP", 1), ("@2\nSTEP", 1)],
    "é;'é;é';": [("é", 1), ("'é;é'", 1)],
    "a\x00;b": [("a\x00", 1), ("b", 1)],
    "\u00a0;": [("\u00a0", 1)],
    "\ufeffA;": [("\ufeffA", 1)],
    "/* ; */": [("/*", 1), ("*/", 1)],
    '"a;b"': [('"a', 1), ('b"', 1)],
    "---;\n-;": [("-", 2)],
    "'a'--'\n';'": [("'a'--'\n';'", 1)],
}
PARTS = ["'", "''", ";", "--", "-", "\n", " ", "\t", "a", "B7", "7", "é", "(", ",", "<=", "@", "\x00", "\v", "word", "'a'"]


class Lexing(Case):
    def test_scripts(self) -> None:
        for script, wanted in SCRIPTS.items():
            with self.subTest(script):
                self.assertEqual(wanted, [tuple(it) for it in statements_of(script)])

    def test_drawn_scripts(self) -> None:
        """As examples/read_reports.py cuts them, and by the tokens of the second program."""
        draw = random.Random(1)
        for _ in range(5000):
            script = "".join(draw.choices(PARTS, k=draw.randrange(12)))
            found = statements_of(script)
            self.assertEqual([(it.text, it.first_line) for it in statements_in(script)], [tuple(it) for it in found], script)
            self.assertEqual(list(pieces_of(script)), [list(tokens_by_the_second_program(it.text)) for it in found], script)

    def test_drawn_tokens(self) -> None:
        """Token by token as the second program has them, up to a text without an end."""
        draw = random.Random(2)
        names = {"open": "bad"}
        for _ in range(5000):
            text = "".join(draw.choices([it for it in PARTS if "'" not in it] + ["'a'", "'b'';'"], k=draw.randrange(12)))
            wanted = [(kind if kind != "bad" else "mark", it) for kind, it in tokens_by_the_second_program(text)]
            self.assertEqual(wanted, [(names.get(kind, kind), it) for kind, it in tokens_of(text)], text)

    def test_long_scripts(self) -> None:
        self.assertEqual(200_000, len(statements_of("DROP ACCESS a;\n" * 200_000)))
        self.assertEqual([], statements_of(";" * 2_000_000))
        self.assertEqual(1, len(statements_of("'" + "''" * 1_000_000)))

    def test_whether_whole(self) -> None:
        for script, wanted in {"a;": True, "a; ": True, "a;b": False, "a';": False, "a--;": False, "--a": True, "": True, "a;;": True}.items():
            self.assertEqual(wanted, is_whole(script), script)

    def test_first_tokens(self) -> None:
        for text, wanted in {" -- x\nSelect": "select", "(a": "(", "": "", "@2 STEP": "@", "'a' b": "'a'", "-- x": ""}.items():
            self.assertEqual(wanted, first_token(text), text)

    def test_names(self) -> None:
        for text in ("a", "_", "A7", "step", "ok", "a" * 64):
            self.assertTrue(is_name(text), text)
        for text in ("", "7a", "a b", "é", "a" * 65, "SELECT", "text", "a\n", "a;b", "a'"):
            self.assertFalse(is_name(text), text)

    def test_reserved_words(self) -> None:
        page = read("docs/language.md").partition("folded_names.rt -->")[2].partition("<!--")[0]
        self.assertEqual(set(page.replace(".", "").replace(",", " ").split()), RESERVED)


if __name__ == "__main__":
    unittest.main()
