"""What the tests share: the library that they run over, and databases that are closed after each test.

BEAS_LIBRARY names the true library. Without it a stand-in takes its place, which tries all but the library itself.
"""
import os
import sys
import unittest
from pathlib import Path
from typing import Any

TOP = Path(__file__).resolve().parents[2]
sys.path[:0] = [str(TOP / "python"), str(TOP / "scripts"), str(TOP / "examples")]

import beas  # noqa: E402
from beas import _library  # noqa: E402

from stand_in import StandIn  # noqa: E402

IS_TRUE = bool(os.environ.get("BEAS_LIBRARY"))
CASES = TOP / "crates/cases/data/scripts"
# an account has at most three cards
CARDS = """
CREATE TABLE cards (account INTEGER, card INTEGER, holder TEXT);
CREATE ACCESS cards_of ON cards (account) FETCH (card, holder) LIMIT 3;
INSERT INTO cards VALUES (7, 4111, 'Ann'), (7, 4222, 'O''Hara'), (8, 4111, 'é, "e"');
"""
CARDS_OF_7 = "SELECT DISTINCT card, holder FROM cards WHERE account = 7"
STAND_IN = StandIn()


def use_a_library() -> None:
    """Makes the true library, or the stand-in, the one that databases are opened with."""
    _library.use(None if IS_TRUE else STAND_IN.library())


use_a_library()


class Case(unittest.TestCase):
    """A test with a database that has cards, if it asks for one."""

    def database(self, script: str = "", **words: Any) -> beas.Database:
        db = beas.Database(**words)
        self.addCleanup(db.close)
        db.run(script)
        return db

    def refused(self, db: beas.Database, statement: str) -> beas.Refused:
        with self.assertRaises(beas.Refused) as caught:
            db.say(statement)
        return caught.exception


def program() -> Path | None:
    """The program that BEAS_PROGRAM names, or the one that ./beas builds, if it is there."""
    named = os.environ.get("BEAS_PROGRAM")
    path = Path(named) if named else TOP / "out/beas"
    return path.resolve() if path.exists() else None
