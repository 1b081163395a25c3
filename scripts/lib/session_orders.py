"""Every order of eight events, four of each of two sessions, over one table with one constraint."""
import re
from collections.abc import Iterable, Iterator
from itertools import islice

from .second_program.database import Database
from .second_program.desk import Desk
from .second_program.tokens import tokens_of
from .session_scripts import Script
from .session_statements import Files

MAKE = "CREATE ACCESS {k} ON {r} (a) FETCH (b) LIMIT 3"
BASE = ["CREATE TABLE {r} (a INTEGER, b INTEGER)", MAKE, "INSERT INTO {r} VALUES (1, 5), (1, 6), (5, 1)"]
GROUP = ["SELECT DISTINCT b FROM {r} WHERE a = 1", "STEP", "STEP"]
GUIDED = ["SELECT b FROM {r} WHERE a = 1 EXCEPT SELECT a FROM {r}", "STEP", "STEP"]
# four events of session 1 and four of session 2
SETS = [
    (GROUP + ["INSERT INTO {r} VALUES (1, 7)"], GROUP + ["DELETE FROM {r} WHERE b = 5"]),
    (GROUP + ["DROP ACCESS {k}"], GROUP + [MAKE]),
    (GUIDED + ["DELETE FROM {r} WHERE a = 5"], GUIDED + ["INSERT INTO {r} VALUES (6, 0)"]),
    (GUIDED + ["DROP ACCESS {k}"], GUIDED + ["INSERT INTO {r} VALUES (1, 7), (1, 8)"]),
]
ORDERS_OF_A_SCRIPT = 900
# each event with its session
Order = list[tuple[int, str]]


def orders_of(events: Order) -> Iterator[Order]:
    """All orders of a list in which some may be equal."""
    if not events:
        yield []
    for event in dict.fromkeys(events):
        rest = list(events)
        rest.remove(event)
        for order in orders_of(rest):
            yield [event, *order]


class Stand:
    """Where a desk stands, and what comes of each piece there. Equal stands are met again and again, so each is worked out once."""

    met: dict[str, "Stand"] = {}

    def __init__(self, desk: Desk) -> None:
        self.desk, self.after = desk, dict[str, tuple[list[str], Stand]]()

    def follow(self, text: str) -> tuple[list[str], "Stand"]:
        """The report of a piece, and the stand after it."""
        if text not in self.after:
            desk = self.desk.copy()
            report = desk.report(list(tokens_of(text)))
            self.after[text] = report, Stand.met.setdefault(stand_key(desk), Stand(desk))
        return self.after[text]


def rows_key(db: Database) -> object:
    return [(name, table.rows) for name, table in db.tables.items()], [(one.name, one.bound) for one in db.constraints]


def stand_key(desk: Desk) -> str:
    queries = [(session, desk.made[session], query.prepared.lines, rows_key(query.db)) for session, query in desk.open.items()]
    return repr((rows_key(desk.db), queries))


class Orders(Script):
    """A script of many orders, each over a table and a constraint of its own; after each, queries that are still open are answered."""

    def __init__(self, name: str, orders: Iterable[Order]) -> None:
        super().__init__(name, Files())
        for nth, order in enumerate(orders):
            self.add(order, nth)

    def add(self, order: Order, nth: int) -> None:
        stand = Stand(Desk(self.files))
        stand = Stand.met.setdefault(stand_key(stand.desk), stand)
        for text in BASE + [f"@{session} {event}" for session, event in order]:
            stand = self.say(stand, text, nth)
        while stand.desk.open:
            stand = self.say(stand, f"@{min(stand.desk.open)} STEP", nth)

    def say(self, stand: Stand, text: str, nth: int) -> Stand:
        """The second program has each order over a table r with a constraint k, whose names are others in the script."""
        report, after = stand.follow(text.format(r="r", k="k"))
        self.pieces.append(text.format(r=f"r{nth}", k=f"k{nth}"))
        self.reports.append([type(line)(re.sub(r"\bk\b", f"k{nth}", line)) for line in report])
        return after


def scripts_of_orders() -> Iterator[Orders]:
    for number, (first, second) in enumerate(SETS):
        orders = orders_of([(1, event) for event in first] + [(2, event) for event in second])
        part = 0
        while batch := list(islice(orders, ORDERS_OF_A_SCRIPT)):
            yield Orders(f"orders-{number}-{part}", batch)
            part += 1
