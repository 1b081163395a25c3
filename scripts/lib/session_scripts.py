"""Drawn scripts whose sessions take turns, with what is to be written for each."""
import collections
import random

from .second_program.answers import full_answer
from .second_program.desk import Desk, Opening
from .second_program.prepared import blocks_of
from .second_program.reports import is_refusal, text_of
from .second_program.tokens import tokens_of
from .session_statements import Files, Statements

# pieces that are refused before any event
ODD_PIECES = """@|@ STEP|@x STEP|@+1 STEP|@1|@1 STEP STEP|@1.STEP|@@1 STEP|@1 @2 STEP|@0 STEP|@65 STEP|@00 DROP ACCESS k0
@18446744073709551617 STEP|@065 DELETE FROM t0|@65 STEP NOW|@65 SELECT x.a FROM r x|@2 SELECT x.a FROM r x|@64 EXPLAIN SELECT a FROM r
STEP|@1 DEEP|@65 DEEP|@ DEEP|@1 é|@1 step by step|@1 1 STEP""".replace("DEEP", 33 * "(").replace("\n", "|").split("|")


class Script:
    """The pieces of a script with the report of each, its files and its words."""

    def __init__(self, name: str, files: Files, budget: int | None = None, explain: bool = False) -> None:
        self.name, self.files, self.budget, self.explain = name, files, budget, explain
        self.pieces: list[str] = []
        self.reports: list[list[str]] = []
        self.counts: collections.Counter[str] = collections.Counter()

    def words(self) -> list[str]:
        return ["script.beas", *([f"--budget={self.budget}"] if self.budget else []), *(["--explain"] if self.explain else [])]

    def output(self) -> str:
        return "".join(text_of(number, report) for number, report in enumerate(self.reports, 1))

    def status(self) -> int:
        return int(any(map(is_refusal, self.reports)))

    def script(self) -> str:
        return "".join(f"{piece};\n" for piece in self.pieces)


class Drawn(Script):
    """A drawn script."""

    def __init__(self, seed: str, statements: type[Statements] = Statements) -> None:
        self.draw = random.Random(seed)
        self.statements = statements(self.draw)
        super().__init__(seed, self.statements.files, self.draw.choice([None, None, 400, 40]), self.chance(0.3))
        self.desk = Desk(self.files, self.budget, self.explain)
        self.desk.db = self.statements.db
        self.sessions = self.draw.sample([1, 2, 7, 10, 33, 63, 64, 9], self.draw.randint(1, 8))
        self.begin()
        for _ in range(self.draw.randint(40, 90)):
            self.turn()
        if self.chance(0.5):
            self.answer_all()
        self.counts["dropped"] += len(self.desk.open)

    def chance(self, share: float) -> bool:
        return self.draw.random() < share

    def begin(self) -> None:
        for _ in range(self.draw.randint(1, 3)):
            self.say(self.statements.create_table())
        for table in self.statements.tables:
            for _ in range(2):
                self.say(self.statements.insert(table))
        for one in self.statements.specifications:
            self.say(one.text())

    def say(self, text: str) -> None:
        """Adds a piece, and counts what it does to open queries."""
        self.pieces.append(text)
        before = self.desk.copy()
        report = self.desk.report(list(tokens_of(text)))
        self.reports.append(report)
        self.count(report, before)

    def count(self, report: list[str], before: Desk) -> None:
        words = report[0].split(" ")
        if words[0] in ("open", "probed"):
            self.counts[words[0]] += 1
        if is_refusal(report):
            self.counts[f"refused {words[1]}"] += 1
        self.count_changes(before)
        for session in before.open.keys() - self.desk.open.keys():
            self.count_answer(before.open[session])

    def count_changes(self, before: Desk) -> None:
        after = self.desk.db
        changed = {name for name, table in before.db.tables.items() if after.tables[name].rows != table.rows}
        gone = [one for one in before.db.constraints if one not in after.constraints]
        for session, query in before.open.items():
            tables = {table for block in blocks_of(query.prepared.query) for table in block.tables}
            used = [use.constraint for plan in query.prepared.plans for use in plan.steps]
            self.counts["updated under a query"] += bool(changed & tables)
            is_guided = any(plan.is_guided for plan in query.prepared.plans)
            self.counts["guided and updated half way"] += is_guided and before.made[session] > 0 and bool(changed & tables)
            self.counts["dropped under a query"] += any(one in used for one in gone)
            self.counts["made beside a query"] += len(after.tables) > len(before.db.tables)

    def count_answer(self, query: Opening) -> None:
        """Of an answer: whether a block was guided, and whether the rows as they are now would give another one."""
        self.counts["answered"] += 1
        self.counts["guided"] += any(plan.is_guided for plan in query.prepared.plans)
        self.counts["unlike the current rows"] += full_answer(query.prepared.query, self.desk.db) != query.run.answer

    # ---- turns

    def turn(self) -> None:
        turn = self.draw.random()
        if turn < 0.45 and (self.desk.open or turn < 0.05):
            self.step()
        elif turn < 0.62:
            self.speak_query()
        elif turn < 0.84:
            self.speak(self.update())
        elif turn < 0.91:
            self.speak(self.constraint())
        else:
            self.speak(self.other())

    def speak_query(self) -> None:
        query = self.statements.query()
        self.say(query if self.chance(0.1) else self.spoken(query, self.some_session(0.15)))

    def step(self) -> None:
        session = self.draw.choice(list(self.desk.open)) if self.desk.open and self.chance(0.9) else self.draw.choice(self.sessions)
        self.say(self.spoken(self.draw.choice(["STEP", "STEP", "step", "Step"]), session))

    def some_session(self, busy_share: float) -> int:
        """Mostly one without an open query, where there is such a one."""
        busy = [one for one in self.sessions if one in self.desk.open]
        idle = [one for one in self.sessions if one not in self.desk.open]
        return self.draw.choice(busy if busy and (not idle or self.chance(busy_share)) else idle)

    def speak(self, statement: str) -> None:
        """A statement of no session, or of one."""
        self.say(statement if self.chance(0.5) else self.spoken(statement, self.some_session(0.2)))

    def spoken(self, statement: str, session: int) -> str:
        return self.draw.choice(["@{} ", "@{} ", "@{} ", "@{:03} ", "@ {}\n", "@{}", "@ -- a session\n{} "]).format(session) + statement

    def table(self) -> str:
        """Mostly one that an open query names."""
        blocks = [block for query in self.desk.open.values() for block in blocks_of(query.prepared.query)]
        tables = [table for block in blocks for table in block.tables]
        return self.draw.choice(tables if tables and self.chance(0.7) else list(self.statements.tables))

    def update(self) -> str:
        table = self.table()
        return self.draw.choice([self.statements.insert, self.statements.insert, self.statements.delete, self.statements.load])(table)

    def constraint(self) -> str:
        """One is dropped, mostly one that an open query's plan uses, or made."""
        plans = [plan for query in self.desk.open.values() for plan in query.prepared.plans]
        used = [use.constraint.name for plan in plans for use in plan.steps]
        missing = [one for one in self.statements.specifications if one.name not in {its.name for its in self.desk.db.constraints}]
        if missing and self.chance(0.6):
            return self.draw.choice(missing).text()
        if used and self.chance(0.8):
            return f"DROP ACCESS {self.draw.choice(used)}"
        one = self.draw.choice(self.statements.specifications)
        return self.draw.choice([f"DROP ACCESS {one.name}", one.text()])

    def other(self) -> str:
        turn = self.draw.random()
        if turn < 0.25:
            return self.draw.choice(ODD_PIECES)
        if turn < 0.4 and len(self.statements.tables) < 5:
            return self.statements.create_table()
        return self.statements.at_once() if turn < 0.8 else self.statements.discover(self.table())

    def answer_all(self) -> None:
        while self.desk.open:
            self.say(self.spoken("STEP", self.draw.choice(list(self.desk.open))))
