"""What a script means: the report of each piece, where sessions take turns."""
from functools import cached_property
from typing import Any, Protocol

from .answers import Run, checked_run, folded, meets_all, pairs_within, scanned
from .binding import bind, bind_delete, bind_rows
from .candidates import first_set, refuse_ungrouped
from .database import Constraint, Database, bound_of
from .files import MOST_OF_A_FILE, rows_of
from .grammar import parse
from .prepared import Prepared, prepare
from .reading import Tree
from .reports import Numbered, answered, is_refusal, text_of
from .tokens import Refused, Token, pieces_of
from .trees import CreateAccess, CreateTable, Delete, DiscoverGroup, DiscoverPairs, DropAccess, Grouped, Insert, Load, Query, SelectBlock, Step

SESSIONS = range(1, 65)


class Files(Protocol):
    """The files that a script loads."""

    def read(self, name: str) -> bytes: ...


class Opening:
    """An announced query with a copy of the database at its opening, over which it is answered."""

    def __init__(self, prepared: Prepared, db: Database, lines: list[str]) -> None:
        self.prepared, self.db, self.lines = prepared, db, lines

    @cached_property
    def run(self) -> Run:
        return checked_run(self.prepared, self.db)


class Desk:
    """One database, and of each session at most one open query, with the number of its probes that were made."""

    def __init__(self, files: Files, budget: int | None = None, explain: bool = False) -> None:
        self.db, self.open, self.made = Database(), dict[int, Opening](), dict[int, int]()
        self.files, self.budget, self.explain = files, budget, explain

    def copy(self) -> "Desk":
        other = Desk(self.files, self.budget, self.explain)
        other.db, other.open, other.made = self.db.copy(), dict(self.open), dict(self.made)
        return other

    # ---- pieces and events

    def report(self, tokens: list[Token]) -> list[str]:
        """The lines that are written for a piece."""
        try:
            return self.said(tokens)
        except Refused as why:
            return [Numbered(why)]

    def said(self, tokens: list[Token]) -> list[str]:
        if tokens[0] != ("mark", "@"):
            return self.plain(parse(tokens))
        if len(tokens) == 1 or tokens[1].kind != "number":
            raise Refused(1, "syntax")
        digits, rest = tokens[1].text, tokens[2:]
        statement = Step() if rest == [("word", "step")] else parse(rest)
        if int(digits) not in SESSIONS:
            raise Refused(30, f"session {digits} not between 1 and 64")
        return self.event(int(digits), statement)

    def plain(self, statement: Any) -> list[str]:
        """A statement of session 0, whose query goes on until it is answered."""
        lines = self.event(0, statement)
        while 0 in self.open:
            lines = self.event(0, Step())
        return lines

    def event(self, session: int, statement: Any) -> list[str]:
        if isinstance(statement, Step):
            if session not in self.open:
                raise Refused(32, f"session {session} has no open query")
            return self.stepped(session, self.open[session])
        if session in self.open:
            raise Refused(31, f"session {session} has an open query")
        if isinstance(statement, Query) and statement.before == "":
            return self.opened(session, statement.tree)
        return self.done(statement)

    def opened(self, session: int, tree: Tree) -> list[str]:
        prepared = self.announced(tree)
        self.open[session] = Opening(prepared, self.db.copy(), prepared.lines if self.explain else [])
        self.made[session] = 0
        return [Numbered(f"open {session} bound {prepared.number}")]

    def stepped(self, session: int, query: Opening) -> list[str]:
        """The next due probe, or where all were made, the answer."""
        if self.made[session] < len(query.run.probes):
            self.made[session] += 1
            return [Numbered(f"probed {session}")]
        del self.open[session], self.made[session]
        return answered(query.prepared.number, query.lines, query.prepared.header, sorted(query.run.answer), query.run.reads)

    # ---- statements

    def done(self, statement: Any) -> list[str]:
        return getattr(self, f"do_{type(statement).__name__}")(statement)

    def announced(self, tree: Tree) -> Prepared:
        return prepare(self.db, self.budget, *bind(self.db, tree))

    def ok(self, more: str = "") -> list[str]:
        return [Numbered(f"ok{more}")]

    def do_CreateTable(self, statement: CreateTable) -> list[str]:
        self.db.create_table(statement.name, statement.columns)
        return self.ok()

    def do_CreateAccess(self, statement: CreateAccess) -> list[str]:
        self.db.create_access(statement)
        return self.ok()

    def do_DropAccess(self, statement: DropAccess) -> list[str]:
        self.db.drop_access(statement.name)
        return self.ok()

    def do_Load(self, statement: Load) -> list[str]:
        table = self.db.table(statement.table)
        content = self.files.read(statement.file)
        if len(content) > MOST_OF_A_FILE:
            raise Refused(24, f"file longer than {MOST_OF_A_FILE} bytes")
        rows = rows_of(content, table)
        self.db.insert(statement.table, rows)
        return self.ok(f" {len(rows)} rows")

    def do_Insert(self, statement: Insert) -> list[str]:
        rows = bind_rows(self.db.table(statement.table), statement.rows)
        self.db.insert(statement.table, rows)
        return self.ok(f" {len(rows)} rows")

    def do_Delete(self, statement: Delete) -> list[str]:
        conditions = bind_delete(self.db, statement)
        gone = self.db.delete(statement.table, lambda row: meets_all(row, conditions))
        return self.ok(f" {gone} rows")

    def do_DiscoverGroup(self, statement: DiscoverGroup) -> list[str]:
        one = Constraint("", statement.table, *self.db.places(statement), 1)
        return [Numbered(f"max {one.greatest(self.db.tables[one.table].rows)}")]

    def do_DiscoverPairs(self, statement: DiscoverPairs) -> list[str]:
        table = self.db.table(statement.table)
        pairs = list(pairs_within(table, bound_of(statement.digits)))
        return [Numbered(f"pair {key} {fetched} {most}") for key, fetched, most in pairs] + self.ok(f" {len(pairs)} pairs")

    def do_Query(self, statement: Query) -> list[str]:
        ways = {"explain": self.explained, "scan ok": self.scan_answered, "specialise": self.specialised}
        return ways[statement.before](statement.tree)

    def explained(self, tree: Tree) -> list[str]:
        prepared = self.announced(tree)
        return [Numbered(f"bound {prepared.number}"), *prepared.lines, *self.ok()]

    def scan_answered(self, tree: Tree) -> list[str]:
        prepared = scanned(self.db, *bind(self.db, tree))
        read = sum(len(self.db.tables[one.table].rows) for one in prepared.scans)
        prepared.refuse_above(self.budget, read)
        run = checked_run(prepared, self.db)
        lines = prepared.lines if self.explain else []
        return answered(prepared.number + read, lines, prepared.header, sorted(run.answer), run.reads + read)

    def do_Grouped(self, statement: Grouped) -> list[str]:
        prepared = self.announced(statement.inner)
        places, keys = prepared.query.output, len(statement.keys)
        kinds = [self.db.tables[prepared.query.tables[place.atom]].columns[place.column] for place in places]
        refuse_ungrouped([fold for fold, _ in statement.items], places[:keys], places[keys:], kinds[keys:])
        run = checked_run(prepared, self.db)
        rows = folded(run.answer, keys, [fold for fold, _ in statement.items])
        header = [f"{fold}({column})" if fold else column for (fold, _), (column, _) in zip(statement.items, kinds[keys:])]
        return answered(prepared.number, prepared.lines if self.explain else [], header, rows, run.reads)

    def specialised(self, tree: SelectBlock) -> list[str]:
        block, _ = bind(self.db, tree)
        places = first_set(self.db, block)
        if places is None:
            return [Numbered("none")]
        names = [(place.atom + 1, self.db.tables[block.tables[place.atom]].names[place.column]) for place in places]
        return [Numbered(f"needs atom {atom} column {column}") for atom, column in names] + self.ok(f" {len(names)} columns")


# ---- whole scripts


def run_script(desk: Desk, script: str) -> tuple[str, int]:
    """What is written for a script, and its status. Queries that are open at its end are dropped."""
    reports = [desk.report(piece) for piece in pieces_of(script)]
    desk.open, desk.made = {}, {}
    return "".join(text_of(number, report) for number, report in enumerate(reports, 1)), int(any(map(is_refusal, reports)))
