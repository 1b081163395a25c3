"""Drawn scripts whose texts hold line feeds, quotes and lines that look like reports, with what is known of each report."""
import random
import sys

from .place import TOP
from .second_program.database import quoted

sys.path.insert(0, str(TOP / "examples"))
from read_reports import Report

WHOLE, GROUP = 200, 3
SEPARATORS = [" ", " ", " ", "\n", "\t", "\r\n", " -- it's; a \"comment\"\n", "\f"]
BETWEEN = [";\n", ";", " ;\n\n", ";\n-- 3 ok; isn't\n", ";;\n;", "\n;--\n--'\n"]
ODD = ["", "x", "'", '"', ",", "--", ";", "\r", "plan block 1", "plan answer 1", "é", "a,b", '"a', "it's", "(", "b", "a"]
Known = tuple[object, ...]


class Drawn:
    """A script, and what is known of each of its statements: its lines, and its report but for the place where it ends."""

    def __init__(self, seed: str) -> None:
        self.draw = random.Random(seed)
        self.script, self.known = "", list[Known]()
        self.rows: dict[str, list[tuple[str, int]]] = {"t": [], "u": []}
        for table in self.rows:
            self.say(f"CREATE TABLE {table} ( a TEXT , b INTEGER )".split(), self.report("ok"))
            self.say(f"CREATE ACCESS {table}w ON {table} ( ) FETCH ( a , b ) LIMIT {WHOLE}".split(), self.report("ok"))
            self.say(f"CREATE ACCESS {table}k ON {table} ( a ) FETCH ( b ) LIMIT {GROUP}".split(), self.report("ok"))
        turns = [self.insert, self.insert, self.insert, self.load, self.whole, self.one_column, self.one_column, self.of_key, self.explain]
        turns += [self.in_turns, self.discover, self.specialise, self.grouped, self.delete, self.odd]
        for _ in range(self.draw.randint(10, 40)):
            self.draw.choice(turns)()

    # ---- pieces

    @property
    def number(self) -> int:
        return len(self.known) + 1

    def report(self, outcome: str, **more: object) -> Report:
        return Report(self.number, outcome, 0)._replace(**more)  # type: ignore[arg-type]

    def say(self, tokens: list[str], report: Report) -> None:
        """A statement of these tokens, and what it gives."""
        text = tokens[0] + "".join(self.draw.choice(SEPARATORS) + token for token in tokens[1:])
        self.script += self.draw.choice(["", "", "\n", " -- x;\n"])
        first = self.script.count("\n") + 1
        self.script += text
        self.known.append((first, first + text.count("\n"), report))
        self.script += self.draw.choice(BETWEEN)

    def text(self) -> str:
        return self.draw.choice(["\n", "\n", ",", "\r\n"]).join(self.line() for _ in range(self.draw.choice([1, 1, 1, 2, 3])))

    def line(self) -> str:
        """A line of a text: often one that a report may have, of this statement or of one that comes soon."""
        number, few = self.number + self.draw.randrange(8), self.draw.randrange(4)
        near = [f"{number} ok {few} rows {few + 1} reads", f"{number} ok", f"{number} ok {few} rows", f"{number} bound {few}"]
        near += [f"{number} refused 15 cannot read 'x'", f"{number} refused 12 row 1 breaks tk at key ('", f"{number} open 1 bound 3"]
        return self.draw.choice(near + ODD)

    def table(self) -> str:
        return self.draw.choice("tu")

    def some_text(self, table: str) -> str:
        """Mostly one that is there."""
        there = [text for text, _ in self.rows[table]]
        return self.draw.choice(there) if there and self.draw.random() < 0.8 else self.text()

    def answer(self, bound: int, header: str, rows: list[tuple[object, ...]], reads: int) -> Report:
        records = tuple(tuple(map(str, row)) for row in rows)
        return self.report("answer", bound=bound, rows=len(rows), reads=reads, header=tuple(header.split(",")), records=records)

    # ---- statements

    def insert(self) -> None:
        table = self.table()
        more = [(self.some_text(table), self.draw.randrange(5)) for _ in range(self.draw.randint(1, 3))]
        tokens = f"INSERT INTO {table} VALUES".split()
        for text, number in more:
            tokens += ["(", quoted(text), ",", str(number), ")", ","]
        if len(set(self.rows[table] + more)) <= WHOLE:
            self.say(tokens[:-1], self.inserted(table, more))

    def inserted(self, table: str, more: list[tuple[str, int]]) -> Report:
        """The rows are taken, or the first that breaks the constraint is told with its key."""
        rows = list(self.rows[table])
        for nth, row in enumerate(more, 1):
            rows.append(row)
            if len({number for text, number in rows if text == row[0]}) > GROUP:
                return self.report("refused", refusal=12, text=f"row {nth} breaks {table}k at key ({quoted(row[0])})")
        self.rows[table] = rows
        return self.report("ok", rows=len(more), text=f"{len(more)} rows")

    def load(self) -> None:
        name = quoted(self.text() + "none")
        self.say(["LOAD", self.table(), "FROM", name], self.report("refused", refusal=15, text=f"cannot read {name}"))

    def sorted_rows(self, table: str) -> list[tuple[str, int]]:
        return sorted(set(self.rows[table]), key=lambda row: (row[0].encode(), row[1]))

    def whole(self) -> None:
        table = self.table()
        rows = self.sorted_rows(table)
        self.say(f"SELECT DISTINCT a , b FROM {table}".split(), self.answer(WHOLE, "a,b", rows, max(1, len(rows))))

    def one_column(self) -> None:
        """The answers whose texts may look like their ends."""
        table = self.table()
        texts = sorted({(text,) for text, _ in self.rows[table]}, key=lambda row: row[0].encode())
        reads = max(1, len(set(self.rows[table])))
        self.say(f"SELECT DISTINCT a FROM {table}".split(), self.answer(WHOLE, "a", texts, reads))

    def of_key(self) -> None:
        table = self.table()
        text = self.some_text(table)
        found = [row for row in self.sorted_rows(table) if row[0] == text]
        tokens = [*f"SELECT DISTINCT * FROM {table} WHERE a =".split(), quoted(text)]
        self.say(tokens, self.answer(GROUP, "a,b", found, max(1, len(found))))

    def explain(self) -> None:
        table = self.table()
        step = f"plan 1.1 atom 1 {table} by {table}k limit {GROUP} adds cost {GROUP} size {GROUP}"
        tokens = [*f"EXPLAIN SELECT DISTINCT b FROM {table} WHERE a =".split(), quoted(self.text())]
        self.say(tokens, self.report("plan", bound=GROUP, lines=("plan block 1", step, "plan answer 1")))

    def in_turns(self) -> None:
        """A query of a session, which is answered over the rows of its opening."""
        table = self.table()
        rows = self.sorted_rows(table)
        self.say(f"@ 3 SELECT DISTINCT a , b FROM {table}".split(), self.report("open", bound=WHOLE, text=f"3 bound {WHOLE}"))
        self.insert()
        self.say(["@3", "STEP"], self.report("probed", text="3"))
        self.insert()
        self.say(["@", "003", "STEP"], self.answer(WHOLE, "a,b", rows, max(1, len(rows))))

    def discover(self) -> None:
        table = self.table()
        most = [self.greatest(table, key) for key in (0, 1)]
        pairs = [f"pair {names} {many}" for names, many in zip(("a b", "b a"), most) if many <= 9]
        self.say(f"DISCOVER {table} LIMIT 9".split(), self.report("ok", text=f"{len(pairs)} pairs", lines=tuple(pairs)))
        self.say(f"DISCOVER {table} ( a ) FETCH ( b )".split(), self.report("max", text=str(most[0])))

    def greatest(self, table: str, key: int) -> int:
        groups: dict[object, set[object]] = {}
        for row in self.rows[table]:
            groups.setdefault(row[key], set()).add(row[1 - key])
        return max(map(len, groups.values()), default=0)

    def specialise(self) -> None:
        self.say(f"SPECIALISE SELECT DISTINCT b FROM {self.table()}".split(), self.report("ok", text="0 columns"))

    def grouped(self) -> None:
        """Texts that come in the order of another column, and may come twice."""
        table = self.table()
        groups: dict[int, list[bytes]] = {}
        for text, number in self.rows[table]:
            groups.setdefault(number, []).append(text.encode())
        rows = [(min(groups[number]).decode(),) for number in sorted(groups)]
        tokens = f"SELECT MIN ( a ) FROM {table} GROUP BY b".split()
        self.say(tokens, self.answer(WHOLE, "min(a)", rows, max(1, len(set(self.rows[table])))))

    def delete(self) -> None:
        table = self.table()
        text = self.some_text(table)
        kept = [row for row in self.rows[table] if row[0] != text]
        gone = len(self.rows[table]) - len(kept)
        self.rows[table] = kept
        self.say(["DELETE", "FROM", table, "WHERE", "a", "=", quoted(text)], self.report("ok", rows=gone, text=f"{gone} rows"))

    def odd(self) -> None:
        self.say([self.draw.choice(["é", "SELECT", "1", "'a\n2 ok'", "- -"])], self.report("refused", refusal=1, text="syntax"))
