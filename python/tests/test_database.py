"""What a database gives for each kind of statement, and each way to be refused."""
import dataclasses
import gc
import pickle
import re
import resource
import signal
import threading
import unittest
import warnings
from collections.abc import Iterator
from types import FrameType

from support import CARDS, CARDS_OF_7, IS_TRUE, STAND_IN, Case, use_a_library

import beas
from beas import _library
from beas._refusals import CLASSES

from lib.place import read

# for each number a script that makes what the statement needs, the statement, and the text
REFUSALS: dict[int, tuple[str, str, str]] = {
    1: ("", "SELECT", "syntax"),
    2: ("", "(" * 33, "nesting deeper than 32"),
    3: ("", "CREATE TABLE cards (a TEXT)", "table cards exists"),
    4: ("", "SELECT DISTINCT a FROM r", "unknown table r"),
    5: ("", "SELECT DISTINCT a FROM cards", "unknown column a"),
    6: ("", "SELECT DISTINCT card FROM cards a, cards b", "ambiguous column card"),
    7: ("", "CREATE TABLE t (a TEXT, a TEXT)", "duplicate name a"),
    8: ("", "INSERT INTO cards VALUES (1, 'x', 'y')", "type mismatch in row 1 column card"),
    9: ("", "SELECT card FROM cards UNION SELECT holder FROM cards", "shape mismatch at block 2"),
    10: ("", "CREATE ACCESS x ON cards (card) FETCH (holder) LIMIT 0", "limit 0 not between 1 and 4294967295"),
    11: ("", "CREATE ACCESS x ON cards (account) FETCH (card) LIMIT 1", "greatest group 2 above limit 1"),
    12: ("", "INSERT INTO cards VALUES (7, 1, ''), (7, 2, '')", "row 2 breaks cards_of at key (7)"),
    13: ("", "INSERT INTO cards VALUES (7)", "row 1 has 1 values, 3 wanted"),
    14: ("", "DELETE FROM cards WHERE card = 9223372036854775808", "number 9223372036854775808 out of range"),
    15: ("", "LOAD cards FROM 'it''s'", "cannot read 'it''s'"),
    16: ("", "LOAD cards FROM 'field'", "record 1 column card bad field"),
    17: ("", "LOAD cards FROM 'record'", "record 1 has 1 fields, 3 wanted"),
    18: ("", "LOAD cards FROM 'header'", "header mismatch"),
    19: ("", "SELECT DISTINCT account FROM cards WHERE card = 1", "not covered: block 1 atom 1 column account"),
    20: ("CREATE TABLE w (a INTEGER, b INTEGER); CREATE ACCESS ab ON w (a) FETCH (b) LIMIT 4294967295",
         "SELECT DISTINCT e.b FROM w a, w b, w c, w d, w e WHERE a.a = 1 AND a.b = b.a AND b.b = c.a AND c.b = d.a AND d.b = e.a",
         "bound past 128 bits"),
    21: ("CREATE TABLE w (a INTEGER, b INTEGER); CREATE ACCESS ab ON w (a) FETCH (b) LIMIT 101",
         "SELECT DISTINCT b FROM w WHERE a = 1", "bound 101 above budget 100"),
    22: ("", "SELECT DISTINCT a.card FROM " + ", ".join(f"cards {it}" for it in "abcdefghijklmnopq"), "too many atoms, limit 16"),
    23: ("", "SELECT card FROM cards WHERE account = 7", "DISTINCT wanted"),
    25: ("", "DROP ACCESS x", "unknown constraint x"),
    26: ("", f"DELETE FROM cards WHERE holder = '{65536 * 'a'}'", "text longer than 65535 bytes"),
    27: ("", "SELECT account, card FROM cards WHERE account = 7 GROUP BY account", "column card not grouped"),
    28: ("", "SELECT account, SUM(DISTINCT holder) FROM cards WHERE account = 7 GROUP BY account", "sum of text column holder"),
    29: ("CREATE TABLE m (" + ", ".join(f"c{it} INTEGER" for it in range(17)) + ")",
         "SPECIALISE SELECT DISTINCT " + ", ".join(f"c{it}" for it in range(17)) + " FROM m", "17 candidate columns, limit 16"),
    30: ("", "@65 STEP", "session 65 not between 1 and 64"),
    31: (f"@1 {CARDS_OF_7}", "@1 DROP ACCESS cards_of", "session 1 has an open query"),
    32: ("", "@1 STEP", "session 1 has no open query"),
}
FILES = {"field": b"account,card,holder\n1,x,y\n", "record": b"account,card,holder\n1\n", "header": b"account\n"}


def is_within_the_stand_in(frame: FrameType | None) -> bool:
    while frame:
        if frame.f_code.co_filename.endswith("stand_in.py"):
            return True
        frame = frame.f_back
    return False


class Reports(Case):
    def test_each_kind(self) -> None:
        db = self.database(explain=True)
        for statement, wanted in [
            ("CREATE TABLE r (a INTEGER, b TEXT)", beas.Ok(1)),
            ("CREATE ACCESS ab ON r (a) FETCH (b) LIMIT 5;", beas.Ok(2)),
            ("INSERT INTO r VALUES (1, 'x'), (1, 'y'), (2, 'x')", beas.Changed(3, 3)),
            ("DELETE FROM r WHERE a = 2", beas.Changed(4, 1)),
            ("DISCOVER r (a) FETCH (b)", beas.Greatest(5, 2)),
            ("DISCOVER r LIMIT 2", beas.Pairs(6, (beas.Pair("a", "b", 2), beas.Pair("b", "a", 1)))),
            ("DISCOVER r LIMIT 1", beas.Pairs(7, (beas.Pair("b", "a", 1),))),
            ("SPECIALISE SELECT DISTINCT b FROM r", beas.Specialised(8, (beas.Place(1, "a"),))),
            ("SPECIALISE SELECT DISTINCT b FROM r WHERE a = 1", beas.Specialised(9, ())),
            ("@64 SELECT DISTINCT b FROM r WHERE a = 3", beas.Opened(10, 64, 5)),
            ("@64 STEP", beas.Probed(11, 64)),
            ("DROP ACCESS ab", beas.Ok(12)),
            ("SPECIALISE SELECT DISTINCT b FROM r", beas.Specialised(13, None)),
        ]:
            self.assertEqual(wanted, db.say(statement))
            self.assertEqual(wanted.written, db.report_text())
        report = db.say("@64 STEP")
        assert isinstance(report, beas.Answer)
        self.assertEqual((5, 1, ("b",), [], 0), (report.bound, report.reads, report.columns, report.rows, len(report)))

    def test_explained(self) -> None:
        db = self.database(CARDS)
        report = db.say(f"EXPLAIN {CARDS_OF_7}")
        plan = ("plan block 1", "plan 1.1 atom 1 cards by cards_of limit 3 adds cost 3 size 3", "plan answer 1")
        self.assertEqual(beas.Explained(4, 3, plan), report)
        self.assertEqual(beas.Price(3, plan), db.price(CARDS_OF_7))
        self.assertEqual((), db.query(CARDS_OF_7).plan)
        db.explain = True
        self.assertEqual(plan, db.query(CARDS_OF_7).plan)
        self.assertTrue(db.explain)

    def test_answers(self) -> None:
        db = self.database(CARDS)
        answer = db.query(CARDS_OF_7)
        self.assertEqual((("card", "holder"), 3, 2, 2), (answer.columns, answer.bound, answer.reads, len(answer)))
        self.assertEqual([(4111, "Ann"), (4222, "O'Hara")], answer.rows)
        self.assertEqual(answer.rows, list(answer))
        self.assertEqual([4111, 4222], list(answer.column("card")))
        self.assertEqual(["Ann", "O'Hara"], answer.column(1))
        with self.assertRaises(ValueError):
            answer.column("account")
        self.assertEqual([("é, \"e\"",)], db.query("SELECT DISTINCT holder FROM cards WHERE account = ?", (8,)).rows)
        self.assertEqual(answer, pickle.loads(pickle.dumps(answer)))

    def test_groups(self) -> None:
        db = self.database("CREATE TABLE r (a INTEGER, b INTEGER, c TEXT); CREATE ACCESS abc ON r (a) FETCH (b, c) LIMIT 9")
        most = 2**63 - 1
        db.load("r", [(1, most, "x"), (1, most - 1, "y"), (1, -5, "y")])
        query = "SELECT a, COUNT(DISTINCT b), SUM(DISTINCT b), MIN(c), MAX(b) FROM r WHERE a = 1 GROUP BY a"
        answer = db.query(query)
        self.assertEqual([(1, 3, 2 * most - 6, "x", most)], answer.rows)
        self.assertEqual(("a", "count(b)", "sum(b)", "min(c)", "max(b)"), answer.columns)
        db.run("DELETE FROM r; INSERT INTO r VALUES (1, -9223372036854775808, ''), (1, -9223372036854775807, '')")
        self.assertEqual(-(2**64) + 1, db.query(query).rows[0][2])

    def test_cells_one_by_one(self) -> None:
        db = self.database("CREATE TABLE r (a INTEGER, b INTEGER, c TEXT); CREATE ACCESS abc ON r (a) FETCH (b, c) LIMIT 9")
        db.load("r", [(1, 2**63 - 1, "x"), (1, 5, "é" * 3000), (1, -5, "")])
        for query in ("SELECT DISTINCT * FROM r WHERE a = 1", "SELECT a, COUNT(DISTINCT b), SUM(DISTINCT b), MAX(c) FROM r WHERE a = 1 GROUP BY a"):
            answer = db.query(query)
            cells = [tuple(db._last.cell(row, column) for column in range(len(answer.columns))) for row in range(len(answer))]
            self.assertEqual(answer.rows, cells)

    def test_long_texts(self) -> None:
        """Longer than the room for short ones: texts of cells, names, plans, refusals."""
        db = self.database("CREATE TABLE r (a INTEGER, b TEXT); CREATE ACCESS ab ON r (a) FETCH (b) LIMIT 9")
        texts = ["", "a" * 4096, "a" * 4097, "é" * 4096, "z" * 65535]
        db.load("r", [(1, text) for text in texts])
        self.assertEqual([(text,) for text in sorted(texts, key=str.encode)], db.query("SELECT DISTINCT b FROM r WHERE a = 1").rows)
        self.assertEqual("b" * 5000, self.refused(db, f"LOAD r FROM '{'b' * 5000}'").text[13:-1])
        query = " UNION ".join(["SELECT b FROM r WHERE a = 1"] * 60)
        self.assertEqual(60 * 2 + 1, len(db.price(query).plan))
        self.assertEqual(540, db.price(query).bound)

    def test_great_bounds(self) -> None:
        db = self.database("CREATE TABLE w (a INTEGER, b INTEGER); CREATE ACCESS ab ON w (a) FETCH (b) LIMIT 4294967295")
        most = 2**32 - 1
        query = "SELECT DISTINCT d.b FROM w a, w b, w c, w d WHERE a.a = 1 AND a.b = b.a AND b.b = c.a AND c.b = d.a"
        self.assertEqual(most + most**2 + most**3 + most**4, db.price(query).bound)
        self.assertEqual(db.price(query).bound, db.query(query).bound)

    def test_scripts(self) -> None:
        db = self.database()
        reports = db.run("DROP ACCESS a;\n\n CREATE TABLE t (a TEXT);", refusals=True)
        self.assertEqual(["1 refused 25 unknown constraint a\n", "2 ok\n"], [it.written for it in reports])
        with self.assertRaises(beas.TableExists) as caught:
            db.run("INSERT INTO t VALUES ('x');\n CREATE TABLE t (a TEXT); CREATE TABLE u (a TEXT)")
        self.assertEqual((4, 2), (caught.exception.statement, caught.exception.line))
        self.assertEqual(["t"], list(db.tables))
        self.assertEqual([], db.run(" ; -- nothing"))


class Refusals(Case):
    def test_each(self) -> None:
        for number, (before, statement, text) in REFUSALS.items():
            with self.subTest(number):
                db = self.database(CARDS + before)
                db.budget = 100
                for name, content in FILES.items():
                    db.add_file(name, content)
                why = self.refused(db, statement)
                self.assertEqual((number, text), (why.number, why.text))
                self.assertIs(CLASSES[number], type(why))
                self.assertEqual(why.written, db.report_text())
                self.assertIn(text, str(why))

    def test_file_too_long(self) -> None:
        db = self.database("CREATE TABLE t (a TEXT)")
        db.add_file("f", b"a\n" * (2**25 + 1))
        why = self.refused(db, "LOAD t FROM 'f'")
        self.assertEqual((24, "file longer than 67108864 bytes"), (why.number, why.text))

    def test_classes_are_the_engines(self) -> None:
        body = read("crates/beas_core/src/refusal.rt").partition("match self {")[2]
        found = {int(number): names for names, number in re.findall(r"((?:Refusal::\w+[^=]*))=> (\d+),", body)}
        self.assertEqual(list(range(1, 33)), sorted(found))
        self.assertEqual(sorted(found), sorted(CLASSES))
        for number, kind in CLASSES.items():
            names = re.findall(r"Refusal::(\w+)", found[number])
            self.assertTrue(kind.__name__ in names or (number, kind) == (8, beas.TypeMismatch), kind)
            self.assertIs(kind, getattr(beas, kind.__name__))

    def test_a_refusal_changes_nothing_and_goes_into_a_pickle(self) -> None:
        db = self.database(CARDS)
        why = self.refused(db, "INSERT INTO cards VALUES (7, 1, ''), (7, 2, '')")
        self.assertEqual(2, len(db.query(CARDS_OF_7)))
        copy = pickle.loads(pickle.dumps(why))
        self.assertEqual((type(why), why.written), (type(copy), copy.written))

    def test_price_is_refused_as_a_query(self) -> None:
        db = self.database(CARDS, budget=2)
        self.assertEqual(3, db.price(CARDS_OF_7).bound)
        with self.assertRaises(beas.OverBudget):
            db.query(CARDS_OF_7)
        with self.assertRaises(beas.NotCovered):
            db.price("SELECT DISTINCT account FROM cards WHERE card = 1")
        self.assertEqual(3, db.price(f"@1 {CARDS_OF_7}").bound)
        for kind, statement in [(beas.Syntax, "SELECT"), (beas.Syntax, "STEP"), (beas.BadSession, f"@65 {CARDS_OF_7}"), (beas.BadSession, "@0 STEP")]:
            with self.assertRaises(kind):
                db.price(statement)
        db.budget = None
        self.assertEqual(2, len(db.query(CARDS_OF_7)))
        self.assertIsNone(db.budget)


class Errors(Case):
    def test_statuses(self) -> None:
        db = self.database(CARDS)
        for kind, statement in [
            (beas.NoStatement, ""),
            (beas.NoStatement, " -- nothing"),
            (beas.SeveralStatements, "DROP ACCESS a; DROP ACCESS b"),
            (beas.NotText, "DROP ACCESS '\ud800'"),
            (beas.TooLong, "-" * 16_777_217),
        ]:
            with self.subTest(kind), self.assertRaises(kind):
                db.say(statement)
            with self.subTest(kind), self.assertRaises(kind):
                db.price(statement)
        others = ["@1 STEP", "DROP ACCESS cards_of", f"EXPLAIN {CARDS_OF_7}", f"SCAN OK {CARDS_OF_7}"]
        for statement in (*others, "SELECT account FROM cards WHERE account = 7 GROUP BY account"):
            with self.subTest(statement), self.assertRaises(beas.NotAQuery):
                db.price(statement)
        for statement in ("DROP ACCESS cards_of", f"EXPLAIN {CARDS_OF_7}", f"@1 {CARDS_OF_7}", "", "INSERT INTO cards VALUES (1, 2, '')"):
            with self.subTest(statement), self.assertRaises(beas.NotAQuery):
                db.query(statement)
        self.assertEqual(2, len(db.query(CARDS_OF_7)))

    def test_closed(self) -> None:
        db = self.database(CARDS)
        session = db.session()
        db.close()
        db.close()
        session.close()
        for call in (lambda: db.say(CARDS_OF_7), lambda: db.query(CARDS_OF_7), lambda: db.price(CARDS_OF_7),
                     lambda: db.plan(CARDS_OF_7), lambda: db.run("DROP ACCESS a"), lambda: db.load("cards", []),
                     lambda: db.add_file("a", b""), db.report_text, lambda: setattr(db, "budget", 5)):
            with self.assertRaises(beas.Closed):
                call()
        self.assertEqual([], db.run(""))

    def test_the_block_closes(self) -> None:
        with self.assertRaises(ZeroDivisionError), beas.Database() as db:
            db.say(str(1 // 0))
        with self.assertRaises(beas.Closed):
            db.say("DROP ACCESS a")

    def test_other_threads(self) -> None:
        db, errors = self.database(CARDS), list[BaseException]()

        def ask() -> None:
            for call in (lambda: db.query(CARDS_OF_7), db.close, db.report_text):
                try:
                    call()
                except beas.WrongThread as why:
                    errors.append(why)

        thread = threading.Thread(target=ask)
        thread.start()
        thread.join()
        self.assertEqual(3, len(errors))
        self.assertEqual(2, len(db.query(CARDS_OF_7)))

    def test_not_closed(self) -> None:
        db = beas.Database()
        with self.assertWarns(ResourceWarning):
            del db
            gc.collect()

    def test_wrong_words(self) -> None:
        for words in ({"budget": -1}, {"budget": 2**64}):
            with self.assertRaises(beas.BadValue):
                beas.Database(**words)  # type: ignore[arg-type]
        for limits in (beas.Limits(tables=1025), beas.Limits(rows=0), beas.Limits(text=-1), beas.Limits(file=2**64)):
            with self.assertRaises(beas.LimitTooGreat):
                beas.Database(limits=limits)

    def test_limits(self) -> None:
        db = self.database(limits=beas.Limits(tables=1, columns=2, rows=3, constraints=1, atoms=2, blocks=2, outputs=2))
        db.run("CREATE TABLE t (a INTEGER, b INTEGER); CREATE ACCESS ab ON t (a) FETCH (b) LIMIT 9; INSERT INTO t VALUES (1, 2), (1, 3)")
        for statement, wanted in [
            ("CREATE TABLE u (a TEXT)", "tables, limit 1"),
            ("INSERT INTO t VALUES (1, 4), (1, 5)", "rows, limit 3"),
            ("CREATE ACCESS ba ON t (b) FETCH (a) LIMIT 9", "constraints, limit 1"),
            ("SELECT DISTINCT x.a FROM t x, t y, t z", "atoms, limit 2"),
            ("SELECT DISTINCT a, b, a FROM t WHERE a = 1", "outputs, limit 2"),
            ("SELECT a FROM t UNION SELECT a FROM t UNION SELECT a FROM t", "blocks, limit 2"),
        ]:
            why = self.refused(db, statement)
            self.assertEqual((22, f"too many {wanted}"), (why.number, why.text))

    @unittest.skipIf(IS_TRUE, "only the stand-in runs out of memory when it is told to")
    def test_memory(self) -> None:
        db = self.database(CARDS)
        STAND_IN.fails_after = 0
        try:
            with self.assertRaises(beas.NoMemory):
                db.query(CARDS_OF_7)
            with self.assertRaises(MemoryError):
                db.run(CARDS_OF_7)
        finally:
            STAND_IN.fails_after = None
        self.assertEqual(2, len(db.query(CARDS_OF_7)))

    def test_no_library(self) -> None:
        try:
            with self.assertRaises(beas.NoLibrary):
                _library.load("/nowhere/libbeas.so")
            with self.assertRaises(beas.NoLibrary):
                _library.load("libc.so.6")
        finally:
            use_a_library()

    def test_interrupts(self) -> None:
        """A handler of a signal that uses the database is refused while a report is read; one that raises leaves the database in order."""
        db = self.database(CARDS)
        db._is_busy = True
        with self.assertRaises(beas.InUse):
            db.query(CARDS_OF_7)
        with self.assertRaises(beas.InUse):
            db.close()
        db._is_busy = False

        def interrupt(number: int, frame: FrameType | None) -> None:
            """As Python does, but not within the stand-in, since no handler runs within the true library."""
            if is_within_the_stand_in(frame):
                signal.setitimer(signal.ITIMER_REAL, 0.00003)
            else:
                raise KeyboardInterrupt

        before = signal.signal(signal.SIGALRM, interrupt)
        self.addCleanup(signal.signal, signal.SIGALRM, before)
        self.addCleanup(signal.setitimer, signal.ITIMER_REAL, 0)
        for nth in range(200):
            with self.assertRaises(KeyboardInterrupt):
                signal.setitimer(signal.ITIMER_REAL, 0.00002 + nth * 0.000007)
                while True:
                    db.query(CARDS_OF_7)
            self.assertEqual([(4111, "Ann"), (4222, "O'Hara")], db.query(CARDS_OF_7).rows)


class Rows(Case):
    def test_load(self) -> None:
        db = self.database("CREATE TABLE t (n INTEGER, s TEXT); CREATE ACCESS a ON t () FETCH (n, s) LIMIT 5000")
        rows = [(nth, text) for nth, text in enumerate(["", '"', "a,b", "a\nb", "a\r\nb", "'", "é", "\x00", " x ", "\ufeff"])]
        self.assertEqual(beas.Changed(3, 10), db.load("T", iter(rows)))
        self.assertEqual(rows, db.query("SELECT DISTINCT * FROM t").rows)
        self.assertEqual(2000, db.load("t", ((nth, str(nth)) for nth in range(2000, 4000))).rows)
        self.assertEqual(0, db.load("t", []).rows)
        self.assertEqual(1, db.load("t", [(True, "True")]).rows)
        self.assertEqual([(0, ""), (1, '"'), (1, "True")], db.query("SELECT DISTINCT * FROM t WHERE n < 2").rows)

    def test_one_column_of_text(self) -> None:
        db = self.database("CREATE TABLE t (s TEXT); CREATE ACCESS a ON t () FETCH (s) LIMIT 9")
        self.assertEqual(2, db.load("t", [("",), ("x",)]).rows)
        self.assertEqual([("",), ("x",)], db.query("SELECT DISTINCT s FROM t").rows)

    def test_wrong_rows(self) -> None:
        db = self.database("CREATE TABLE t (n INTEGER, s TEXT); CREATE ACCESS a ON t () FETCH (n, s) LIMIT 3")

        def rows(last: object) -> Iterator[tuple[object, ...]]:
            yield (1, "x")
            yield last  # type: ignore[misc]

        for last, wanted in [((1,), "row 2 has 1 values, 2 wanted"), ((1, 2), "row 2: column s"), (("1", "x"), "row 2: column n"),
                             ((2**63, "x"), "64 bits"), ((None, "x"), "column n"), ((1.0, "x"), "column n")]:
            with self.assertRaisesRegex(beas.BadValue, wanted):
                db.load("t", rows(last))  # type: ignore[arg-type]
        with self.assertRaises(beas.NotText):
            db.load("t", [(1, "\ud800")])
        self.assertEqual(1, db.load("t", [(1, 65_535 * "a")]).rows)
        with self.assertRaises(beas.BadField):
            db.load("t", [(2, 65_536 * "a")])
        db.say("DELETE FROM t")
        with self.assertRaises(beas.BadValue):
            db.load("t; DROP ACCESS a", [])
        with self.assertRaises(beas.UnknownTable):
            db.load("u", [])
        with self.assertRaises(beas.BreaksBound) as caught:
            db.load("t", [(nth, "") for nth in range(4)])
        self.assertEqual(0, caught.exception.rows_before)
        self.assertEqual([], db.query("SELECT DISTINCT * FROM t").rows)

    def test_parts(self) -> None:
        """More rows than a file may hold go in by parts."""
        from beas._loading import files_of

        db = self.database("CREATE TABLE t (n INTEGER, s TEXT)")
        rows = [(nth, "a" * (nth % 7)) for nth in range(3000)]
        files = list(files_of(db.tables["t"], rows, 100))
        self.assertEqual(3000, sum(count for count, _ in files))
        self.assertTrue(all(len(content) <= 100 and content.startswith(b"n,s\n") for _, content in files))
        self.assertEqual(b"".join(content[4:] for _, content in files), next(files_of(db.tables["t"], rows, 10**6))[1][4:])
        self.assertEqual([(1, b"n,s\n7,\"aaa\"\n")], list(files_of(db.tables["t"], [(7, "aaa")], 5)))
        if IS_TRUE:
            limited = self.database("CREATE TABLE t (n INTEGER, s TEXT); CREATE ACCESS a ON t () FETCH (n) LIMIT 2500", limits=beas.Limits(file=1000))
            self.assertEqual(2000, limited.load("t", rows[:2000]).rows)
            with self.assertRaises(beas.BreaksBound) as caught:
                limited.load("t", rows)
            self.assertGreater(caught.exception.rows_before, 1000)

    def test_files(self) -> None:
        import tempfile
        from pathlib import Path

        with tempfile.TemporaryDirectory() as folder:
            path = Path(folder) / "it's.csv"
            path.write_bytes(b"s,n\nx,1\n")
            db = self.database("CREATE TABLE t (n INTEGER, s TEXT)", folder=folder)
            self.assertEqual(1, db.load_file("t", path).rows)
            load = "LOAD t FROM 'it''s.csv'"
            for statement in (load, f"-- a file\n{load};", f"@3 {load}"):
                self.assertEqual(1, getattr(db.say(statement), "rows"))
            self.assertEqual("cannot read 'none.csv'", self.refused(db, "LOAD t FROM 'none.csv'").text)
            self.assertEqual(15, self.refused(db, "LOAD t FROM 'a\x00b'").number)
            path.write_bytes(b"s,n\n")
            self.assertEqual(0, getattr(db.say(load), "rows"))
            path.unlink()
            with self.assertRaises(FileNotFoundError):
                db.say(load)
            with self.assertRaises(FileNotFoundError):
                db.load_file("t", path)
            closed = self.database("CREATE TABLE t (n INTEGER, s TEXT)")
            self.assertEqual(15, self.refused(closed, load).number)

    def test_what_is_there(self) -> None:
        db = self.database(CARDS + "create table \"x\";".replace('create table "x";', ""))
        db.run("@3 Create Access Any_Card ON Cards () FETCH (card) LIMIT 0099; CREATE -- a table\n TABLE T (x TEXT)")
        self.assertEqual((beas.Column("account", False), beas.Column("card", False), beas.Column("holder", True)), db.tables["cards"])
        self.assertEqual(["cards", "t"], list(db.tables))
        self.assertEqual([beas.Constraint("cards_of", "cards", ("account",), ("card", "holder"), 3),
                          beas.Constraint("any_card", "cards", (), ("card",), 99)], db.constraints)
        db.say("DROP ACCESS CARDS_OF")
        self.assertEqual(["any_card"], [it.name for it in db.constraints])
        self.refused(db, "DROP ACCESS cards_of")


class Memory(Case):
    def test_nothing_is_left_behind(self) -> None:
        """Databases that are opened, used and closed, and exceptions out of them, leave no objects behind."""
        def use() -> None:
            with beas.Database() as db:
                db.run(CARDS)
                for _ in range(3):
                    db.query(CARDS_OF_7)
                with self.assertRaises(beas.Refused):
                    db.say("DROP ACCESS x")
                with db.session() as session:
                    session.open(CARDS_OF_7)

        use()
        gc.collect()
        before = len(gc.get_objects())
        for _ in range(20):
            use()
        gc.collect()
        self.assertLess(len(gc.get_objects()) - before, 100)
        if not IS_TRUE:
            self.assertLess(len(STAND_IN.bases), 50)

    def test_memory_of_the_process(self) -> None:
        """Databases that are closed give their memory back, and so do refusals and answers."""
        rows = [(nth % 100, nth) for nth in range(100 if not IS_TRUE else 10_000)]

        def use() -> None:
            with beas.Database() as db:
                db.run("CREATE TABLE r (a INTEGER, b INTEGER); CREATE ACCESS ab ON r (a) FETCH (b) LIMIT 100")
                db.load("r", rows)
                self.assertEqual(len(rows) // 100, len(db.query("SELECT DISTINCT b FROM r WHERE a = 7")))
                with self.assertRaises(beas.NotCovered):
                    db.query("SELECT DISTINCT a FROM r")

        for _ in range(20):
            use()
        before = resource.getrusage(resource.RUSAGE_SELF).ru_maxrss
        for _ in range(100):
            use()
        self.assertLess(resource.getrusage(resource.RUSAGE_SELF).ru_maxrss - before, 20_000)

    def test_no_cycle_holds_a_database(self) -> None:
        gc.disable()
        try:
            with warnings.catch_warnings():
                warnings.simplefilter("ignore", ResourceWarning)
                for _ in range(3):
                    db = beas.Database()
                    db.run(CARDS)
                    there = len(STAND_IN.bases)
                    del db
                    self.assertTrue(IS_TRUE or len(STAND_IN.bases) == there - 1)
        finally:
            gc.enable()

    def test_reports_outlive_their_database(self) -> None:
        with beas.Database() as db:
            db.run(CARDS)
            answer = db.query(CARDS_OF_7)
        self.assertEqual([(4111, "Ann"), (4222, "O'Hara")], answer.rows)
        with self.assertRaises(dataclasses.FrozenInstanceError):
            answer.bound = 4  # type: ignore[misc]


if __name__ == "__main__":
    unittest.main()
