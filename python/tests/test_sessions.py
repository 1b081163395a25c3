"""Sessions: cursors, what leaving drops, and threads with a database each."""
import threading
import unittest

from support import CARDS, CARDS_OF_7, Case

import beas

JOINED = "SELECT DISTINCT b.holder FROM cards a, cards b WHERE a.account = 7 AND b.account = a.account"


class Sessions(Case):
    def test_steps(self) -> None:
        db = self.database(CARDS)
        with db.session() as session:
            cursor = session.open(CARDS_OF_7)
            self.assertEqual((1, 3, None), (session.number, cursor.bound, cursor.answer))
            db.say("DELETE FROM cards")
            self.assertTrue(cursor.step())
            self.assertFalse(cursor.step())
            self.assertFalse(cursor.step())
            self.assertEqual([(4111, "Ann"), (4222, "O'Hara")], cursor.rows)
            assert cursor.answer
            self.assertEqual((2, 3), (cursor.answer.reads, cursor.answer.bound))
            again = session.open(CARDS_OF_7 + " AND card = ?", (4111,))
            self.assertEqual([], list(again))

    def test_two_take_turns(self) -> None:
        db = self.database(CARDS)
        with db.session() as one, db.session() as other:
            self.assertEqual((1, 2), (one.number, other.number))
            cursors = [one.open(JOINED), other.open(CARDS_OF_7)]
            while any([cursor.step() for cursor in cursors]):
                pass
            self.assertEqual([("Ann",), ("O'Hara",)], cursors[0].rows)
            self.assertEqual(2, len(cursors[1].rows))

    def test_leaving_drops_the_query(self) -> None:
        db = self.database(CARDS)
        with self.assertRaises(ZeroDivisionError), db.session(5) as session:
            cursor = session.open(CARDS_OF_7)
            cursor.step()
            1 // 0
        for call in (cursor.step, cursor.run, lambda: session.open(CARDS_OF_7), lambda: session.say("STEP")):
            with self.assertRaises(beas.Closed):
                call()
        session.close()
        self.assertEqual(32, self.refused(db, "@5 STEP").number)
        with db.session(5) as session:
            session.open(CARDS_OF_7)
            with self.assertRaises(beas.SessionBusy):
                session.open(CARDS_OF_7)

    def test_queries_that_are_answered_at_once(self) -> None:
        db = self.database(CARDS)
        with db.session() as session:
            grouped = session.open("SELECT account, COUNT(DISTINCT card) FROM cards WHERE account = 7 GROUP BY account")
            self.assertFalse(grouped.step())
            self.assertEqual(([(7, 2)], 3), (grouped.rows, grouped.bound))
            self.assertEqual(3, len(session.open("SCAN OK SELECT DISTINCT holder FROM cards").rows))
            for statement in ("DROP ACCESS cards_of", "STEP", "", "@2 SELECT DISTINCT card FROM cards"):
                with self.assertRaises(beas.NotAQuery):
                    session.open(statement)
            self.assertEqual(beas.Changed(6, 3), session.say("DELETE FROM cards"))

    def test_all_64(self) -> None:
        db = self.database(CARDS)
        sessions = [db.session() for _ in range(64)]
        self.assertEqual(list(range(1, 65)), [it.number for it in sessions])
        cursors = [it.open(CARDS_OF_7) for it in sessions]
        with self.assertRaises(beas.NoSession):
            db.session()
        sessions[40].close()
        self.assertEqual(41, db.session().number)
        with self.assertRaises(beas.NoSession):
            db.session(7)
        db.say("DELETE FROM cards")
        del cursors[40]
        self.assertTrue(all(len(it.rows) == 2 for it in cursors))
        for number in (0, 65, -1):
            sessions[3].close()
            with self.assertRaises(beas.NoSession):
                db.session(number)

    def test_budget_of_the_opening(self) -> None:
        db = self.database(CARDS, budget=3, explain=True)
        with db.session() as session:
            cursor = session.open(CARDS_OF_7)
            db.budget, db.explain = 1, False
            self.assertEqual(3, len(cursor.run().plan))
            with self.assertRaises(beas.OverBudget):
                session.open(CARDS_OF_7)

    def test_no_statement_between_the_steps_of_another_number(self) -> None:
        db = self.database(CARDS)
        with db.session() as session:
            cursor = session.open(CARDS_OF_7)
            db.say("@1 STEP")
            db.say("@1 STEP")
            with self.assertRaises(beas.SessionIdle):
                cursor.step()


class Threads(Case):
    def test_a_database_each(self) -> None:
        """Databases know nothing of each other, whatever turns their threads take."""
        found: dict[int, list[object]] = {}

        def work(nth: int) -> None:
            with beas.Database(budget=1000) as db:
                db.run("CREATE TABLE r (a INTEGER, b TEXT); CREATE ACCESS ab ON r (a) FETCH (b) LIMIT 50")
                db.load("r", [(at % 10, f"{nth}-{at}") for at in range(100)])
                with db.session() as session:
                    cursor = session.open("SELECT DISTINCT b FROM r WHERE a = 3")
                    db.say("DELETE FROM r WHERE a = 3")
                    rows = cursor.rows
                found[nth] = [rows, [db.query("SELECT DISTINCT b FROM r WHERE a = ?", (a,)).rows for a in range(10)]]

        threads = [threading.Thread(target=work, args=(nth,)) for nth in range(8)]
        for thread in threads:
            thread.start()
        for thread in threads:
            thread.join()
        for nth in range(8):
            texts = [sorted((f"{nth}-{at}",) for at in range(a, 100, 10)) for a in range(10)]
            self.assertEqual([texts[3], [[] if a == 3 else texts[a] for a in range(10)]], found[nth])


if __name__ == "__main__":
    unittest.main()
