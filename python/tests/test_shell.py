"""The shell: lines, tables, completions, statuses, and a prompt at a terminal."""
import functools
import io
import os
import pty
import select
import signal
import subprocess
import sys
import tempfile
import time
import unittest
from array import array
from pathlib import Path

from support import CARDS, CARDS_OF_7, CASES, TOP, Case

import beas
from beas._lexing import Pending
from beas._shell import Shell, main
from beas._tables import table_of

RUN = [sys.executable, "-c", "import sys, support; from beas._shell import main; sys.exit(main())"]
TESTS = str(TOP / "python/tests")


def run(*words: str, given: bytes = b"", folder: str | None = None) -> tuple[int, str, str]:
    """What the shell writes in a process of its own, with its status."""
    around = {**os.environ, "PYTHONPATH": TESTS}
    ran = subprocess.run([*RUN, *words], input=given, capture_output=True, cwd=folder, env=around, timeout=60, check=False)
    return ran.returncode, ran.stdout.decode(), ran.stderr.decode()


class Lines(Case):
    def setUp(self) -> None:
        self.out = io.StringIO()
        self.shell = Shell(self.database(CARDS, folder="."), self.out)

    def told(self, *lines: str) -> str:
        self.out.seek(0)
        self.out.truncate()
        for line in lines:
            self.shell.line(line)
        return self.out.getvalue()

    def test_a_query(self) -> None:
        wanted = "bound 3\ncard | holder\n-----+-------\n4111 | Ann\n4222 | O'Hara\n2 rows, 2 of at most 3 reads\n"
        self.assertEqual(wanted, self.told(f"{CARDS_OF_7};"))
        self.assertEqual(wanted, self.told("SELECT DISTINCT card, holder -- of 7;", "", "FROM cards", "WHERE account = 7; -- the end"))
        self.assertEqual("", self.told("SELECT ';", "-- .help"))
        self.assertTrue(self.shell.pending.is_in_text)
        self.assertIn("syntax", self.told(".quit", "';"))
        self.assertFalse(self.shell.is_over)

    def test_other_statements(self) -> None:
        self.assertEqual("ok\n", self.told("CREATE TABLE t (a TEXT);"))
        self.assertEqual("1 row\n0 rows\n", self.told("INSERT INTO t VALUES ('x'); DELETE FROM t WHERE a = 'y';"))
        self.assertEqual("max 2\n", self.told("DISCOVER cards (account) FETCH (card);"))
        self.assertEqual("pair account card 2\npair account holder 2\npair card account 2\npair card holder 2\npair holder account 1\n"
                         "pair holder card 1\nok 6 pairs\n", self.told("DISCOVER cards LIMIT 2;"))
        self.assertEqual("open 1 bound 3\nprobed 1\n", self.told(f"@1 {CARDS_OF_7};@1 STEP;"))
        self.assertFalse(self.shell.has_refused)
        self.assertEqual("refused (19): not covered: block 1 atom 1 column account\n", self.told("SELECT DISTINCT account FROM cards;"))
        self.assertTrue(self.shell.has_refused)
        grouped = self.told("SELECT account, COUNT(DISTINCT card) FROM cards WHERE account = 7 GROUP BY account;")
        self.assertEqual("account | count(card)\n--------+------------\n      7 |           2\n1 row, 2 of at most 3 reads\n", grouped)

    def test_lines_for_the_shell(self) -> None:
        self.assertEqual("cards (account INTEGER, card INTEGER, holder TEXT)\n", self.told(".tables"))
        self.assertEqual("cards_of ON cards (account) FETCH (card, holder) LIMIT 3\n", self.told(".constraints"))
        self.assertEqual("bound 3\nplan block 1\nplan 1.1 atom 1 cards by cards_of limit 3 adds cost 3 size 3\nplan answer 1\n",
                         self.told(f".price {CARDS_OF_7};"))
        self.assertEqual("budget off\nbudget 2\nbudget 2\nbudget off\n", self.told(".budget", ".budget 2", ".budget", ".budget off"))
        self.assertEqual("budget 2\nrefused (21): bound 3 above budget 2\n", self.told(".budget 2", f"{CARDS_OF_7};"))
        self.assertIn("explain on\nbudget 3\nbound 3\nplan block 1\n", self.told(".explain on", ".budget 3", f"{CARDS_OF_7};"))
        self.assertIn(".price QUERY", self.told(".help"))
        wrong = [".nothing", ".price DROP ACCESS x", ".price SELECT", ".load x", ".load /none t", ".budget x", ".budget -1"]
        for line in (*wrong, ".explain x", ".read /none"):
            self.assertEqual(1, self.told(line).count("\n"), line)
        self.told(".quit")
        self.assertTrue(self.shell.is_over)

    def test_files(self) -> None:
        with tempfile.TemporaryDirectory() as folder:
            (Path(folder) / "a b.csv").write_bytes(b"holder,card,account\nEve,1,9\n")
            (Path(folder) / "s.beas").write_bytes(b"DROP ACCESS cards_of; DROP ACCESS x")
            self.assertEqual("1 row\n", self.told(f".load {folder}/a b.csv cards"))
            self.assertEqual("ok\nrefused (25): unknown constraint x\n", self.told(f".read {folder}/s.beas"))
            self.assertEqual("statement 7 refused (4): unknown table none\n", self.told(f".load {folder}/a b.csv none"))

    def test_completions(self) -> None:
        self.assertEqual([".price"], self.shell.completions(".p", ".p"))
        self.assertEqual(["SELECT"], self.shell.completions("SEL", "SEL"))
        self.assertEqual(["select"], self.shell.completions("sel", "(sel"))
        self.assertEqual(["card", "cards", "cards_of"], self.shell.completions("car", "SELECT DISTINCT car"))
        self.assertIn("holder", self.shell.completions("", ".price SELECT DISTINCT "))

    def test_pending(self) -> None:
        pending = Pending()
        self.assertEqual([], pending.more("A 'b\n"))
        self.assertEqual([], pending.more("\n"))
        self.assertEqual([], pending.more("--;''\n"))
        self.assertEqual([], pending.more("' -- ';\n"))
        self.assertFalse(pending.is_in_text)
        self.assertEqual(["A 'b\n\n--;''\n'", "C"], [it.text for it in pending.more(";C;\n")])
        self.assertTrue(pending.is_empty)

    def test_tables(self) -> None:
        answer = beas.Answer(1, 3, 2, ("a", "long name"), (array("q", [-7, 12345]), ["é\u0301", "日本"]), 2, ())
        self.assertEqual("a     | long name\n------+----------\n   -7 | é\u0301\n12345 | 日本\n", table_of(answer))
        self.assertEqual("a\n-\n", table_of(beas.Answer(1, 3, 2, ("a",), (list[int](),), 0, ())))


class Words(Case):
    def test_scripts(self) -> None:
        output = (CASES / "cards/output").read_bytes().decode()
        script = (CASES / "cards/script.beas").read_bytes()
        status = int((CASES / "cards/status").read_text())
        self.assertEqual((status, output, ""), run(given=script))
        self.assertEqual((status, output, ""), run(str(CASES / "cards/script.beas")))
        self.assertEqual((0, "1 ok\n", ""), run("-c", "CREATE TABLE t (a TEXT)"))
        self.assertEqual((0, "ok\n", ""), run("-c", "CREATE TABLE t (a TEXT)", "--tables"))
        self.assertEqual((0, "", ""), run("-c", ""))

    def test_words(self) -> None:
        self.assertIn("4 refused 21 bound 3 above budget 2\n", run("--budget", "2", "-c", CARDS + CARDS_OF_7)[1])
        self.assertIn("4 bound 3\nplan block 1\n", run("--explain", "-c", CARDS + CARDS_OF_7)[1])
        for words in (["--budget", "-1"], ["--budget", "x"], ["-c", "", "file"], ["--none"]):
            self.assertEqual(2, run(*words)[0])
        self.assertEqual(3, run("/nowhere")[0])
        self.assertEqual((7, ""), run(given=b"\xff")[:2])

    def test_loads_are_from_the_folder(self) -> None:
        with tempfile.TemporaryDirectory() as folder:
            (Path(folder) / "t.csv").write_bytes(b"a\nx\n")
            status, out, _ = run("-c", "CREATE TABLE t (a TEXT); LOAD t FROM 't.csv'; LOAD t FROM 'u.csv'", folder=folder)
            self.assertEqual((1, "1 ok\n2 ok 1 rows\n3 refused 15 cannot read 'u.csv'\n"), (status, out))

    def test_a_closed_pipe(self) -> None:
        around = {**os.environ, "PYTHONPATH": TESTS}
        ran = subprocess.Popen([*RUN, "-c", "DROP ACCESS a;" * 5_000], stdout=subprocess.PIPE, stderr=subprocess.PIPE, env=around)
        assert ran.stdout and ran.stderr
        ran.stdout.close()
        self.assertEqual(b"", ran.stderr.read())
        ran.stderr.close()
        self.assertEqual(4, ran.wait(60))

    def test_within_the_process(self) -> None:
        out = io.StringIO()
        before, sys.stdout = sys.stdout, out
        try:
            self.assertEqual(1, main(["-c", "DROP ACCESS a"]))
        finally:
            sys.stdout = before
        self.assertEqual("1 refused 25 unknown constraint a\n", out.getvalue())

    def test_a_terminal(self) -> None:
        """At a terminal there is a prompt; an interrupt gives up a statement, and the input's end ends the shell."""
        with tempfile.TemporaryDirectory() as folder, Terminal(folder) as terminal:
            terminal.wait_for("beas> ")
            terminal.say(b"CREATE TABLE t\n", "..> ")
            terminal.say(b"(a TEXT);\n", "ok\r\nbeas> ")
            terminal.say(b"INSERT INTO t VALUES ('x;\n", "'..> ")
            terminal.say(b".quit\n')\n;\n", "1 row\r\nbeas> ")
            terminal.say(b"DROP\n", "..> ")
            terminal.interrupt("beas> ")
            terminal.say(b".tables\n", "t (a TEXT)\r\nbeas> ")
            terminal.say(b"\x04", "")
            self.assertEqual(0, terminal.ran.wait(60))
            self.assertIn("CREATE TABLE t", (Path(folder) / "history").read_text())


class Terminal:
    """The shell at a terminal."""

    def __init__(self, folder: str) -> None:
        self.outer, inner = pty.openpty()
        around = {**os.environ, "PYTHONPATH": TESTS, "BEAS_HISTORY": f"{folder}/history", "TERM": "dumb"}
        # where the tests run in the background interrupts are ignored, and so they would be here
        listens = functools.partial(signal.signal, signal.SIGINT, signal.SIG_DFL)
        self.ran = subprocess.Popen(RUN, stdin=inner, stdout=inner, stderr=inner, env=around, start_new_session=True, preexec_fn=listens)
        os.close(inner)
        self.seen, self.at = "", 0

    def __enter__(self) -> "Terminal":
        return self

    def __exit__(self, *_: object) -> None:
        if self.ran.poll() is None:
            self.ran.kill()
            self.ran.wait()
        os.close(self.outer)

    def say(self, keys: bytes, wanted: str) -> None:
        os.write(self.outer, keys)
        self.wait_for(wanted)

    def interrupt(self, wanted: str) -> None:
        """An interrupt that comes while the prompt is being made waits for the next key, which may be a space."""
        for _ in range(20):
            self.ran.send_signal(signal.SIGINT)
            if self.comes(wanted, 1):
                return
            os.write(self.outer, b" ")
            if self.comes(wanted, 1):
                return
        self.wait_for(wanted)

    def wait_for(self, text: str) -> None:
        if not self.comes(text, 60):
            raise AssertionError(f"{text!r} doesn't come after {self.seen!r}")

    def comes(self, text: str, seconds: float) -> bool:
        """Reads until a text comes; what was read up to it is not looked at again."""
        end = time.monotonic() + seconds
        while text not in self.seen[self.at :]:
            if not select.select([self.outer], [], [], max(0.0, end - time.monotonic()))[0]:
                return False
            self.seen += os.read(self.outer, 4096).decode()
        self.at = self.seen.index(text, self.at) + len(text)
        return True


if __name__ == "__main__":
    unittest.main()
