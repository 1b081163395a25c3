"""Whole scripts: the reports by Python, joined, are what the program writes; and answers by cells are answers by text."""
import os
import shutil
import subprocess
import tempfile
import unittest
from collections.abc import Sequence
from pathlib import Path

from support import CASES, Case, program

import beas
from beas import statements_of

from lib.place import unread_files
from lib.session_scripts import Drawn

DRAWN = int(os.environ.get("BEAS_DRAWN", "300"))
SECONDS_OF_A_SCRIPT = 120


def words_of(folder: Path) -> list[str]:
    path = folder / "words"
    return path.read_text(encoding="utf-8").splitlines() if path.exists() else ["script.beas"]


def is_beyond(folder: Path) -> bool:
    """Whether a case asks for more than a script's meaning: words that are refused, a script that can't be read, a demonstration."""
    status = folder / "status"
    return status.exists() and int(status.read_text()) > 1 or "--demo" in words_of(folder)


def budget_in(words: list[str]) -> int | None:
    for word, after in zip(words, [*words[1:], ""]):
        if word.startswith("--budget"):
            return int(after if word == "--budget" else word.removeprefix("--budget="))
    return None


def text(path: Path) -> str:
    return path.read_bytes().decode() if path.exists() else ""


class Scripts(Case):
    def reports_of(self, db: beas.Database, script: str) -> list[str]:
        """The reports of a script. What is made of cells and numbers is what the library writes."""
        reports = []
        for statement in statements_of(script):
            (report,) = db.run(statement.text, refusals=True)
            self.assertEqual(db.report_text(), report.written)
            reports.append(report.written)
        return reports

    def test_the_cases_of_the_program(self) -> None:
        """Scripts with what is to be written for each. A script before the first goes over the same tables, and has numbers of its own."""
        folders = [it for it in sorted(CASES.iterdir()) if not is_beyond(it) and not unread_files(it)]
        self.assertGreater(len(folders), 90)
        for folder in folders:
            with self.subTest(folder.name):
                words = words_of(folder)
                db = self.database(budget=budget_in(words), explain="--explain" in words, folder=folder)
                before = self.reports_of(db, text(folder / "before.beas"))
                for number in range(1, 65) if before else ():
                    db.session(number).close()
                reports = self.reports_of(db, text(folder / "script.beas"))
                self.assertEqual(text(folder / "output"), "".join(numbered_anew(reports, len(before))))
                db.close()

    def test_files_that_cannot_be_read(self) -> None:
        """A file that isn't there, and a folder in its place: both are refused as the program refuses a read that fails."""
        folders = [it for it in sorted(CASES.iterdir()) if (it / "failing_read").exists() and not is_beyond(it)]
        self.assertGreater(len(folders), 4)
        for folder in folders:
            for is_folder in (False, True):
                with self.subTest(folder.name, is_folder=is_folder), tempfile.TemporaryDirectory() as room:
                    copy = Path(shutil.copytree(folder, Path(room) / folder.name))
                    for path in (copy / name for name in unread_files(folder)):
                        path.unlink(missing_ok=True)
                        if is_folder:
                            path.mkdir()
                    self.assertEqual(text(folder / "output"), "".join(self.reports_of(self.database(folder=copy), text(folder / "script.beas"))))

    def test_drawn_scripts(self) -> None:
        """Sessions that take turns, updates, loads and constraints: byte by byte what the program writes, if it is there, and else what
        the second program of the scripts does."""
        for nth in range(DRAWN):
            case = Drawn(f"python-{nth}")
            with self.subTest(case.name):
                db = self.database(budget=case.budget, explain=case.explain)
                for name, content in case.files.contents.items():
                    db.add_file(name, content)
                self.assertEqual(wanted_of(case), "".join(self.reports_of(db, case.script())))
                db.close()


def numbered_anew(reports: Sequence[str], shift: int) -> list[str]:
    """Reports whose numbers are counted from 1 after so many others. Only lines that begin with the number have it."""
    if not shift:
        return list(reports)
    return ["".join(line_anew(line, number, shift) for line in report.splitlines(True)) for number, report in enumerate(reports, shift + 1)]


def line_anew(line: str, number: int, shift: int) -> str:
    return f"{number - shift}{line.removeprefix(str(number))}" if line.startswith(f"{number} ") else line


def wanted_of(case: Drawn) -> str:
    path = program()
    if path is None:
        return case.output()
    with tempfile.TemporaryDirectory(prefix="beas-python-") as room:
        for name, content in case.files.contents.items():
            (Path(room) / name).write_bytes(content)
        (Path(room) / "script.beas").write_bytes(case.script().encode())
        return subprocess.run([path, *case.words()], cwd=room, stdout=subprocess.PIPE, timeout=SECONDS_OF_A_SCRIPT, check=False).stdout.decode()


if __name__ == "__main__":
    unittest.main()
