"""The package itself: what it imports, what it gives out, its version, and how its code is laid out."""
import ast
import re
import sys
import unittest
from pathlib import Path
from types import ModuleType

from support import TOP, Case

import beas

from lib.place import read

SOURCES = sorted((TOP / "python/beas").rglob("*.py"))
OTHERS = [*(TOP / "python/tests").rglob("*.py"), *(TOP / "examples/service").glob("*.py")]
LONGEST_LINE, LONGEST_FUNCTION, LONGEST_FILE = 150, 40, 800


def functions_of(path: Path) -> list[ast.FunctionDef]:
    return [it for it in ast.walk(ast.parse(path.read_text(encoding="utf-8"))) if isinstance(it, ast.FunctionDef)]


class Package(Case):
    def test_it_needs_the_standard_library_alone(self) -> None:
        for path in SOURCES:
            for it in ast.walk(ast.parse(path.read_text(encoding="utf-8"))):
                names = [alias.name for alias in it.names] if isinstance(it, ast.Import) else []
                if isinstance(it, ast.ImportFrom) and not it.level:
                    names = [str(it.module)]
                for name in names:
                    self.assertIn(name.partition(".")[0], sys.stdlib_module_names, path.name)

    def test_what_it_gives_out(self) -> None:
        # Modules of its own stand there too once they were imported.
        given = {name for name, it in vars(beas).items() if not name.startswith("_") and not isinstance(it, ModuleType)}
        self.assertEqual(sorted(given), beas.__all__)
        self.assertTrue((TOP / "python/beas/py.typed").exists())
        for name in beas.__all__:
            it = getattr(beas, name)
            self.assertTrue(isinstance(it, frozenset) or it.__doc__, name)

    def test_public_calls_have_docs(self) -> None:
        for kind in (beas.Database, beas.Session, beas.Cursor, beas.Answer, beas.Refused, beas.Report):
            for name, it in vars(kind).items():
                if not name.startswith("_") and callable(it):
                    self.assertTrue(it.__doc__, f"{kind.__name__}.{name}")

    def test_its_version_is_that_of_the_repository(self) -> None:
        first = re.search(r"^## \[(\d+\.\d+\.\d+)\]", read("CHANGELOG.md"), re.M)
        own = re.search(r'^version = "([^"]*)"$', read("python/pyproject.toml"), re.M)
        assert first and own
        self.assertEqual(first[1], own[1])

    def test_layout(self) -> None:
        for path in [*SOURCES, *OTHERS]:
            lines = path.read_text(encoding="utf-8").splitlines()
            self.assertLess(len(lines), LONGEST_FILE, path.name)
            long = [number for number, line in enumerate(lines, 1) if len(line) > LONGEST_LINE]
            self.assertEqual([], long, path.name)
            for it in functions_of(path) if path in SOURCES else []:
                self.assertLess((it.end_lineno or 0) - it.lineno, LONGEST_FUNCTION, f"{path.name}: {it.name}")


if __name__ == "__main__":
    unittest.main()
