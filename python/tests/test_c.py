"""What pages and scripts have in C compiles with the header, and over the true library gives what the page says."""
import os
import re
import shutil
import subprocess
import sys
import tempfile
import unittest
from pathlib import Path

from support import IS_TRUE, TOP, Case

from beas import NoLibrary
from beas._library import ABI, LONG_CALLS, SHORT_CALLS, load, paths

from lib.place import read
from test_header import HEADER

COMPILER = shutil.which("cc")
FLAGS = ["-std=c11", "-D_POSIX_C_SOURCE=200809L", "-Wall", "-Wextra", "-Werror", f"-I{HEADER.parent}"]


@unittest.skipUnless(COMPILER and HEADER.exists(), "the header isn't there, or no compiler")
class InC(Case):
    def compile(self, *words: str) -> None:
        ran = subprocess.run(["cc", *FLAGS, *words], capture_output=True, text=True, check=False)
        self.assertEqual((0, ""), (ran.returncode, ran.stderr))

    def test_the_page(self) -> None:
        found = re.findall(r"^```c\n(.*?)^```\n\n```text\n(.*?)^```$", read("docs/library.md"), re.M | re.S)
        self.assertEqual(2, len(found))
        for program, output in found:
            with tempfile.TemporaryDirectory() as folder:
                self.try_program(Path(folder), program, output)

    def try_program(self, folder: Path, program: str, output: str) -> None:
        """Over the true library the program is linked with it, and else with a bridge to the stand-in."""
        (folder / "cards.c").write_text(program, encoding="utf-8")
        self.compile("-fsyntax-only", f"{folder}/cards.c")
        words = [sys.executable, str(TOP / "python/tests/run_c.py"), str(HEADER), f"{folder}/cards.c"]
        if IS_TRUE:
            library = Path(os.environ["BEAS_LIBRARY"]).resolve()
            self.compile("-o", f"{folder}/cards", f"{folder}/cards.c", str(library), f"-Wl,-rpath,{library.parent}")
            words = [f"{folder}/cards"]
        ran = subprocess.run(words, capture_output=True, text=True, timeout=60, check=False)
        self.assertEqual((0, output, ""), (ran.returncode, ran.stdout, ran.stderr))

    def test_each_call_is_on_the_page(self) -> None:
        page = read("docs/library.md")
        programs = "".join(re.findall(r"^```c\n(.*?)^```$", page, re.M | re.S))
        for call in ("abi", *SHORT_CALLS, *LONG_CALLS):
            self.assertIn(f"beas_{call}(", programs)

    def test_what_is_timed(self) -> None:
        self.compile("-fsyntax-only", str(TOP / "scripts/lib/timed_library.c"))


@unittest.skipUnless(COMPILER, "there is no compiler")
class OtherLibraries(Case):
    def test_they_are_refused(self) -> None:
        """One of another version of the interface, and one that lacks a call."""
        for version, wanted in [(ABI + 1, f"has version {ABI + 1} of the interface"), (ABI, "can't be used")]:
            with tempfile.TemporaryDirectory() as folder:
                path = Path(folder) / "libbeas.so"
                source = f"unsigned beas_abi(void) {{ return {version}; }}"
                subprocess.run(["cc", "-shared", "-fPIC", "-x", "c", "-o", str(path), "-"], input=source, text=True, check=True)
                with self.assertRaisesRegex(NoLibrary, wanted):
                    load(path)

    def test_where_it_is_found(self) -> None:
        named = os.environ.get("BEAS_LIBRARY")
        try:
            os.environ["BEAS_LIBRARY"] = "here/libbeas.so"
            self.assertEqual([Path("here/libbeas.so").absolute()], paths())
            del os.environ["BEAS_LIBRARY"]
            self.assertEqual([TOP / "python/beas/libbeas.so", TOP / "out/libbeas.so"], paths())
        finally:
            os.environ.pop("BEAS_LIBRARY", None)
            if named is not None:
                os.environ["BEAS_LIBRARY"] = named


if __name__ == "__main__":
    unittest.main()
