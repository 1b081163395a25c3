"""The examples in the package and on its pages."""
import doctest
import importlib
import pkgutil
import unittest

from support import TOP

import beas

PAGES = ["docs/library.md", "python/README.md"]


def load_tests(loader: unittest.TestLoader, tests: unittest.TestSuite, pattern: str | None) -> unittest.TestSuite:
    names = ["beas", *(f"beas.{it.name}" for it in pkgutil.iter_modules(beas.__path__) if it.name != "__main__")]
    for name in names:
        tests.addTest(doctest.DocTestSuite(importlib.import_module(name)))
    for page in PAGES:
        if (TOP / page).exists():
            tests.addTest(doctest.DocFileSuite(str(TOP / page), module_relative=False))
    return tests


if __name__ == "__main__":
    unittest.main()
