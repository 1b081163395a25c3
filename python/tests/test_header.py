"""The package declares what include/beas.h declares. BEAS_HEADER may name another header."""
import ctypes
import os
import re
import unittest
from pathlib import Path
from typing import Any

from support import TOP, Case

from beas import _library
from beas._library import LONG_CALLS, SHORT_CALLS, Handle, LimitFields

HEADER = Path(os.environ.get("BEAS_HEADER", TOP / "include/beas.h"))
PLAIN = {"uint8_t": ctypes.c_uint8, "uint32_t": ctypes.c_uint32, "int32_t": ctypes.c_int32, "uint64_t": ctypes.c_uint64, "int64_t": ctypes.c_int64,
         "size_t": ctypes.c_size_t, "beas_database": Handle, "beas_limits": LimitFields}
BYTES = (ctypes.c_char_p, ctypes.c_void_p)


def is_declared(kind: str, declared: Any) -> bool:
    """Whether a type of the header is declared. Bytes, and places for several items, are addresses."""
    word = kind.replace("const ", "").rstrip(" *")
    if "*" not in kind:
        return PLAIN[word] is declared
    if declared in BYTES:
        return word in ("uint8_t", "uint64_t", "int64_t")
    return ctypes.POINTER(PLAIN[word]) is declared


@unittest.skipUnless(HEADER.exists(), "the header isn't there")
class Header(Case):
    def setUp(self) -> None:
        self.text = re.sub(r"/\*.*?\*/", "", HEADER.read_text(encoding="utf-8"), flags=re.S)

    def test_calls(self) -> None:
        calls = {**SHORT_CALLS, **LONG_CALLS}
        found = {name: (back, words) for back, name, words in re.findall(r"^(\w+) beas_(\w+)\(([^)]*)\);", self.text, re.M)}
        self.assertEqual(("uint32_t", "void"), found.pop("abi"))
        self.assertEqual(sorted(found), sorted(calls))
        for name, (back, words) in found.items():
            kinds = [re.sub(r"\w+$", "", " ".join(word.split())).strip() for word in words.split(",")]
            self.assertEqual("int32_t", back)
            self.assertEqual(len(kinds), len(calls[name]), name)
            for kind, declared in zip(kinds, calls[name]):
                self.assertTrue(is_declared(kind, declared), f"{name}: {kind} as {declared}")

    def test_each_call_has_its_line_of_types(self) -> None:
        there = set(_library.Library.__annotations__)
        self.assertEqual({*SHORT_CALLS, *LONG_CALLS}, there)

    def test_numbers(self) -> None:
        self.assertEqual(_library.ABI, int(re.search(r"#define BEAS_ABI (\d+)", self.text)[1]))  # type: ignore[index]
        numbers = {name: int(number) for name, number in re.findall(r"BEAS_(\w+) = (\d+)", self.text)}
        self.assertEqual((27, 0), (len(numbers), numbers.pop("NOTHING")))
        ours = {name: value for name, value in vars(_library).items() if name.isupper() and isinstance(value, int) and name != "ABI"}
        self.assertEqual({name: numbers[name] for name in ours}, ours)
        others = {"CLOSED", "NO_MEMORY", "TOO_LONG", "NOT_TEXT", "NO_STATEMENT", "SEVERAL", "NOT_A_QUERY", "BAD_LIMIT"}
        self.assertEqual(others, numbers.keys() - ours)
        self.assertEqual(set(range(1, 11)), set(_library.ERRORS))

    def test_limits(self) -> None:
        body = self.text.partition("typedef struct beas_limits {")[2].partition("}")[0]
        self.assertEqual(re.findall(r"uint64_t (\w+);", body), list(_library.LIMITS))
        self.assertEqual(9 * 8, ctypes.sizeof(LimitFields))
        self.assertEqual(16, ctypes.sizeof(Handle))


if __name__ == "__main__":
    unittest.main()
