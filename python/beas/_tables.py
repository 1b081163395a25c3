"""Answers as tables for a terminal."""
import unicodedata
from collections.abc import Sequence

from ._reports import Answer, Cells

WIDE = ("W", "F")


def table_of(answer: Answer) -> str:
    """The columns side by side, integers to the right, below their names. Signs that would break a line are shown as escapes.

    >>> from array import array
    >>> print(table_of(Answer(1, 3, 2, ("card", "holder"), (array("q", [7, 4111]), ["Ann", "a\\nb"]), 2, ())), end="")
    card | holder
    -----+-------
       7 | Ann
    4111 | a\\nb
    """
    columns = [column_of(name, cells) for name, cells in zip(answer.columns, answer.cells)]
    names, rule, *rows = zip(*columns)
    lines = [" | ".join(names), "-+-".join(rule), *map(" | ".join, rows)]
    return "".join(f"{line.rstrip()}\n" for line in lines)


def column_of(name: str, cells: Cells) -> list[str]:
    """The lines of a column: its name, the rule below it, and its cells, all as wide as the widest."""
    if isinstance(cells, list) and cells and isinstance(cells[0], str):
        return lines_of(name, [shown(str(cell)) for cell in cells], False)
    return lines_of(name, [str(cell) for cell in cells], True)


def lines_of(name: str, texts: Sequence[str], to_the_right: bool) -> list[str]:
    width = max(map(width_of, [name, *texts]))
    pads = [" " * (width - width_of(text)) for text in texts]
    cells = [pad + text if to_the_right else text + pad for pad, text in zip(pads, texts)]
    return [name + " " * (width - width_of(name)), "-" * width, *cells]


def shown(text: str) -> str:
    """A text on one line.

    >>> shown("a\\tb\\x1b"), shown("é")
    ('a\\\\tb\\\\x1b', 'é')
    """
    if text.isprintable():
        return text
    return "".join(sign if sign.isprintable() else repr(sign)[1:-1] for sign in text)


def width_of(text: str) -> int:
    """How many places of a terminal a text takes."""
    if text.isascii():
        return len(text)
    return sum(0 if unicodedata.combining(sign) else 2 if unicodedata.east_asian_width(sign) in WIDE else 1 for sign in text)
