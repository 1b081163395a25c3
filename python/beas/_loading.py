"""Rows made into CSV files, as LOAD reads them.

LOAD takes all records of a file or none, needs less memory than an INSERT of the same rows, and is quicker. It makes each field a value by
the type of its column, so the types of rows are looked at here: 7 isn't taken for the text '7'.
"""
from collections.abc import Callable, Iterable, Iterator, Sequence
from itertools import islice
from typing import Any

from ._errors import BadValue, NotText
from ._parameters import GREATEST, LEAST
from ._schema import Column

MOST_OF_A_FILE = 67_108_864
BATCH = 1024
Rows = Iterable[Sequence[int | str]]


def files_of(columns: Sequence[Column], rows: Rows, most: int) -> Iterator[tuple[int, bytes]]:
    """Files of at most so many bytes, unless one row has more, each with the number of its rows. There is one at least.

    >>> list(files_of([Column("age", False), Column("name", True)], [(7, "Ann"), (8, "")], 30))
    [(2, b'age,name\\n7,"Ann"\\n8,""\\n')]
    """
    header = ",".join(column.name for column in columns).encode() + b"\n"
    parts, size, count = [header], len(header), 0
    for lines in batches_of(columns, rows):
        whole = b"".join(lines)
        # Mostly all lines of a batch fit together.
        for added, part in [(len(lines), whole)] if size + len(whole) <= most else [(1, line) for line in lines]:
            if count and size + len(part) > most:
                yield count, b"".join(parts)
                parts, size, count = [header], len(header), 0
            parts.append(part)
            size += len(part)
            count += added
    yield count, b"".join(parts)


def batches_of(columns: Sequence[Column], rows: Rows) -> Iterator[list[bytes]]:
    """The lines of the rows, some rows at a time."""
    left, before = iter(rows), 0
    while batch := list(islice(left, BATCH)):
        yield lines_of(columns, batch, before)
        before += len(batch)


def lines_of(columns: Sequence[Column], batch: list[Sequence[int | str]], before: int) -> list[bytes]:
    if set(map(len, batch)) != {len(columns)}:
        refuse_width(columns, batch, before)
    fields = [fields_of(column, values, before) for column, values in zip(columns, zip(*batch))]
    lines = map(",".join, zip(*fields))
    try:
        return [f"{line}\n".encode() for line in lines]
    except UnicodeEncodeError as why:
        raise NotText(f"a text among the rows {before + 1} to {before + len(batch)} has no UTF-8: {why.reason}") from None


def refuse_width(columns: Sequence[Column], batch: list[Sequence[int | str]], before: int) -> None:
    for number, row in enumerate(batch, before + 1):
        if len(row) != len(columns):
            raise BadValue(f"row {number} has {len(row)} values, {len(columns)} wanted")


def fields_of(column: Column, values: Sequence[Any], before: int) -> list[str]:
    """The fields of a column. A text always stands in quotes, since an empty line is no record."""
    if column.is_text:
        if set(map(type, values)) != {str}:
            refuse_other(column, values, before, lambda value: isinstance(value, str))
        return ['"' + text.replace('"', '""') + '"' for text in values]
    if set(map(type, values)) != {int}:
        refuse_other(column, values, before, lambda value: isinstance(value, int))
        # A bool is an integer, and is written as one.
        values = [int(value) for value in values]
    if min(values) < LEAST or max(values) > GREATEST:
        refuse_other(column, values, before, lambda value: bool(LEAST <= value <= GREATEST))
    return list(map(str, values))


def refuse_other(column: Column, values: Sequence[Any], before: int, is_well: Callable[[Any], bool]) -> None:
    """Raises BadValue for the first value that isn't as it should be, if there is one."""
    for number, value in enumerate(values, before + 1):
        if not is_well(value):
            wanted = "texts" if column.is_text else "integers of 64 bits"
            raise BadValue(f"row {number}: column {column.name} takes {wanted}, and {value!r} is none")
