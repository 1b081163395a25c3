"""CSV files, and the rows that they are for a table."""
import csv
import re
from pathlib import Path

from .database import INTEGERS, MOST_OF_A_TEXT, Row, Table, Value, quoted
from .tokens import Refused

MOST_OF_A_FILE = 2**26
csv.field_size_limit(2**30)
Columns = list[tuple[str, type]]


class Folder:
    """The files that a script loads."""

    def __init__(self, path: str | Path) -> None:
        self.path = Path(path)

    def read(self, name: str) -> bytes:
        try:
            return (self.path / name).read_bytes()
        except (OSError, ValueError):
            raise Refused(15, f"cannot read {quoted(name)}") from None




def records_of(content: bytes) -> list[list[bytes]]:
    """The records of a CSV file, their fields as bytes."""
    text = content.removeprefix(b"\xef\xbb\xbf").decode("latin-1")
    return [[field.encode("latin-1") for field in record] for record in csv.reader(lines_of(text)) if record]


def lines_of(content: str) -> list[str]:
    """Lines with their ends, of which a carriage return by itself is one."""
    return re.findall("[^\r\n]*(?:\r\n|\r|\n)|[^\r\n]+", content)


def field_value(field: bytes, kind: type) -> Value | None:
    """The value of a field, or nothing where it isn't one of this type."""
    if kind is int:
        well = re.fullmatch(rb"[+-]?[0-9]+", field) and int(field) in INTEGERS
        return int(field) if well else None
    try:
        return field.decode() if len(field) <= MOST_OF_A_TEXT else None
    except UnicodeDecodeError:
        return None


def header_places(table: Table, header: list[bytes]) -> list[int]:
    """For each field of a header the column that it names."""
    names = [bytes(field).lower() for field in header]
    if sorted(names) != sorted(name.encode() for name in table.names):
        raise Refused(18, "header mismatch")
    return [table.names.index(name.decode()) for name in names]


def rows_of(content: bytes, table: Table) -> list[Row]:
    """The rows of a file, or the first refusal."""
    records = records_of(content)
    places = header_places(table, records[0] if records else [])
    return [row_of(number, record, places, table.columns) for number, record in enumerate(records[1:], 1)]


def row_of(number: int, record: list[bytes], places: list[int], columns: Columns) -> Row:
    if len(record) != len(places):
        raise Refused(17, f"record {number} has {len(record)} fields, {len(places)} wanted")
    row: list[Value] = [0] * len(columns)
    for field, place in zip(record, places):
        value = field_value(field, columns[place][1])
        if value is None:
            raise Refused(16, f"record {number} column {columns[place][0]} bad field")
        row[place] = value
    return tuple(row)
