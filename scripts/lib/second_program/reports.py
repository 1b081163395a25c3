"""What is written for a piece, in lines."""
import re
from collections.abc import Iterable

from .database import Value


def field_text(value: Value) -> str:
    """A field between quotes where it has a comma, a quote or a line end."""
    text = str(value)
    return '"' + text.replace('"', '""') + '"' if re.search('[,"\r\n]', text) else text


def record(fields: Iterable[Value]) -> str:
    """A record as the default writer of csv makes it, which tells an empty field by itself from no field."""
    return ",".join(map(field_text, fields)) or '""'


class Numbered(str):
    """A line that begins with the number of its statement."""


def text_of(number: int, report: list[str]) -> str:
    return "".join(f"{number} {line}\n" if isinstance(line, Numbered) else f"{line}\n" for line in report)


def answered(number: int, lines: list[str], header: list[str], rows: Iterable[Iterable[Value]], reads: int) -> list[str]:
    return [Numbered(f"bound {number}"), *lines, record(header), *map(record, rows), Numbered(f"ok {len(rows)} rows {reads} reads")]


def is_refusal(report: list[str]) -> bool:
    return report[0].startswith("refused ")
