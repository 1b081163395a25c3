"""The figures of docs/times.md: they are kept in a file as they are taken, and written into the page from there."""
import hashlib
import json
import os
import sqlite3
import time
from collections.abc import Callable, Iterable, Iterator
from pathlib import Path
from typing import Any

from . import timed
from .page_marks import paragraph, put
from .place import TOP
from .timed_parts import PARTS, Part

PAGE = "docs/times.md"
KEPT = TOP / "out/times/results.json"
# Other work on the machine has changed times that were taken under more load than one process's own.
QUIET = 1.5
NOT_TAKEN = "not taken"
Row = dict[str, Any]


def mark_of(program: str) -> str:
    """What tells one program from another."""
    return hashlib.sha256(Path(program).read_bytes()).hexdigest()[:16]


class Kept:
    """Figures by part and row. Those of another program are left out, so that the page is of one."""

    def __init__(self, file: Path, program: str) -> None:
        self.file, self.program = file, program
        kept = json.loads(file.read_text(encoding="utf-8")) if file.exists() else {}
        self.rows: dict[str, dict[str, Row]] = kept.get("rows", {}) if kept.get("program") == program else {}
        self.dropped = 0 if self.rows else sum(map(len, kept.get("rows", {}).values()))

    def keep(self, part: str, name: str, row: Row) -> None:
        """Into the file at once."""
        self.rows.setdefault(part, {})[name] = row
        self.file.parent.mkdir(parents=True, exist_ok=True)
        text = json.dumps({"program": self.program, "rows": self.rows}, indent=1, ensure_ascii=False)
        new = self.file.with_suffix(".new")
        new.write_text(text + "\n", encoding="utf-8")
        os.replace(new, self.file)

    def all(self) -> Iterator[Row]:
        for rows in self.rows.values():
            yield from rows.values()


def head(rows: Iterable[Row]) -> str:
    """When and where the figures were taken, and whether other work went on."""
    its = sorted(rows, key=lambda it: str(it["taken"]))
    if not its:
        return "Nothing was taken."
    days, loads = sorted({it["taken"][:10] for it in its}), sorted({it["load"] for it in its})
    span = f"{loads[0]:.1f}" + (f" to {loads[-1]:.1f}" if len(loads) > 1 else "")
    last = its[-1]
    text = f"Taken on {' and '.join(days)} on {last['machine']}, with SQLite {last['sqlite']}. The machine's load at the beginning was {span}."
    runs = " or ".join(map(str, sorted({it["runs"] for it in its})))
    text += f" Each time is the best of {runs} runs, since other work only adds to it."
    if loads[-1] > QUIET:
        text += " **The times are to be taken again**, as other work went on."
    return paragraph(text)


def row_of(part: Part, name: str, row: Row | None) -> str:
    cells = part.cells(row["values"]) if row else [NOT_TAKEN] * part.columns
    return f"| {' | '.join([name, *cells])} |"


def table_of(part: Part, rows: dict[str, Row]) -> str:
    lines = [f"| {' | '.join(part.heads)} |", "|---" * len(part.heads) + "|"]
    return "\n".join([*lines, *(row_of(part, name, rows.get(name)) for name in part.workloads)])


def write(kept: Kept, into: Callable[[str, str, str], None] = put) -> int:
    """Writes all parts of the page. Gives how many rows it lacks."""
    into(PAGE, "head", head(kept.all()))
    lacking = 0
    for name, part in PARTS.items():
        rows = kept.rows.get(name, {})
        into(PAGE, name, table_of(part, rows))
        lacking += len(part.workloads.keys() - rows.keys())
    return lacking


def here(load: float, machine: str) -> Row:
    taken = time.strftime("%Y-%m-%d %H:%M")
    return {"taken": taken, "load": round(load, 2), "machine": machine, "sqlite": sqlite3.sqlite_version, "runs": timed.RUNS}
