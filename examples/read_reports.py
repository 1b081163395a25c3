#!/usr/bin/env python3
"""Reads what beas wrote for a script, and tells of each statement what came of it.

    read_reports.py SCRIPT OUTPUT

SCRIPT is the script, OUTPUT a file with what beas wrote for it. A line of CSV comes for each statement: its number, its first and
its last line in the script, its outcome, its bound, its rows, its reads, and the text of a refusal. The outcome is one of ok, max,
none, plan (of EXPLAIN), answer, open, probed and refused. Ends with 0 if each statement has its report, with 1 if the output is cut
short or is another script's, and with 2 if a file can't be read.

As a module it needs the standard library alone: statements_in(script) cuts a script, reports_in(output) an output. The rule by which a
report's end is found stands in docs/language.md, Reading the output. Texts in answers and refusals may hold line feeds, and lines
that look like reports."""
import collections
import csv
import io
import re
import sys
from collections.abc import Iterator
from typing import NamedTuple

# a comment, a text, which may lack its last quote, a semicolon, spaces, and all else, of which a single - is no comment
PARTS = re.compile(r"--[^\n]*|'[^']*'?|;|[ \t\r\n\f]+|[^;'\- \t\r\n\f]+|-")
LOOKS_LIKE_AN_END = re.compile(r"^(\d+) ok \d+ rows \d+ reads$", re.M)
END_OF_AN_ANSWER = re.compile(r"(\d+) ok (\d+) rows (\d+) reads")
Fields = tuple[str, ...]


class Statement(NamedTuple):
    """A statement of a script: the lines of its first and last token, counted from 1, its text from the one to the other, and whether
    a quote in it has no end, and so has taken the rest of the script."""

    first_line: int
    last_line: int
    text: str
    lacks_quote: bool


class Report(NamedTuple):
    """What was written for a statement, and where in the output it ends. The text is that of a refusal, or what a short report says after
    its first word; the lines are those of a plan, of pairs or of needed columns; header and records are an answer's."""

    number: int
    outcome: str
    end: int
    bound: int | None = None
    rows: int | None = None
    reads: int | None = None
    refusal: int | None = None
    text: str = ""
    lines: Fields = ()
    header: Fields = ()
    records: tuple[Fields, ...] = ()


class Unreadable(ValueError):
    """The output isn't that of a script, or it is cut short."""


# ---- scripts


def statements_in(script: str) -> Iterator[Statement]:
    """The pieces between semicolons that hold more than spaces and comments."""
    first = last = -1
    line = first_line = last_line = 1
    part = ""
    for found in PARTS.finditer(script):
        part = found[0]
        if part == ";":
            if first >= 0:
                yield Statement(first_line, last_line, script[first:last], False)
            first = -1
        elif not part.startswith("--") and part[0] not in " \t\r\n\f":
            if first < 0:
                first, first_line = found.start(), line
            last, last_line = found.end(), line + part.count("\n")
        line += part.count("\n")
    if first >= 0:
        yield Statement(first_line, last_line, script[first:last], part == "'" or part[:1] == "'" != part[-1])


# ---- outputs


class Output:
    """An output, with how many of its lines look like the end of each number's answer: mostly one does."""

    def __init__(self, text: str) -> None:
        self.text = text
        self.like_ends = collections.Counter(LOOKS_LIKE_AN_END.findall(text))

    def line(self, at: int) -> tuple[str, int]:
        """The line at a place, and the place after its line feed."""
        end = self.text.find("\n", at)
        if end < 0:
            raise Unreadable
        return self.text[at:end], end + 1

    def up_to_even(self, at: int, quote: str) -> tuple[str, int]:
        """What stands before the first line feed that has an even number of quotes before it, and the place after that."""
        line, end = self.line(at)
        quotes = line.count(quote)
        while quotes % 2:
            more, end = self.line(end)
            quotes += more.count(quote)
        return self.text[at : end - 1], end

    def reports_at(self, number: int, at: int) -> Iterator[Report]:
        """The report of a statement that begins at a place. Several may be tried where an answer has one column: a text in it may
        look like its end. There is none where the line there is of no statement of this number."""
        try:
            line, end = self.line(at)
            before, _, said = line.partition(" ")
            word = said.partition(" ")[0]
            if before != str(number):
                return
            if word == "refused":
                yield self.refused(number, at)
            elif word == "bound":
                yield from self.bounded(number, int(said.split(" ")[1]), end)
            else:
                yield self.counted(number, said, end)
        except (Unreadable, ValueError, IndexError):
            return

    def refused(self, number: int, at: int) -> Report:
        text, end = self.up_to_even(at, "'")
        _, _, refusal, why = text.split(" ", 3)
        return Report(number, "refused", end, refusal=int(refusal), text=why)

    def counted(self, number: int, said: str, end: int) -> Report:
        """A report without a bound, or the opening of a session's query."""
        lines = []
        while said.startswith(("pair ", "needs ")):
            lines.append(said)
            line, end = self.line(end)
            said = line.removeprefix(f"{number} ")
        outcome, _, text = said.partition(" ")
        if outcome not in ("ok", "max", "none", "open", "probed"):
            raise Unreadable
        report = Report(number, outcome, end, text=text, lines=tuple(lines))
        if outcome == "open":
            return report._replace(bound=int(text.split(" ")[2]))
        return report._replace(rows=int(text.split(" ")[0])) if text.endswith(" rows") else report

    def bounded(self, number: int, bound: int, at: int) -> Iterator[Report]:
        """An answer, or the plan of an EXPLAIN."""
        plan = []
        line, end = self.line(at)
        while line.startswith("plan "):
            plan.append(line)
            line, end = self.line(end)
        if line == f"{number} ok":
            yield Report(number, "plan", end, bound, lines=tuple(plan))
        else:
            yield from self.answered(number, bound, tuple(plan), tuple(line.split(",")), end)

    def answered(self, number: int, bound: int, plan: Fields, header: Fields, end: int) -> Iterator[Report]:
        """The ways to read the records from the header's end on: up to each record that may be the last line."""
        records: list[Fields] = []
        left = self.like_ends[str(number)]
        while left:
            record, end = self.up_to_even(end, '"')
            found = END_OF_AN_ANSWER.fullmatch(record)
            if found and found[1] == str(number):
                left -= 1
                if int(found[2]) == len(records):
                    rows, reads = len(records), int(found[3])
                    yield Report(number, "answer", end, bound, rows, reads, lines=plan, header=header, records=tuple(records))
            records.append(fields_of(record))


def fields_of(record: str) -> Fields:
    return tuple(next(csv.reader(io.StringIO(record, newline=""))) if '"' in record else record.split(","))


def reports_in(text: str) -> list[Report]:
    """The reports of a whole output. Where an answer could end at several places, the first is taken from which the rest can be read."""
    output, found = Output(text), []
    ways = [output.reports_at(1, 0)]
    deepest = 1
    while ways and (not found or found[-1].end < len(text)):
        report = next(ways[-1], None)
        if report:
            found.append(report)
            ways.append(output.reports_at(len(found) + 1, report.end))
            deepest = max(deepest, len(ways))
        else:
            ways.pop()
            del found[len(ways) - 1 :]
    if text and not found:
        raise Unreadable(f"the report of statement {deepest} can't be read")
    return found


# ---- the two side by side


def row_of(statement: Statement, it: Report) -> list[object]:
    outcome = f"refused {it.refusal}" if it.refusal else it.outcome
    text = it.text if it.refusal else ""
    return [it.number, statement.first_line, statement.last_line, outcome, it.bound, it.rows, it.reads, text]


def read(path: str) -> str:
    with open(path, encoding="utf-8", newline="") as file:
        return file.read()


def main() -> int:
    if len(sys.argv) != 3:
        print(__doc__, file=sys.stderr)
        return 2
    try:
        script, output = map(read, sys.argv[1:])
    except (OSError, UnicodeDecodeError) as why:
        print(f"read_reports: {why}", file=sys.stderr)
        return 2
    statements = list(statements_in(script))
    try:
        reports = reports_in(output)
    except Unreadable as why:
        print(f"read_reports: {why}", file=sys.stderr)
        return 1
    writer = csv.writer(sys.stdout, lineterminator="\n")
    writer.writerow(["number", "first_line", "last_line", "outcome", "bound", "rows", "reads", "text"])
    writer.writerows(map(row_of, statements, reports))
    if len(reports) != len(statements):
        print(f"read_reports: {len(statements)} statements and {len(reports)} reports", file=sys.stderr)
        return 1
    return 0


if __name__ == "__main__":
    sys.exit(main())
