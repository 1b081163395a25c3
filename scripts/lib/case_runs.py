"""A drawn case carried out by the program: its report of each query."""
import subprocess
import sys
import tempfile
from pathlib import Path

from .place import TOP
from .second_program.answers import Run
from .sqlite_cases import Case

sys.path.insert(0, str(TOP / "examples"))
from read_reports import Report, reports_in

SECONDS = 120


def reports_of(program: str, case: Case) -> list[Report]:
    """What the program says of the queries of a case, in order."""
    with tempfile.TemporaryDirectory(prefix="beas-case-") as room:
        for name, text in [*case.files.items(), ("script.beas", "".join(f"{text};\n" for _, text, _ in case.statements))]:
            with open(Path(room, name), "w", encoding="utf-8", newline="") as file:
                file.write(text)
        ran = subprocess.run([program, "script.beas"], cwd=room, stdout=subprocess.PIPE, timeout=SECONDS)
    reports = reports_in(ran.stdout.decode())
    assert len(reports) == len(case.statements), f"{len(reports)} reports of {len(case.statements)} statements"
    return [report for (kind, _, _), report in zip(case.statements, reports) if kind == "query"]


def differs(report: Report, run: Run | None) -> str | None:
    """How the program's report differs from a run of the second program, or from a query that isn't covered."""
    if run is None:
        return None if report.refusal == 19 else f"the program doesn't refuse as uncovered: {report}"
    records = tuple(tuple(map(str, row)) for row in sorted(run.answer))
    found = (report.bound, report.reads, report.header, report.records)
    wanted = (run.prepared.number, run.reads, tuple(run.prepared.header), records)
    return None if found == wanted else f"the program says {found}, and wanted is {wanted}"
