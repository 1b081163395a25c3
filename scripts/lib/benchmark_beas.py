"""The benchmark's runs of beas."""
import errno
import os
import re
import subprocess
import sys
import time
from typing import IO

from .benchmark_sets import Set, Values, filled, mark_of
from .place import TOP

sys.path.insert(0, str(TOP / "examples"))
from read_reports import Report, reports_in

# how often the queries are asked
PASSES = 3
Files = list[tuple[str, str]]
Found = dict[str, float | str | None]


class Gated:
    """A run of the program that waits at gates: a LOAD from a pipe, which goes on when the pipe is written to."""

    def __init__(self, words: list[str], room: str, out: IO[bytes]) -> None:
        self.process = subprocess.Popen(words, cwd=room, stdout=out)
        # Linux's number of the clock of another process
        self.clock = (~self.process.pid << 3) | 2

    def opened(self, path: str) -> int:
        """The pipe, once the program has opened its end and waits."""
        while self.process.poll() is None:
            try:
                return os.open(path, os.O_WRONLY | os.O_NONBLOCK)
            except OSError as why:
                if why.errno != errno.ENXIO:
                    raise
            time.sleep(0.001)
        raise RuntimeError(f"beas ended with status {self.process.returncode} before its script did")

    def memory(self) -> float:
        with open(f"/proc/{self.process.pid}/status", encoding="utf-8") as file:
            return int(re.search(r"VmHWM:\s*(\d+)", file.read())[1]) / 1024

    def pass_gate(self, path: str) -> tuple[float, float]:
        """Processor seconds and greatest memory in MB of the program up to the gate, which then lets it through."""
        gate = self.opened(path)
        try:
            return time.clock_gettime(self.clock), self.memory()
        finally:
            os.write(gate, b"a\n")
            os.close(gate)


def answers_in(path: str, first: int, count: int) -> list[Report]:
    """The answers of the statements from a first one on."""
    with open(path, encoding="utf-8", newline="") as file:
        reports = [it for it in reports_in(file.read())[first - 1 : first - 1 + count] if it.outcome == "answer"]
    if len(reports) != count:
        raise RuntimeError(f"beas answered {len(reports)} of {count} queries")
    return reports


def run_beas(program: str, the_set: Set, files: Files, asked: list[Values], room: str) -> Found:
    """In one process, as the peers: the loads, and the queries three times over."""
    loads = [f"LOAD {table} FROM '{file}'" for table, file in files]
    gates = [f"gate{nth}" for nth in range(PASSES + 2)]
    for it in gates:
        os.mkfifo(f"{room}/{it}")
    first, after_loads, *others = [f"LOAD gate FROM '{it}'" for it in gates]
    begun = ["CREATE TABLE gate (a INTEGER)", *the_set.schema(), *the_set.accesses(), first, *loads, after_loads]
    queries = [filled(the_set.query, it) for it in asked]
    with open(f"{room}/all.beas", "w", encoding="utf-8") as file:
        file.writelines(f"{it};\n" for it in begun)
        for gate in others:
            file.writelines(f"{it};\n" for it in [*queries, gate])
    with open(f"{room}/all.out", "wb") as out:
        run = Gated([program, "all.beas"], room, out)
        passed = [run.pass_gate(f"{room}/{it}") for it in gates]
        status = run.process.wait()
    if status:
        raise RuntimeError(f"beas ended with status {status}")
    answers = answers_in(f"{room}/all.out", len(begun) + 1, len(asked))
    spent = [it for it, _ in passed]
    best = min(after - before for before, after in zip(spent[1:], spent[2:]))
    return {"load": spent[1] - spent[0], "memory": passed[-1][1] - passed[0][1], "query": best / len(asked), "bound": max(it.bound for it in answers),
            "reads": sum(it.reads for it in answers) / len(asked), "mark": mark_of(it.records for it in answers)}
