"""What a run of a program over a script takes: seconds, memory, instructions."""
import math
import os
import re
import resource
import shutil
import signal
import statistics
import subprocess
import tempfile
from collections.abc import Callable
from typing import NamedTuple

from .growing import Input
from .place import TUNABLES

SCRIPT = "script.beas"
SECONDS_OF_A_RUN = 60
# the greatest exponent, which n log n stays below
MOST = 1.3
COUNTING = ["valgrind", "--tool=cachegrind", "--cache-sim=no", "--cachegrind-out-file=/dev/null"]
COUNTED = re.compile(r"I\s+refs:\s+([\d,]+)")


class TooLong(Exception):
    """A run took more than its seconds."""


class Broken(Exception):
    """A run didn't carry out its script, so that it measures nothing."""


def write(made: Input, folder: str) -> None:
    for name, text in [*made.files.items(), (SCRIPT, made.script)]:
        with open(f"{folder}/{name}", "w", encoding="utf-8", newline="") as file:
            file.write(text)


def limit_seconds() -> None:
    resource.setrlimit(resource.RLIMIT_CPU, (SECONDS_OF_A_RUN, SECONDS_OF_A_RUN))


def refuse_broken(status: int) -> None:
    if status not in (0, 1):
        raise Broken(f"the program ended with status {status}")


def used_by(program: str, folder: str) -> resource.struct_rusage:
    """What a run took of the processor and of memory."""
    environment = {**os.environ, "GLIBC_TUNABLES": TUNABLES}
    run = subprocess.Popen([program, SCRIPT], cwd=folder, stdout=subprocess.DEVNULL, env=environment, preexec_fn=limit_seconds)
    _, status, used = os.wait4(run.pid, 0)
    run.returncode = os.waitstatus_to_exitcode(status)
    if run.returncode in (-signal.SIGXCPU, -signal.SIGKILL):
        raise TooLong
    refuse_broken(run.returncode)
    return used


def seconds_of(program: str, folder: str) -> float:
    """The best of two runs, as other work on the machine only adds."""
    runs = (used_by(program, folder) for _ in range(2))
    return min(used.ru_utime + used.ru_stime for used in runs)


def megabytes_of(program: str, folder: str) -> float:
    return used_by(program, folder).ru_maxrss / 1024


def instructions_of(program: str, folder: str) -> float:
    """Millions of instructions."""
    try:
        ran = subprocess.run([*COUNTING, program, SCRIPT], cwd=folder, stdout=subprocess.DEVNULL, stderr=subprocess.PIPE, text=True, timeout=SECONDS_OF_A_RUN)
    except subprocess.TimeoutExpired:
        raise TooLong from None
    refuse_broken(ran.returncode)
    return int(COUNTED.findall(ran.stderr)[-1].replace(",", "")) / 1e6


def counts_instructions(program: str) -> bool:
    """Whether valgrind is there and takes this program."""
    with tempfile.TemporaryDirectory(prefix="beas-growth-") as folder:
        write(Input(";"), folder)
        try:
            return bool(shutil.which(COUNTING[0])) and instructions_of(program, folder) > 0
        except (Broken, IndexError, TooLong):
            return False


class Measure(NamedTuple):
    """How work is measured, and how much more than a row's greatest exponent is let through."""

    unit: str
    work: Callable[[str, str], float]
    room: float = 0


SECONDS, MEGABYTES = Measure("s", seconds_of), Measure("MB", megabytes_of)
INSTRUCTIONS = Measure("million instructions", instructions_of)


# ---- a kind of input, and what was found of it


class Row(NamedTuple):
    """A kind of input, its n in the full and in the small form, what is known of it where it isn't held yet, and its greatest exponent."""

    name: str
    made: Callable[[int], Input]
    size: int
    small: int
    known: str = ""
    most: float = MOST
    is_memory: bool = False


class Found(NamedTuple):
    row: Row
    sizes: list[int]
    work: list[float]
    measure: Measure

    @property
    def exponent(self) -> float:
        """The slope of the straight line that fits best, over the logarithms of sizes and work, since seconds vary. None is known where a run took
        too long."""
        if len(self.work) < len(self.sizes):
            return math.inf
        heights = [math.log2(max(it, 1e-9)) for it in self.work]
        return statistics.linear_regression([math.log2(it) for it in self.sizes], heights).slope

    @property
    def is_above(self) -> bool:
        return self.exponent > self.row.most + self.measure.room

    def line(self) -> str:
        word = "held" if not self.is_above else "known" if self.row.known else "FAILED"
        took = ", ".join(f"{size:,}: {work:.3g}" for size, work in zip(self.sizes, self.work))
        late = f", more than {SECONDS_OF_A_RUN} s" * (len(self.work) < len(self.sizes))
        known = f" ({self.row.known})" if self.is_above and self.row.known else ""
        return f"{word} {self.exponent:.2f} {self.row.name}: {took} {self.measure.unit}{late}{known}"


def found_of(program: str, row: Row, sizes: list[int], measure: Measure) -> Found:
    work = []
    with tempfile.TemporaryDirectory(prefix="beas-growth-") as folder:
        for size in sizes:
            write(row.made(size), folder)
            try:
                work.append(measure.work(program, folder))
            except TooLong:
                break
    return Found(row, sizes, work, measure)


def rounded(work: float) -> str:
    return f"{work:,.0f}" if work >= 10 else f"{work:.2g}"


def table_of(founds: list[Found]) -> str:
    """As a page has it: each kind of input with its sizes, what they took, and the exponent."""
    lines = ["| Input | n | Took | Exponent |", "|---|---|---|---|"]
    for it in founds:
        took = [f"{rounded(work)} {it.measure.unit}" for work in it.work]
        took += [f"over {SECONDS_OF_A_RUN} s"] * (len(it.work) < len(it.sizes))
        exponent = "not known" if math.isinf(it.exponent) else f"{it.exponent:.2f}"
        lines.append(f"| {it.row.name} | {', '.join(f'{size:,}' for size in it.sizes)} | {', '.join(took)} | {exponent} |")
    return "\n".join(lines)
