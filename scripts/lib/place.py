"""Where things stand in the repository, the environment in which a program is measured, and how a script with servers ends."""
import os
import re
import signal
import sys
from pathlib import Path
from types import FrameType

TOP = Path(__file__).resolve().parents[2]
# folders of scripts with what is to be written for each
CASES = TOP / "crates/cases/data/scripts"
PROVED = TOP / "crates/beas_shell/out/beas_shell"
LAUNCHED = TOP / "out/beas"
# as the launcher asks: large pages, and freed blocks at hand for the next query
TUNABLES = "glibc.malloc.hugetlb=1:glibc.malloc.tcache_count=500"


def program_at_hand() -> str:
    """The program that ./beas builds, and else what rt ci left."""
    return str(LAUNCHED if LAUNCHED.exists() or not PROVED.exists() else PROVED)


def start_in_large_pages() -> None:
    """Starts this script once more in that environment, unless it is given: the C library reads it when a process starts."""
    if "GLIBC_TUNABLES" not in os.environ:
        os.environ["GLIBC_TUNABLES"] = TUNABLES
        os.execv(sys.executable, [sys.executable, *sys.argv])


def end_well() -> None:
    """Lets a signal that ends this script end its servers first."""

    def leave(number: int, _: FrameType | None) -> None:
        raise SystemExit(128 + number)

    for number in (signal.SIGTERM, signal.SIGHUP):
        signal.signal(number, leave)


def memory_of_machine() -> float:
    """In GB."""
    return os.sysconf("SC_PAGE_SIZE") * os.sysconf("SC_PHYS_PAGES") / 2**30


def machine_at_hand() -> str:
    """The processors and the memory, and whether they have other work now."""
    with open("/proc/cpuinfo", encoding="utf-8") as file:
        found = re.search(r"model name\s*: (.*)", file.read())
    model, load = found[1] if found else "unknown", os.getloadavg()[0]
    busy = f", which did other work too ({load:.1f} processors' worth)" if load > 1.5 else ""
    return f"{os.cpu_count()} processors ({model}), {memory_of_machine():.0f} GB{busy}"


def read(path: str | Path) -> str:
    """A file of the repository; an odd byte of it is replaced."""
    return (TOP / path).read_text(encoding="utf-8", errors="replace")


def unread_files(case: Path) -> set[str]:
    """The file that can't be read when a stored script loads it, if its case has a number of a read that fails. The first read, 0, is that of
    the script, and each LOAD makes one."""
    if not (case / "failing_read").exists():
        return set()
    failing = int((case / "failing_read").read_text(encoding="utf-8"))
    loads = re.findall(r"LOAD \w+ FROM '([^']*)'", (case / "script.beas").read_text(encoding="utf-8"))
    name = loads[failing - 1] if failing else "script.beas"
    if loads.count(name) > 1:
        raise ValueError(f"{case.name} loads {name} more than once, and one of these reads fails")
    return {name}
