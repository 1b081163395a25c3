"""Runs of a program in which allocations are refused."""
import subprocess
from collections.abc import Iterator

from .place import TOP

OUT_OF_MEMORY = 5


class Ending:
    """How a run ended, and what it wrote."""

    def __init__(self, status: int, out: bytes, err: bytes) -> None:
        self.status, self.out, self.err = status, out, err

    def is_well(self, whole: "Ending") -> bool:
        if self.status == OUT_OF_MEMORY:
            return whole.out.startswith(self.out) and self.out[-1:] in (b"", b"\n") and not self.err
        return (self.status, self.out, self.err) == (whole.status, whole.out, whole.err)


def read(path: str) -> bytes:
    with open(path, "rb") as file:
        return file.read()


class Runs:
    """Runs of a command in a folder."""

    def __init__(self, command: list[str], folder: str, library: str, every: int = 1) -> None:
        self.command, self.folder, self.library, self.every = command, folder, library, every
        self.records = f"{folder}.records"

    def run(self, **given: str) -> Ending:
        """The output is a file, so that the library can tell how much of it stands."""
        with open(f"{self.folder}.out", "wb") as out, open(f"{self.folder}.err", "wb") as err:
            ran = subprocess.run(self.command, cwd=self.folder, env=given, stdin=subprocess.DEVNULL, stdout=out, stderr=err, check=False)
        return Ending(ran.returncode, read(f"{self.folder}.out"), read(f"{self.folder}.err"))

    def run_without_memory(self) -> Ending:
        return self.run(LD_PRELOAD=self.library, REFUSALS=self.records, EVERY=str(self.every))

    def refusals(self, whole: Ending) -> Iterator[tuple[int, int, Ending]]:
        """Of each child the number of its allocation, whether all after it were refused, and its ending."""
        with open(self.records, "rb") as file:
            for line in file:
                number, lasting, status, before, out, err = map(int, line.split())
                yield number, lasting, Ending(status, whole.out[:before] + file.read(out), file.read(err))


def compiled(room: str) -> str:
    """The library that refuses."""
    library = f"{room}/refuse.so"
    subprocess.run(["cc", "-shared", "-fPIC", "-O1", "-Wall", "-o", library, f"{TOP}/scripts/lib/refuse.c", "-ldl"], check=True)
    return library
