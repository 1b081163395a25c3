"""Counts checks, and says which failed."""


class Tally:
    """A failure of the same name is told and counted once."""

    def __init__(self, of: str) -> None:
        self.of, self.passed, self.faults = of, 0, set[str]()

    def check(self, name: str, well: object, more: str = "") -> bool:
        self.passed += bool(well)
        if not well and name not in self.faults:
            self.faults.add(name)
            print(f"FAILED {name}{more}")
        return bool(well)

    def equal(self, name: str, wanted: object, found: object) -> bool:
        return self.check(name, wanted == found, f": wanted\n{wanted}\nfound\n{found}")

    def end(self) -> int:
        """Says the counts, and gives the status of the script."""
        print(f"{self.of}: {self.passed} passed, {len(self.faults)} failed")
        return int(len(self.faults) > 0)
