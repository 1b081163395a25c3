"""Whether a block is covered, and its derivation."""
from collections.abc import Iterable
from typing import NamedTuple

from .database import Constraint
from .scopes import Block, Place

PAST = 2**128


class Use(NamedTuple):
    """An atom with a constraint on its table."""

    atom: int
    constraint: Constraint


class Classes:
    """The classes of a block's places, each named by its first place; what is constant, and what each atom needs."""

    def __init__(self, block: Block) -> None:
        self.block = block
        self.of = {Place(atom, column): Place(atom, column) for atom, width in enumerate(block.widths) for column in range(width)}
        for one in block.conditions:
            if one.sign == "=" and isinstance(one.right, Place):
                self.join(self.of[one.left], self.of[one.right])
        fixed = [one for one in block.conditions if one.sign == "=" and not isinstance(one.right, Place)]
        self.constants = [(self.of[one.left], one.right) for one in fixed]
        self.comparisons = [one for one in block.conditions if one.sign != "="]
        places = block.output + [place for one in block.conditions for place in one.places()]
        self.needed = [sorted({place.column for place in places if place.atom == atom}) for atom in range(len(block.tables))]

    def join(self, one: Place, other: Place) -> None:
        first = min(one, other)
        self.of = {place: first if group in (one, other) else group for place, group in self.of.items()}

    def at(self, atom: int, columns: Iterable[int]) -> set[Place]:
        return {self.of[Place(atom, column)] for column in columns}

    def constant(self) -> set[Place]:
        return {group for group, _ in self.constants}

    def output(self) -> list[Place]:
        return [self.of[place] for place in self.block.output]


class Plan:
    """A block over some constraints: whether it is guided, the classes that it starts with, and its derivation."""

    def __init__(self, block: Block, has_guide: bool, constraints: list[Constraint]) -> None:
        self.block, self.has_guide, self.classes = block, has_guide, Classes(block)
        self.uses = [Use(atom, one) for atom, table in enumerate(block.tables) for one in constraints if one.table == table]
        self.start = self.classes.constant()
        self.is_guided = has_guide and not self.is_covered(self.covered_set())
        if self.is_guided:
            self.start |= set(self.classes.output())
        greedy = self.greedy_steps() if self.is_covered(self.covered_set()) else None
        self.steps = None if greedy is None else self.pruned(greedy)
        self.is_shortened = greedy is not None and len(self.steps) < len(greedy)

    def covered_set(self) -> set[Place]:
        found, before = set(self.start), None
        while found != before:
            before = set(found)
            for use in self.uses:
                if self.key_of(use) <= found:
                    found |= self.fetched_of(use)
        return found

    def key_of(self, use: Use) -> set[Place]:
        return self.classes.at(use.atom, use.constraint.key)

    def fetched_of(self, use: Use) -> set[Place]:
        return self.classes.at(use.atom, use.constraint.fetched)

    def holds_needed(self, use: Use) -> bool:
        return set(self.classes.needed[use.atom]) <= set(use.constraint.columns)

    def serving(self, atom: int, found: set[Place]) -> list[Use]:
        return [use for use in self.uses if use.atom == atom and self.key_of(use) <= found and self.holds_needed(use)]

    def reason(self, found: set[Place]) -> tuple[int, int | None] | None:
        """The first needed column whose class isn't found, and else the first atom that nothing serves."""
        atoms = range(len(self.block.tables))
        for atom in atoms:
            for column in self.classes.needed[atom]:
                if not self.classes.at(atom, [column]) <= found:
                    return atom, column
        return next(((atom, None) for atom in atoms if not self.serving(atom, found)), None)

    def is_covered(self, found: set[Place]) -> bool:
        return self.reason(found) is None

    def greedy_steps(self) -> list[Use]:
        found, steps = set(self.start), []
        while not self.is_covered(found):
            uses = [use for use in self.uses if self.key_of(use) <= found and not self.fetched_of(use) <= found]
            steps.append(min(uses, key=lambda use: use.constraint.bound))
            found |= self.fetched_of(steps[-1])
        for atom in range(len(self.block.tables)):
            if not any(use.atom == atom and self.holds_needed(use) for use in steps):
                steps.append(min(self.serving(atom, found), key=lambda use: use.constraint.bound))
                found |= self.fetched_of(steps[-1])
        return steps

    def is_sound(self, steps: list[Use]) -> bool:
        found = set(self.start)
        for use in steps:
            if not self.key_of(use) <= found:
                return False
            found |= self.fetched_of(use)
        served = {use.atom for use in steps if self.holds_needed(use)}
        needed = set().union(*(self.classes.at(atom, columns) for atom, columns in enumerate(self.classes.needed)))
        return needed <= found and len(served) == len(self.block.tables)

    def pruned(self, steps: list[Use]) -> list[Use]:
        """Each step is tried once, from the last to the first."""
        for place in reversed(range(len(steps))):
            fewer = steps[:place] + steps[place + 1 :]
            if self.is_sound(fewer) and self.capped(fewer) <= self.capped(steps):
                steps = fewer
        return steps

    def capped(self, steps: list[Use]) -> int:
        return min(PAST, sum(cost for _, cost, _ in self.sizes(steps, 1)))

    def sizes(self, steps: list[Use], size: int) -> list[tuple[bool, int, int]]:
        """For each step whether it adds, what it costs and the size after it, where so many valuations stand before the first."""
        found, sizes = set(self.start), []
        for use in steps:
            adds, cost = not self.fetched_of(use) <= found, size * use.constraint.bound
            size = cost if adds else size
            found |= self.fetched_of(use)
            sizes.append((adds, cost, size))
        return sizes
