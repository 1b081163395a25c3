"""Drawn statements whose groups are long, whose rows come before, between and after others, and whose values collide in the program's hashes."""
import functools
import random

from .colliding import pairs_of_a_key, pairs_of_a_step, texts_of_32_bytes
from .session_statements import Kind, Specification, Statements

# so many values that a group of them has more tuples than are read one after another
VALUES = 60


@functools.cache
def integers() -> list[int]:
    """Of pairs that collide, those of a key of an index and of a key of a query's step."""
    pairs = [*pairs_of_a_key(VALUES // 4), *pairs_of_a_step(VALUES // 4)]
    return sorted({value for pair in pairs for value in pair if value < 2**63})


@functools.cache
def pairs() -> list[tuple[int, int]]:
    return [pair for pair in [*pairs_of_a_key(VALUES), *pairs_of_a_step(VALUES)] if max(pair) < 2**63]


@functools.cache
def texts() -> list[str]:
    return list(texts_of_32_bytes(VALUES))


class Crowded(Statements):
    """Draws statements as `Statements` does, over other values and more of them."""

    def __init__(self, draw: random.Random) -> None:
        super().__init__(draw)
        # one script has small numbers, another those that collide
        self.collides = self.chance(0.6)

    def value(self, kind: Kind) -> int | str:
        if kind is int:
            return self.draw.choice(integers()) if self.collides else self.draw.randrange(-VALUES, VALUES)
        return self.draw.choice(texts()) if self.collides else f"w{self.draw.randrange(VALUES)}"

    def specification(self, table: str) -> Specification:
        one = super().specification(table)
        one.bound = self.draw.choice([12, 40, 200, 1000])
        return one

    def rows(self, table: str) -> list[list[int | str]]:
        count = self.draw.choice([1, 2, 5, 20, 50])
        rows = [[self.value(kind) for kind in self.tables[table].values()] for _ in range(count)]
        if self.collides and list(self.tables[table].values())[:2] == [int, int]:
            rows = [[*self.draw.choice(pairs()), *row[2:]] for row in rows]
        if self.chance(0.5):
            # all rows have the same first value, so that they are one group of some constraints
            rows = [[rows[0][0], *row[1:]] for row in rows]
        return self.draw.choice([sorted, lambda it: sorted(it, reverse=True), list])(rows)
