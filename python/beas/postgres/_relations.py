"""Valuations, which a plan makes longer step by step: the values of some classes, each combination once."""
import operator
from collections.abc import Callable, Iterable, Mapping, Sequence
from dataclasses import dataclass

from ..plans import Block, Comparison, Place, Value

Row = tuple[Value, ...]
TESTS: dict[str, Callable[[Value, Value], bool]] = {
    "<": operator.lt,
    "<=": operator.le,
    ">": operator.gt,
    ">=": operator.ge,
    "<>": operator.ne,
}


@dataclass(frozen=True)
class Valuations:
    """Rows of values, by the classes that have one."""

    classes: tuple[int, ...]
    rows: frozenset[Row]

    def positions(self, classes: Iterable[int]) -> list[int]:
        """Where the values of some classes stand, which a sound plan has given before."""
        return [self.classes.index(it) for it in classes]

    def projected(self, classes: Iterable[int]) -> set[Row]:
        """The different values of some classes."""
        positions = self.positions(classes)
        return {tuple(row[it] for it in positions) for row in self.rows}


def starts(block: Block, guide: Iterable[Row] | None) -> Valuations:
    """The valuations before the first step: the constants, and of a guided block each row of its guide."""
    start = joined({}, block.constants)
    classes = [class_of for class_of, _ in block.constants]
    if not block.guided:
        return valuations(classes, [start])
    output = [block.class_of(place) for place in block.output]
    found = [] if start is None else [joined(start, zip(output, row)) for row in guide or ()]
    return valuations([*classes, *output], found)


def joined(start: Mapping[int, Value], more: Iterable[tuple[int, Value]]) -> dict[int, Value] | None:
    """Values of classes with some more, or None if a class would have two."""
    found = dict(start)
    return found if all(found.setdefault(class_of, value) == value for class_of, value in more) else None


def valuations(classes: Iterable[int], found: Iterable[dict[int, Value] | None]) -> Valuations:
    order = tuple(dict.fromkeys(classes))
    return Valuations(order, frozenset(tuple(one[it] for it in order) for one in found if one is not None))


class Joining:
    """How the tuples of a step make valuations longer: where they have to agree, and what they add."""

    def __init__(self, before: Valuations, key: Sequence[int], rest: Sequence[int]) -> None:
        self.key = before.positions(key)
        self.same = [(nth, before.classes.index(it)) for nth, it in enumerate(rest) if it in before.classes]
        self.twins = [(rest.index(it), nth) for nth, it in enumerate(rest) if rest.index(it) < nth]
        self.new = [nth for nth, it in enumerate(rest) if it not in before.classes and rest.index(it) == nth]
        self.classes = before.classes + tuple(rest[nth] for nth in self.new)

    def extended(self, rows: Iterable[Row], groups: Mapping[Row, Iterable[Row]]) -> Iterable[Row]:
        """Each row with each tuple of its key that agrees with it."""
        for row in rows:
            for found in groups[tuple(row[it] for it in self.key)]:
                if self.agrees(row, found):
                    yield row + tuple(found[it] for it in self.new)

    def agrees(self, row: Row, found: Row) -> bool:
        same = all(found[nth] == row[position] for nth, position in self.same)
        return same and all(found[one] == found[other] for one, other in self.twins)


def kept(found: Valuations, block: Block, before: Iterable[int]) -> Valuations:
    """Those that meet the comparisons whose classes all have values now and hadn't before."""
    already = set(before)
    due = [one for one in block.comparisons if due_now(block, one, set(found.classes), already)]
    if not due:
        return found
    tests = [test_of(found, block, one) for one in due]
    return Valuations(found.classes, frozenset(row for row in found.rows if all(test(row) for test in tests)))


def due_now(block: Block, one: Comparison, there: set[int], already: set[int]) -> bool:
    classes = {block.class_of(place) for place in one.places()}
    return classes <= there and not classes <= already


def test_of(found: Valuations, block: Block, one: Comparison) -> Callable[[Row], bool]:
    """Python compares texts by the numbers of their signs, which is the order of their bytes in UTF-8."""
    test, (left,) = TESTS[one.sign], found.positions([block.class_of(one.left)])
    if isinstance(one.right, Place):
        (right,) = found.positions([block.class_of(one.right)])
        return lambda row: test(row[left], row[right])
    value = one.right
    return lambda row: test(row[left], value)
