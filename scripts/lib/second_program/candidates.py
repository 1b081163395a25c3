"""Which columns of a grouped statement may stand, and which constants would make a block covered."""
from collections.abc import Iterable
from itertools import combinations

from .database import Database
from .plans import Plan
from .scopes import Block, Condition, Place
from .tokens import Refused

MOST_CANDIDATES = 16


def refuse_ungrouped(folds: list[str], keys: list[Place], items: list[Place], columns: list[tuple[str, type]]) -> None:
    for fold, place, (column, _) in zip(folds, items, columns):
        if not fold and place not in keys:
            raise Refused(27, f"column {column} not grouped")
    for fold, (column, kind) in zip(folds, columns):
        if fold == "sum" and kind is str:
            raise Refused(28, f"sum of text column {column}")


def candidates(plan: Plan) -> list[Place]:
    """The classes outside the covered set that are needed or stand in a key."""
    classes = plan.classes
    asked = {group for atom, columns in enumerate(classes.needed) for group in classes.at(atom, columns)}
    asked |= {group for use in plan.uses for group in plan.key_of(use)}
    return sorted(asked - plan.covered_set())


def with_constants(block: Block, places: Iterable[Place]) -> Block:
    return block._replace(conditions=block.conditions + [Condition(place, "=", 0) for place in places])


def first_set(db: Database, block: Block) -> tuple[Place, ...] | None:
    """The first places of the first set of candidates that makes a block covered, if one does."""
    plan = Plan(block, False, db.constraints)
    found = candidates(plan)
    if plan.steps is None and len(found) > MOST_CANDIDATES:
        raise Refused(29, f"{len(found)} candidate columns, limit {MOST_CANDIDATES}")
    for size in range(len(found) + 1):
        for places in combinations(found, size):
            if Plan(with_constants(block, places), False, db.constraints).steps is not None:
                return places
    return None
