"""Full answers, and what plans answer and read."""
import operator
from collections.abc import Iterable, Iterator
from itertools import groupby
from typing import Any

from .binding import Query
from .database import Constraint, Database, Row, Table, Value
from .plans import Plan, Use
from .prepared import Prepared, first_uncovered, plans_of
from .scopes import Block, Condition, Place
from .trees import Either

TESTS = {"=": operator.eq, "<>": operator.ne, "<": operator.lt, "<=": operator.le, ">": operator.gt, ">=": operator.ge}
Rows = set[Row]
# a row for each atom, of the first ones at least
Choice = tuple[Row, ...]
Valuation = dict[Place, Value]


def combined(sign: str, left: Rows, right: Rows) -> Rows:
    return left | right if sign == "union" else left - right


# ---- full answers


def side_of(choice: Choice, side: Place | Value) -> Value:
    return choice[side.atom][side.column] if isinstance(side, Place) else side


def choices_of(block: Block, db: Database, choice: Choice = ()) -> Iterator[Choice]:
    """All ways to choose one row for each atom that meet the conditions."""
    if len(choice) == len(block.tables):
        yield choice
        return
    atom = len(choice)
    due = [one for one in block.conditions if max(place.atom for place in one.places()) == atom]
    for row in db.tables[block.tables[atom]].rows:
        longer = (*choice, row)
        if all(TESTS[one.sign](side_of(longer, one.left), side_of(longer, one.right)) for one in due):
            yield from choices_of(block, db, longer)


def full_answer(tree: Query, db: Database) -> Rows:
    if isinstance(tree, Either):
        return combined(tree.sign, full_answer(tree.left, db), full_answer(tree.right, db))
    return {tuple(side_of(choice, place) for place in tree.output) for choice in choices_of(tree, db)}


# ---- answers by plans


def joined(valuation: Valuation, classes: Iterable[Place], values: Iterable[Value]) -> Valuation | None:
    """A valuation with some more values, or nothing where it has another one for one of the classes."""
    more = dict(valuation)
    return more if all(more.setdefault(group, value) == value for group, value in zip(classes, values)) else None


class Run:
    """A prepared query over the rows of a database: its answer, and of each block, from left to right, the plan with the size of what each
    due probe finds."""

    def __init__(self, prepared: Prepared, db: Database) -> None:
        self.prepared, self.db, self.blocks = prepared, db, list[tuple[Plan, list[int]]]()
        self.answer = self.answer_of(prepared.query, None)
        self.probes = [found for _, probes in self.blocks for found in probes]
        self.reads = sum(max(1, found) for found in self.probes)

    def is_right(self) -> bool:
        """Whether the answer is the full one, and no more was read than the number that is announced."""
        return self.answer == full_answer(self.prepared.query, self.db) and self.reads <= self.prepared.number

    def answer_of(self, tree: Query, guide: Rows | None) -> Rows:
        if not isinstance(tree, Either):
            return self.block_answer(self.prepared.plans[tree.number], guide)
        left = self.answer_of(tree.left, guide)
        return combined(tree.sign, left, self.answer_of(tree.right, left if tree.sign == "except" else guide))

    def block_answer(self, plan: Plan, guide: Rows | None) -> Rows:
        valuations, probes = self.kept(plan, self.starts(plan, guide)), []
        for use in plan.steps:
            valuations = self.kept(plan, self.after_step(plan, use, valuations, probes))
        self.blocks.append((plan, probes))
        return {tuple(valuation[group] for group in plan.classes.output()) for valuation in valuations}

    def starts(self, plan: Plan, guide: Rows | None) -> list[Valuation | None]:
        constants = plan.classes.constants
        start = joined({}, [group for group, _ in constants], [value for _, value in constants])
        if start is None or not plan.is_guided:
            return [start]
        return [joined(start, plan.classes.output(), row) for row in guide]

    def after_step(self, plan: Plan, use: Use, valuations: list[Valuation], probes: list[int]) -> list[Valuation | None]:
        """Each distinct key is probed once."""
        one, groups, found = use.constraint, {}, []
        at = lambda column: plan.classes.of[Place(use.atom, column)]
        rows = self.db.tables[one.table].rows
        for valuation in valuations:
            key = tuple(valuation[at(column)] for column in one.key)
            if key not in groups:
                groups[key] = one.group(rows, key)
            found += [joined(valuation, map(at, one.columns), values) for values in groups[key]]
        probes += map(len, groups.values())
        return found

    def kept(self, plan: Plan, valuations: Iterable[Valuation | None]) -> list[Valuation]:
        """Those that there are and that meet the comparisons whose classes they have, each once."""
        different = {frozenset(one.items()): one for one in valuations if one is not None}
        return [one for one in different.values() if all(meets(plan, one, condition) for condition in plan.classes.comparisons)]


def checked_run(prepared: Prepared, db: Database) -> Run:
    run = Run(prepared, db)
    assert run.is_right()
    return run


def meets(plan: Plan, valuation: Valuation, condition: Condition) -> bool:
    """A comparison of which a side isn't bound yet is met."""
    sides = [plan.classes.of[side] if isinstance(side, Place) else None for side in (condition.left, condition.right)]
    if any(group is not None and group not in valuation for group in sides):
        return True
    left, right = (
        side if group is None else valuation[group] for side, group in zip((condition.left, condition.right), sides)
    )
    return TESTS[condition.sign](left, right)


# ---- scans


def scanned(db: Database, query: Query, header: list[str]) -> Prepared:
    """The prepared query of a SCAN OK: over a scan for each table that a reason named."""
    lists = [[] for _ in plans_of(query, db.constraints)]
    while True:
        plans = plans_of(query, db.constraints, lists)
        lacking = first_uncovered(plans)
        if lacking is None:
            used = [one for plan, scans in zip(plans, lists) for one in scans if any(use.constraint is one for use in plan.steps)]
            return Prepared(query, header, plans, used)
        block, atom, _ = lacking
        columns = plans[block.number].classes.needed[atom] or [0]
        table = db.tables[block.tables[atom]]
        lists[block.number].append(Constraint("scan", table.name, [], columns, max(1, len(table.rows))))


# ---- groups

FOLDS: dict[str, Any] = {"": min, "min": min, "max": max, "count": len, "sum": sum}


def folded(rows: Rows, key_count: int, folds: list[str]) -> list[list[Value]]:
    """A row for each group of equal keys: of each item what its function gives over the different values of its column."""
    found = []
    for _, group in groupby(sorted(rows), key=lambda row: row[:key_count]):
        columns = list(zip(*group))[key_count:]
        found.append([FOLDS[fold](set(column)) for fold, column in zip(folds, columns)])
    return found


def pairs_within(table: Table, limit: int) -> Iterator[tuple[str, str, int]]:
    """All ordered pairs of different columns whose greatest group is at most a limit."""
    for key, name in enumerate(table.names):
        for fetched, other in enumerate(table.names):
            most = Constraint("", table.name, [key], [fetched], limit).greatest(table.rows)
            if key != fetched and most <= limit:
                yield name, other, most


def meets_all(row: Row, conditions: list[Condition]) -> bool:
    return all(TESTS[one.sign](side_of((row,), one.left), side_of((row,), one.right)) for one in conditions)
