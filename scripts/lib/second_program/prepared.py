"""Whole queries: the plans of their blocks, their announced number and their plan lines."""
from collections.abc import Sequence
from typing import NamedTuple

from .binding import Query
from .database import Constraint, Database
from .plans import PAST, Plan
from .scopes import Block
from .tokens import Refused
from .trees import Either


class Guide(NamedTuple):
    """What guides a block: the left side of an EXCEPT, and its size."""

    expression: str
    size: int


def expression_of(tree: Query) -> str:
    if isinstance(tree, Either):
        return f"({expression_of(tree.left)} {tree.sign} {expression_of(tree.right)})"
    return str(tree.number + 1)


def has_guides(tree: Query, has_guide: bool = False) -> list[bool]:
    """Whether each block, from left to right, has a guide."""
    if not isinstance(tree, Either):
        return [has_guide]
    return has_guides(tree.left, has_guide) + has_guides(tree.right, has_guide or tree.sign == "except")


def blocks_of(tree: Query) -> list[Block]:
    return blocks_of(tree.left) + blocks_of(tree.right) if isinstance(tree, Either) else [tree]


def plans_of(query: Query, constraints: list[Constraint], scans: list[list[Constraint]] | None = None) -> list[Plan]:
    """The plans of a query's blocks, each over the live constraints and then its own scans."""
    blocks = blocks_of(query)
    lists = scans or [[] for _ in blocks]
    return [Plan(block, has, constraints + more) for block, has, more in zip(blocks, has_guides(query), lists)]


def first_uncovered(plans: list[Plan]) -> tuple[Block, int, int | None] | None:
    """The first block that isn't covered, with the reason's atom and column, if there is one."""
    for plan in plans:
        if plan.steps is None:
            return plan.block, *plan.reason(plan.covered_set())
    return None


def refuse_uncovered(db: Database, plans: list[Plan]) -> None:
    lacking = first_uncovered(plans)
    if lacking:
        block, atom, column = lacking
        names = db.tables[block.tables[atom]].names
        why = "has no serving constraint" if column is None else f"column {names[column]}"
        raise Refused(19, f"not covered: block {block.number + 1} atom {atom + 1} {why}")


class Prepared:
    """A query with its plans, its announced number, the size of each block's guide, and the lines of its plan."""

    def __init__(self, query: Query, header: list[str], plans: list[Plan], scans: Sequence[Constraint] = ()) -> None:
        self.query, self.header, self.plans, self.scans = query, header, plans, scans
        self.lines = [f"plan scan {one.table} limit {one.bound}" for one in scans]
        self.number = 0
        self.price(query, None)
        self.lines.append(f"plan answer {expression_of(query)}")

    def price(self, tree: Query, guide: Guide | None) -> int:
        """The size of a tree; what its blocks cost is added to the number."""
        if not isinstance(tree, Either):
            return self.price_block(self.plans[tree.number], guide)
        left = self.price(tree.left, guide)
        beside = Guide(expression_of(tree.left), left) if tree.sign == "except" else guide
        right = self.price(tree.right, beside)
        return left + right if tree.sign == "union" else left

    def price_block(self, plan: Plan, guide: Guide | None) -> int:
        block, size = plan.block.number + 1, guide.size if plan.is_guided else 1
        self.lines.append(f"plan block {block}" + (f" guided by {guide.expression} size {size}" if plan.is_guided else ""))
        for number, (use, (adds, cost, size)) in enumerate(zip(plan.steps, plan.sizes(plan.steps, size)), 1):
            one, word = use.constraint, "adds" if adds else "checks"
            self.lines.append(
                f"plan {block}.{number} atom {use.atom + 1} {one.table} by {one.name} limit {one.bound} {word} cost {cost} size {size}"
            )
            self.number += cost
        return size

    def refuse_above(self, budget: int | None, more: int = 0) -> None:
        if self.number + more >= PAST:
            raise Refused(20, "bound past 128 bits")
        if budget is not None and self.number + more > budget:
            raise Refused(21, f"bound {self.number + more} above budget {budget}")


def prepare(db: Database, budget: int | None, query: Query, header: list[str]) -> Prepared:
    """A query that is announced, or its refusal."""
    plans = plans_of(query, db.constraints)
    refuse_uncovered(db, plans)
    prepared = Prepared(query, header, plans)
    prepared.refuse_above(budget)
    return prepared
