"""Plans as data: what a program needs that carries a query out by itself.

The library gives a plan as one text in JSON, which `plan_of` reads; `beas.Database.plan` does both. A text that isn't a plan, or whose bound
isn't the one that its steps have, is refused with BadPlan, so what is read here can be carried out without a further look.
"""
import json
from collections.abc import Callable, Iterator
from dataclasses import dataclass
from typing import Any, TypeVar, Union

from ._errors import Error

Value = Union[int, str]
Kind = TypeVar("Kind")
SIGNS = ("<", "<=", ">", ">=", "<>")
LEAST, GREATEST = -(2**63), 2**63 - 1
MOST_OF_A_LIMIT = 2**32 - 1
MOST_OF_A_BOUND = 2**128 - 1


class BadPlan(Error, ValueError):
    """A text is no plan, or a plan isn't one of the schema that it is carried out over."""


@dataclass(frozen=True)
class Place:
    """A column of an atom, both counted from 0."""

    atom: int
    column: int


@dataclass(frozen=True)
class Comparison:
    """A condition that isn't an equation: a place, a sign, and a place or a value."""

    left: Place
    sign: str
    right: Union[Place, Value]

    def places(self) -> tuple[Place, ...]:
        return (self.left, self.right) if isinstance(self.right, Place) else (self.left,)


@dataclass(frozen=True)
class Step:
    """One use of a constraint: for each of its keys at most `limit` tuples of the key's and the fetched columns."""

    atom: int
    table: str
    constraint: str
    key: tuple[str, ...]
    fetch: tuple[str, ...]
    limit: int
    #: Whether it gives a class that has no value before.
    adds: bool


@dataclass(frozen=True)
class Block:
    """One SELECT: its tables, the class of each column of each, what classes are equated with, its comparisons, output and steps."""

    atoms: tuple[str, ...]
    classes: tuple[tuple[int, ...], ...]
    #: How many classes there are.
    count: int
    constants: tuple[tuple[int, Value], ...]
    comparisons: tuple[Comparison, ...]
    output: tuple[Place, ...]
    #: Whether it begins with the answers of the left side of an EXCEPT.
    guided: bool
    steps: tuple[Step, ...]

    def class_of(self, place: Place) -> int:
        return self.classes[place.atom][place.column]

    def costs(self, size: int) -> Iterator[tuple[int, int]]:
        """What each step costs, and the size after it, where so many valuations stand before the first."""
        for step in self.steps:
            cost = size * step.limit
            size = cost if step.adds else size
            yield cost, size


@dataclass(frozen=True)
class Leaf:
    """A query that is one block, by its number."""

    block: int


@dataclass(frozen=True)
class Pair:
    """A UNION or an EXCEPT of two queries."""

    sign: str
    left: "Tree"
    right: "Tree"


Tree = Union[Leaf, Pair]


@dataclass(frozen=True)
class Plan:
    """A query with its bound.

    >>> plan = plan_of('{"bound": "3", "columns": ["card"], "query": {"block": 0}, "blocks": [{"atoms": ["cards"], "classes": [[0, 1]],'
    ...     '"count": 2, "constants": [[0, 7]], "comparisons": [], "output": [[0, 1]], "guided": false, "steps": ['
    ...     '{"atom": 0, "table": "cards", "constraint": "cards_of", "key": ["account"], "fetch": ["card"], "limit": 3, "adds": true}]}]}')
    >>> plan.bound, plan.columns, plan.round_trips
    (3, ('card',), 1)
    >>> print(*plan.lines(), sep="\\n")
    plan block 1
    plan 1.1 atom 1 cards by cards_of limit 3 adds cost 3 size 3
    plan answer 1
    """

    bound: int
    columns: tuple[str, ...]
    query: Tree
    blocks: tuple[Block, ...]

    @property
    def bounds(self) -> tuple[int, ...]:
        """What each block may read at most. The bound of the query is their sum."""
        return tuple(bound_of(self, number) for number in range(len(self.blocks)))

    @property
    def round_trips(self) -> int:
        """How many statements carry it out: one for each step."""
        return sum(len(block.steps) for block in self.blocks)

    def lines(self) -> list[str]:
        """The lines of the plan, as EXPLAIN writes them."""
        found = [line for number in range(len(self.blocks)) for line in self._lines_of(number)]
        return [*found, f"plan answer {expression_of(self.query)}"]

    def _lines_of(self, number: int) -> Iterator[str]:
        block, guide = self.blocks[number], guide_of(self.query, number)
        size = size_of(self, guide) if block.guided and guide else 1
        yield f"plan block {number + 1}" + (f" guided by {expression_of(guide)} size {size}" if block.guided and guide else "")
        for nth, (step, (cost, after)) in enumerate(zip(block.steps, block.costs(size)), 1):
            does = "adds" if step.adds else "checks"
            yield (
                f"plan {number + 1}.{nth} atom {step.atom + 1} {step.table} by {step.constraint} limit {step.limit} {does}"
                f" cost {cost} size {after}"
            )


# ---- what follows from a plan


def expression_of(tree: Tree) -> str:
    if isinstance(tree, Leaf):
        return str(tree.block + 1)
    return f"({expression_of(tree.left)} {tree.sign} {expression_of(tree.right)})"


def leaves_of(tree: Tree) -> list[int]:
    """The numbers of a query's blocks from left to right."""
    return [tree.block] if isinstance(tree, Leaf) else leaves_of(tree.left) + leaves_of(tree.right)


def guide_of(tree: Tree, block: int, guide: Union[Tree, None] = None) -> Union[Tree, None]:
    """The left side of the nearest EXCEPT in whose right side a block stands, or None."""
    if isinstance(tree, Leaf):
        return guide
    if block in leaves_of(tree.left):
        return guide_of(tree.left, block, guide)
    return guide_of(tree.right, block, tree.left if tree.sign == "except" else guide)


def size_of(plan: Plan, tree: Tree) -> int:
    """The most rows that the answers of a query may have."""
    if isinstance(tree, Pair):
        return size_of(plan, tree.left) + (size_of(plan, tree.right) if tree.sign == "union" else 0)
    size, block = start_size(plan, tree.block), plan.blocks[tree.block]
    for _, size in block.costs(size):
        pass
    return size


def start_size(plan: Plan, number: int) -> int:
    """The most valuations that stand before the first step of a block."""
    guide = guide_of(plan.query, number)
    return size_of(plan, guide) if plan.blocks[number].guided and guide else 1


def bound_of(plan: Plan, number: int) -> int:
    """What the steps of a block cost together."""
    return sum(cost for cost, _ in plan.blocks[number].costs(start_size(plan, number)))


# ---- from a text


def plan_of(text: str) -> Plan:
    """The plan that a text in JSON is. Raises BadPlan unless it is one."""
    try:
        told = json.loads(text)
    except (ValueError, RecursionError) as why:
        raise BadPlan(f"a plan is a text in JSON: {why}") from None
    fields = fields_of("plan", told, "bound", "columns", "query", "blocks")
    blocks = tuple(map(block_of, list_of("blocks", fields["blocks"])))
    plan = Plan(bound_in(fields["bound"]), texts_of("columns", fields["columns"]), tree_of(fields["query"]), blocks)
    check_tree(plan)
    demand(plan.bound == sum(plan.bounds), "the bound isn't that of the steps")
    return plan


def check_tree(plan: Plan) -> None:
    well = leaves_of(plan.query) == list(range(len(plan.blocks)))
    demand(well, "the blocks of a query are numbered from left to right")
    for number, block in enumerate(plan.blocks):
        demand(len(block.output) == len(plan.columns), f"block {number} has another output than the query has columns")
        demand(not block.guided or guide_of(plan.query, number) is not None, f"block {number} is guided and has no guide")


def tree_of(told: Any) -> Tree:
    demand(isinstance(told, dict) and len(told) == 1, "a query is a block, a union or an except")
    sign, parts = next(iter(told.items()))
    if sign == "block":
        return Leaf(number_of("a block's number", parts))
    demand(sign in ("union", "except") and isinstance(parts, list) and len(parts) == 2, "a union or an except has two sides")
    return Pair(sign, tree_of(parts[0]), tree_of(parts[1]))


def block_of(told: Any) -> Block:
    names = ("atoms", "classes", "count", "constants", "comparisons", "output", "guided", "steps")
    fields = fields_of("block", told, *names)
    block = Block(
        atoms=texts_of("atoms", fields["atoms"]),
        classes=tuple(numbers_of("classes", it) for it in list_of("classes", fields["classes"])),
        count=number_of("count", fields["count"]),
        constants=tuple(map(constant_of, list_of("constants", fields["constants"]))),
        comparisons=tuple(map(comparison_of, list_of("comparisons", fields["comparisons"]))),
        output=tuple(map(place_of, list_of("output", fields["output"]))),
        guided=flag_of("guided", fields["guided"]),
        steps=tuple(map(step_of, list_of("steps", fields["steps"]))),
    )
    check_block(block)
    return block


def check_block(block: Block) -> None:
    demand(len(block.atoms) == len(block.classes), "there are classes for each atom")
    demand(all(it < block.count for of in block.classes for it in of), "a class is below their count")
    demand(all(it < block.count for it, _ in block.constants), "a constant is one of a class")
    places = [*block.output, *(place for one in block.comparisons for place in one.places())]
    there = all(it.atom < len(block.atoms) and it.column < len(block.classes[it.atom]) for it in places)
    demand(there, "a place is a column of an atom")
    demand(all(it.atom < len(block.atoms) and block.atoms[it.atom] == it.table for it in block.steps), "a step has the table of its atom")


def step_of(told: Any) -> Step:
    fields = fields_of("step", told, "atom", "table", "constraint", "key", "fetch", "limit", "adds")
    limit = number_of("limit", fields["limit"])
    demand(1 <= limit <= MOST_OF_A_LIMIT, "a limit is between 1 and 4294967295")
    return Step(
        atom=number_of("atom", fields["atom"]),
        table=text_of("table", fields["table"]),
        constraint=text_of("constraint", fields["constraint"]),
        key=texts_of("key", fields["key"]),
        fetch=texts_of("fetch", fields["fetch"]),
        limit=limit,
        adds=flag_of("adds", fields["adds"]),
    )


def comparison_of(told: Any) -> Comparison:
    fields = fields_of("comparison", told, "left", "sign", "right")
    demand(fields["sign"] in SIGNS, "a comparison has one of five signs")
    right = fields["right"]
    demand(isinstance(right, dict) and len(right) == 1, "a right side is a value or a place")
    side: Union[Place, Value]
    if "at" in right:
        side = place_of(right["at"])
    else:
        demand("value" in right, "a right side is a value or a place")
        side = value_of(right["value"])
    return Comparison(place_of(fields["left"]), fields["sign"], side)


def constant_of(told: Any) -> tuple[int, Value]:
    demand(isinstance(told, list) and len(told) == 2, "a constant is a class and a value")
    return number_of("class", told[0]), value_of(told[1])


def place_of(told: Any) -> Place:
    demand(isinstance(told, list) and len(told) == 2, "a place is an atom and a column")
    return Place(number_of("atom", told[0]), number_of("column", told[1]))


# ---- single fields


def demand(well: bool, what: str) -> None:
    if not well:
        raise BadPlan(what)


def fields_of(what: str, told: Any, *names: str) -> dict[str, Any]:
    """The fields of an object, which has these and no others."""
    demand(isinstance(told, dict) and told.keys() == set(names), f"a {what} has the fields {', '.join(names)}")
    fields: dict[str, Any] = told
    return fields


def checked(told: Any, well: Callable[[Any], bool], what: str) -> Any:
    demand(well(told), what)
    return told


def list_of(name: str, told: Any) -> list[Any]:
    found: list[Any] = checked(told, lambda it: isinstance(it, list), f"{name} is a list")
    return found


def number_of(name: str, told: Any) -> int:
    return int(checked(told, lambda it: type(it) is int and it >= 0, f"{name} is a number from 0 on"))


def numbers_of(name: str, told: Any) -> tuple[int, ...]:
    return tuple(number_of(name, it) for it in list_of(name, told))


def text_of(name: str, told: Any) -> str:
    return str(checked(told, lambda it: isinstance(it, str) and it != "", f"{name} is a text"))


def texts_of(name: str, told: Any) -> tuple[str, ...]:
    return tuple(text_of(name, it) for it in list_of(name, told))


def flag_of(name: str, told: Any) -> bool:
    return bool(checked(told, lambda it: isinstance(it, bool), f"{name} is true or false"))


def value_of(told: Any) -> Value:
    """A value: an integer of 64 bits or a text."""
    well = isinstance(told, str) or type(told) is int and LEAST <= told <= GREATEST
    demand(well, "a value is an integer of 64 bits or a text")
    value: Value = told
    return value


def bound_in(told: Any) -> int:
    """A bound, which is a text of digits since it may have 128 bits."""
    well = isinstance(told, str) and told.isascii() and told.isdigit() and (told == "0" or told[0] != "0") and len(told) <= 39
    demand(well and int(told) <= MOST_OF_A_BOUND, "a bound is a text of digits, below 2 to the 128th")
    return int(told)
