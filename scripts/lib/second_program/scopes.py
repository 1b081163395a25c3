"""What the names of a block stand for."""
from typing import Any, NamedTuple

from .database import Database, Value
from .reading import Tree
from .trees import Between, Compare, Either, Number, Ref, SelectBlock, Words

TURNED = {"<": ">", "<=": ">=", ">": "<", ">=": "<="}
Side = Ref | Number | Words


class Place(NamedTuple):
    atom: int
    column: int


class Condition(NamedTuple):
    """The left side is a place, the right side one or a value."""

    left: Place
    sign: str
    right: Any

    def places(self) -> list[Place]:
        return [side for side in (self.left, self.right) if isinstance(side, Place)]


class Block(NamedTuple):
    """Its number in the query, from 0 on, its tables, their columns' numbers, its conditions and the places of its output."""

    number: int
    tables: list[str]
    widths: list[int]
    conditions: list[Condition]
    output: list[Place]


def trees_of(tree: Tree) -> list[SelectBlock]:
    """The blocks of a tree from left to right."""
    found, left = [], [tree]
    while left:
        tree = left.pop()
        if isinstance(tree, Either):
            left += [tree.right, tree.left]
        else:
            found.append(tree)
    return found


class Scope:
    """The tables of a block's atoms."""

    def __init__(self, db: Database, tree: SelectBlock) -> None:
        self.tree = tree
        self.aliases = [alias for _, alias in tree.sources]
        self.tables = [db.table(table) for table, _ in tree.sources]

    def places_of(self, ref: Ref) -> list[Place]:
        """All places that a ref may stand for."""
        atoms = [atom for atom, alias in enumerate(self.aliases) if ref.table in (None, alias)]
        return [Place(atom, self.tables[atom].names.index(ref.column)) for atom in atoms if ref.column in self.tables[atom].names]

    def place_of(self, ref: Ref) -> Place:
        return self.places_of(ref)[0]

    def kind_of(self, side: Side) -> type:
        if isinstance(side, Ref):
            place = self.place_of(side)
            return self.tables[place.atom].columns[place.column][1]
        return int if isinstance(side, Number) else str

    def sides(self) -> list[Side]:
        """The refs and literals in reading order."""
        conditions = self.tree.conditions
        return (self.tree.items or []) + [side for one in conditions for side in sides_of(one)]

    def output(self) -> list[Place]:
        if self.tree.items is None:
            return [Place(atom, column) for atom, table in enumerate(self.tables) for column in range(len(table.columns))]
        return [self.place_of(ref) for ref in self.tree.items]

    def output_kinds(self) -> list[type]:
        return [self.tables[place.atom].columns[place.column][1] for place in self.output()]

    def value_of(self, side: Side) -> Place | Value:
        return self.place_of(side) if isinstance(side, Ref) else literal_value(side)

    def conditions(self) -> list[Condition]:
        return [one for condition in self.tree.conditions for one in self.parts_of(condition)]

    def parts_of(self, condition: Compare | Between) -> list[Condition]:
        if isinstance(condition, Between):
            value, low, high = map(self.value_of, condition)
            return [Condition(value, ">=", low), Condition(value, "<=", high)]
        left, right = self.value_of(condition.left), self.value_of(condition.right)
        if not isinstance(left, Place):
            return [Condition(right, TURNED.get(condition.sign, condition.sign), left)]
        return [Condition(left, condition.sign, right)]


def sides_of(condition: Compare | Between) -> list[Side]:
    return list(condition) if isinstance(condition, Between) else [condition.left, condition.right]


def literal_value(literal: Number | Words) -> Value:
    if isinstance(literal, Number):
        return -int(literal.digits) if literal.is_negative else int(literal.digits)
    return literal.text
