"""The trees of statements, as the grammar of docs/language.md has them."""
from typing import Any, NamedTuple


class Ref(NamedTuple):
    table: str | None
    column: str


class Number(NamedTuple):
    is_negative: bool
    digits: str


class Words(NamedTuple):
    text: str


class Compare(NamedTuple):
    left: Any
    sign: str
    right: Any


class Between(NamedTuple):
    value: Ref
    low: Any
    high: Any


class SelectBlock(NamedTuple):
    """The items are none where they are a star. A source is a table and its alias."""

    is_distinct: bool
    items: list[Ref] | None
    sources: list[tuple[str, str]]
    conditions: list[Any]


class Either(NamedTuple):
    """A UNION or an EXCEPT of two trees."""

    sign: str
    left: Any
    right: Any


class CreateTable(NamedTuple):
    name: str
    columns: list[tuple[str, type]]


class CreateAccess(NamedTuple):
    name: str
    table: str
    key: list[str]
    fetched: list[str]
    digits: str


class DropAccess(NamedTuple):
    name: str


class Load(NamedTuple):
    table: str
    file: str


class Insert(NamedTuple):
    table: str
    rows: list[list[Any]]


class Delete(NamedTuple):
    table: str
    conditions: list[Any]


class DiscoverGroup(NamedTuple):
    table: str
    key: list[str]
    fetched: list[str]


class DiscoverPairs(NamedTuple):
    table: str
    digits: str


class Query(NamedTuple):
    """A query, alone or after EXPLAIN, SCAN OK or SPECIALISE."""

    before: str
    tree: Any


class Grouped(NamedTuple):
    """An item is a function, empty for a column by itself, and a column."""

    items: list[tuple[str, Ref]]
    keys: list[Ref]
    inner: SelectBlock


class Step(NamedTuple):
    """Not of the grammar: what a piece says that goes on with its session's query."""
