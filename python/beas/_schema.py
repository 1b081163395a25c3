"""The tables and constraints of a database, as the statements that were carried out made them.

The library tells no names of tables. All statements pass through here, so what was made is known: a statement that was answered with
`ok` is one of three, and its tokens say what it made.
"""
from typing import NamedTuple

from ._lexing import Token, tokens_of, without_session


class Column(NamedTuple):
    """A column: its name, and whether its values are texts; otherwise they are integers."""

    name: str
    is_text: bool


class Constraint(NamedTuple):
    """A constraint: rows with equal values in the key have at most `limit` different combinations of fetched values."""

    name: str
    table: str
    key: tuple[str, ...]
    fetched: tuple[str, ...]
    limit: int


class Schema:
    """Tables and constraints, by their names in small letters."""

    def __init__(self) -> None:
        self.tables: dict[str, tuple[Column, ...]] = {}
        self.constraints: dict[str, Constraint] = {}

    def carried_out(self, statement: str) -> None:
        """Takes in a statement that was answered with ok."""
        tokens = without_session(tokens_of(statement))
        words = [token.text for token in tokens]
        if words[:2] == ["create", "table"]:
            self.tables[words[2]] = columns_of(tokens[3:])
        elif words[:2] == ["create", "access"]:
            self.constraints[words[2]] = constraint_of(words[2:])
        elif words[:2] == ["drop", "access"]:
            self.constraints.pop(words[2], None)


def columns_of(tokens: list[Token]) -> tuple[Column, ...]:
    words = [token.text for token in tokens if token.kind == "word"]
    return tuple(Column(name, kind == "text") for name, kind in zip(words[::2], words[1::2]))


def constraint_of(words: list[str]) -> Constraint:
    """A constraint of the tokens from its name on: name ON table ( key ) FETCH ( fetched ) LIMIT number."""
    ends = [place for place, word in enumerate(words) if word == ")"]
    key, fetched = words[4 : ends[0]], words[ends[0] + 3 : ends[1]]
    return Constraint(words[0], words[2], tuple(key[::2]), tuple(fetched[::2]), int(words[ends[1] + 2]))
