"""The tables and constraints that a bridge is over, as a script says them."""
from dataclasses import dataclass

from .._lexing import first_token, statements_of, tokens_of
from .._schema import Column, Constraint, Schema
from ._errors import NotASchema

# PostgreSQL cuts longer names short.
LONGEST_NAME = 63
BEGINNINGS = (["create", "table"], ["create", "access"], ["drop", "access"])


@dataclass(frozen=True)
class Described:
    """Tables and constraints by their names. The script is one that was carried out, so each name stands for something."""

    script: str
    tables: dict[str, tuple[Column, ...]]
    constraints: dict[str, Constraint]

    def position(self, table: str, column: str) -> int:
        """The position of a column in its table."""
        return [it.name for it in self.tables[table]].index(column)


def described(script: str) -> Described:
    """What a script describes that a planner has taken. Raises NotASchema if a statement of it isn't one of a schema."""
    schema = Schema()
    for statement in statements_of(script):
        schema.carried_out(statement.text)
    names = [*schema.tables, *(column.name for columns in schema.tables.values() for column in columns)]
    long = [name for name in names if len(name) > LONGEST_NAME]
    if long:
        raise NotASchema(f"a name of the database has at most {LONGEST_NAME} signs: {long[0]}")
    return Described(script, schema.tables, schema.constraints)


def refuse_others(script: str) -> None:
    """Raises NotASchema where a statement makes neither a table nor a constraint, and drops none."""
    for statement in statements_of(script):
        words = [token.text for token in tokens_of(statement.text)[:2]]
        if words not in BEGINNINGS:
            raise NotASchema(f"line {statement.line}: a schema has no statement that begins with {first_token(statement.text)}")
