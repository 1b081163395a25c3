"""Values put into a statement as literals, in place of the signs `?` and `:name`.

Neither sign is a token of the language, so none is taken for one by mistake. Texts and comments are left as they are.
"""
import re
from collections.abc import Iterator, Mapping, Sequence

from ._errors import BadValue
from ._lexing import quoted

Value = int | str
Parameters = Sequence[Value] | Mapping[str, Value]
LEAST, GREATEST = -(2**63), 2**63 - 1
# a comment, a text, which may lack its last quote, a placeholder, and all else
PARTS = re.compile(r"--[^\n]*|'[^']*'?|\?|:[A-Za-z_][A-Za-z0-9_]*|[^?:'\-]+|[:\-]")


def literal(value: object) -> str:
    """A value as the language writes it.

    >>> literal(-7), literal("O'Hara")
    ('-7', "'O''Hara'")
    """
    if isinstance(value, str):
        return quoted(value)
    if isinstance(value, int):
        if not LEAST <= value <= GREATEST:
            raise BadValue(f"{value} has more than 64 bits")
        return str(int(value))
    raise BadValue(f"a value is an integer or a text, and {value!r} is neither")


def filled(statement: str, parameters: Parameters) -> str:
    """A statement with values in place of its placeholders. Spaces keep a literal apart from what stands beside it.

    >>> filled("SELECT DISTINCT b FROM r WHERE a = ? AND b <> '?'", (7,))
    "SELECT DISTINCT b FROM r WHERE a =  7  AND b <> '?'"
    >>> filled("DELETE FROM r WHERE b = :name", {"name": "O'Hara"})
    "DELETE FROM r WHERE b =  'O''Hara' "
    """
    if isinstance(parameters, str):
        raise BadValue("the values of a statement are a sequence, as in (value,), and not one text")
    if isinstance(parameters, Mapping):
        return "".join(_named(statement, parameters))
    return "".join(_in_order(statement, parameters))


def _named(statement: str, parameters: Mapping[str, Value]) -> Iterator[str]:
    for part in PARTS.findall(statement):
        if part == "?":
            raise BadValue("a placeholder without a name, and values by their names")
        if len(part) < 2 or part[0] != ":":
            yield part
        elif part[1:] in parameters:
            yield f" {literal(parameters[part[1:]])} "
        else:
            raise BadValue(f"there is no value for {part}")


def _in_order(statement: str, parameters: Sequence[Value]) -> Iterator[str]:
    taken = 0
    for part in PARTS.findall(statement):
        if part != "?":
            yield part
            continue
        if taken == len(parameters):
            raise BadValue(f"there are more placeholders than the {taken} values")
        yield f" {literal(parameters[taken])} "
        taken += 1
    if taken != len(parameters):
        raise BadValue(f"there are {taken} placeholders for {len(parameters)} values")
