"""The 32 refusals, each as a class. Their numbers and texts are those of docs/language.md, their names those of the engine, except that
both mismatches of types have one."""
from ._errors import Error


class Refused(Error):
    """A statement was refused, and changed nothing.

    `number` is the refusal's, from 1 to 32, `text` says why, and `statement` is the number of the statement in its database. There is a
    class for each number, so that one cause can be caught by itself:

    >>> import beas
    >>> db = beas.Database()
    >>> try:
    ...     db.say("DROP ACCESS cards_of")
    ... except beas.UnknownAccess as why:
    ...     print(why.number, why.text)
    25 unknown constraint cards_of
    >>> db.close()
    """

    #: What all refusals of a class have; `Refused` itself has none.
    its_number = 0

    def __init__(self, statement: int, number: int, text: str) -> None:
        super().__init__(f"statement {statement} refused ({number}): {text}")
        self.statement, self.number, self.text = statement, number, text
        #: The line on which the statement begins in its script, if it was one of a script.
        self.line: int | None = None
        #: How many rows `Database.load` had added before.
        self.rows_before = 0

    def __reduce__(self) -> tuple[type["Refused"], tuple[int, int, str]]:
        return type(self), (self.statement, self.number, self.text)

    @property
    def written(self) -> str:
        """The report as the program beas writes it."""
        return f"{self.statement} refused {self.number} {self.text}\n"


class Syntax(Refused):
    """The text is no statement."""

    its_number = 1


class TooDeep(Refused):
    """Parentheses are nested deeper than 32."""

    its_number = 2


class TableExists(Refused):
    """There is a table of this name."""

    its_number = 3


class UnknownTable(Refused):
    """There is no such table."""

    its_number = 4


class UnknownColumn(Refused):
    """There is no such column."""

    its_number = 5


class Ambiguous(Refused):
    """Several tables of a FROM have the column."""

    its_number = 6


class DuplicateName(Refused):
    """A name stands twice, or a constraint of this name is there."""

    its_number = 7


class TypeMismatch(Refused):
    """An integer is compared with a text, or stands where a text belongs, or the other way around."""

    its_number = 8


class ShapeMismatch(Refused):
    """The sides of a UNION or an EXCEPT differ in number or types of columns."""

    its_number = 9


class BadLimit(Refused):
    """The limit of a constraint is 0 or past 32 bits."""

    its_number = 10


class AlreadyBroken(Refused):
    """The rows that are there break the new constraint."""

    its_number = 11


class BreaksBound(Refused):
    """A row would make a constraint false."""

    its_number = 12


class WrongWidth(Refused):
    """A row of INSERT has more or fewer values than its table has columns."""

    its_number = 13


class NumberRange(Refused):
    """An integer past 64 bits."""

    its_number = 14


class Unreadable(Refused):
    """There is no such file, or it can't be read."""

    its_number = 15


class BadField(Refused):
    """A field of a file is no value of its column."""

    its_number = 16


class RecordWidth(Refused):
    """A record of a file has more or fewer fields than its header."""

    its_number = 17


class HeaderMismatch(Refused):
    """The header of a file doesn't name each column of the table once."""

    its_number = 18


class NotCovered(Refused):
    """The constraints don't lead to all that the query needs, so it has no bound."""

    its_number = 19


class TooLarge(Refused):
    """The bound is past 128 bits."""

    its_number = 20


class OverBudget(Refused):
    """The bound is above the budget of the database."""

    its_number = 21


class TooMany(Refused):
    """A limit is passed: of tables, columns, constraints, atoms, blocks, outputs or rows."""

    its_number = 22


class NeedsDistinct(Refused):
    """A query of one SELECT has no DISTINCT."""

    its_number = 23


class FileTooLong(Refused):
    """A file has more bytes than it may have."""

    its_number = 24


class UnknownAccess(Refused):
    """There is no such constraint."""

    its_number = 25


class TextTooLong(Refused):
    """A text has more bytes than it may have."""

    its_number = 26


class NotGrouped(Refused):
    """An item without a function isn't a column of GROUP BY."""

    its_number = 27


class SumOfText(Refused):
    """SUM of a TEXT column."""

    its_number = 28


class TooManyCandidates(Refused):
    """SPECIALISE would have to try more than 16 columns."""

    its_number = 29


class BadSession(Refused):
    """The number of a session isn't between 1 and 64."""

    its_number = 30


class SessionBusy(Refused):
    """The session's query isn't answered yet."""

    its_number = 31


class SessionIdle(Refused):
    """STEP has nothing to go on with."""

    its_number = 32


#: The class of each number.
CLASSES: dict[int, type[Refused]] = {it.its_number: it for it in Refused.__subclasses__()}


def refusal(statement: int, number: int, text: str) -> Refused:
    """A refusal of its class.

    >>> type(refusal(3, 12, "row 1 breaks cards_of at key (7)")).__name__
    'BreaksBound'
    """
    return CLASSES.get(number, Refused)(statement, number, text)
