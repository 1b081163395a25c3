"""Why a call of the bridge did nothing: the errors that are no refusals. None of them leaves anything changed in the database."""
from collections.abc import Sequence

from .._errors import Error
from ..plans import Value


class BridgeError(Error):
    """The class of all errors of the bridge that are no refusals."""


class BoundBroken(BridgeError):
    """A constraint doesn't hold: this key has more tuples than its limit. No more than one above the limit was fetched."""

    def __init__(self, constraint: str, key: Sequence[Value], limit: int) -> None:
        shown = ", ".join(map(repr, key))
        super().__init__(f"{constraint} doesn't hold: key ({shown}) has more than {limit} tuples")
        self.constraint, self.key, self.limit = constraint, tuple(key), limit


class ConnectionBroken(BridgeError):
    """The server is gone, or has ended the connection."""


class InTransaction(BridgeError):
    """The connection is within a transaction. A query needs one of its own, so commit or roll back before."""


class TableMissing(BridgeError):
    """The database has no such table, or has it no more."""


class ColumnMissing(BridgeError):
    """The table has no such column, or has it no more."""


class UnknownType(BridgeError):
    """A column is of a type that beas doesn't know: it isn't bigint, integer, smallint, text or varchar."""


class TypeDiffers(BridgeError):
    """A column of integers is said to be one of texts, or the other way around."""


class NullsAllowed(BridgeError):
    """A column may hold NULL by its definition. Make it NOT NULL, or have rows with NULL left out."""


class OtherEncoding(BridgeError):
    """The database or the connection has its texts in another encoding than UTF8."""


class NotASchema(BridgeError):
    """A script has another statement than CREATE TABLE, CREATE ACCESS and DROP ACCESS, or a name that the database can't have."""


class CannotKeep(BridgeError):
    """The database can't keep a constraint on this kind of table."""


class Denied(BridgeError):
    """The database's user may not do this."""


class DatabaseFailed(BridgeError):
    """The database refused a statement for another reason, which is the cause of this error."""
