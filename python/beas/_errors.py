"""Why a call did nothing: the errors of this package that are no refusals."""


class Error(Exception):
    """The class of all errors of this package, refusals too."""


class Closed(Error):
    """The database, or the session, is closed."""


class NoMemory(Error, MemoryError):
    """Memory ran out. Tables and constraints are as they were; an open query whose step it was is lost."""


class TooLong(Error, ValueError):
    """A statement has more than 16,777,216 bytes."""


class NotText(Error, ValueError):
    """A text has no UTF-8, since it holds half of a surrogate pair."""


class NoStatement(Error, ValueError):
    """The text holds nothing but spaces and comments."""


class SeveralStatements(Error, ValueError):
    """The text has more than one statement, and the call takes one."""


class NotAQuery(Error, ValueError):
    """The call takes a query, and the statement is another one."""


class LimitTooGreat(Error, ValueError):
    """A limit is greater than it may be, or below 1."""


class BadValue(Error, ValueError):
    """A value is neither an integer of 64 bits nor a text, or there are more or fewer values than placeholders."""


class WrongThread(Error, RuntimeError):
    """The database was opened in another thread, and no other may use it."""


class InUse(Error, RuntimeError):
    """A call was made while another one was going on, as by the handler of a signal."""


class NoSession(Error):
    """All 64 sessions are taken, or the one that is asked for is."""


class NoLibrary(Error, ImportError):
    """The shared library isn't there, or isn't the one that belongs to this package."""
