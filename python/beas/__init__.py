"""beas, a query engine that tells the cost of a query before it reads.

A database lies in the program's own memory. Constraints that you make limit how many rows belong to a key; from them and from the query
alone follows the bound, which is the most that the query may read. It is told before anything is read.

>>> import beas
>>> with beas.Database(budget=1000) as db:
...     _ = db.run('''
...         CREATE TABLE cards (account INTEGER, card INTEGER);
...         CREATE ACCESS cards_of ON cards (account) FETCH (card) LIMIT 3;
...     ''')
...     print(db.load("cards", [(7, 4111), (7, 4222), (8, 4111)]).rows, "rows")
...     print(db.price("SELECT DISTINCT card FROM cards WHERE account = ?", (7,)).bound)
...     answer = db.query("SELECT DISTINCT card FROM cards WHERE account = ?", (7,))
...     print(answer.rows, answer.reads)
...     try:
...         db.query("SELECT DISTINCT account FROM cards WHERE card = ?", (4111,))
...     except beas.NotCovered as why:
...         print(why.text)
3 rows
3
[(4111,), (4222,)] 2
not covered: block 1 atom 1 column account
"""
from ._database import Database, Limits
from ._errors import (
    BadValue,
    Closed,
    Error,
    InUse,
    LimitTooGreat,
    NoLibrary,
    NoMemory,
    NoSession,
    NoStatement,
    NotAQuery,
    NotText,
    SeveralStatements,
    TooLong,
    WrongThread,
)
from ._lexing import RESERVED, Statement, quoted, statements_of
from ._parameters import literal
from ._refusals import (
    AlreadyBroken,
    Ambiguous,
    BadField,
    BadLimit,
    BadSession,
    BreaksBound,
    DuplicateName,
    FileTooLong,
    HeaderMismatch,
    NeedsDistinct,
    NotCovered,
    NotGrouped,
    NumberRange,
    OverBudget,
    RecordWidth,
    Refused,
    SessionBusy,
    SessionIdle,
    ShapeMismatch,
    SumOfText,
    Syntax,
    TableExists,
    TextTooLong,
    TooDeep,
    TooLarge,
    TooMany,
    TooManyCandidates,
    TypeMismatch,
    UnknownAccess,
    UnknownColumn,
    UnknownTable,
    Unreadable,
    WrongWidth,
)
from ._reports import (
    Answer,
    Changed,
    Explained,
    Greatest,
    Ok,
    Opened,
    Pair,
    Pairs,
    Place,
    Price,
    Probed,
    Report,
    Specialised,
)
from ._schema import Column, Constraint
from ._sessions import Cursor, Session

__all__ = [
    "AlreadyBroken",
    "Ambiguous",
    "Answer",
    "BadField",
    "BadLimit",
    "BadSession",
    "BadValue",
    "BreaksBound",
    "Changed",
    "Closed",
    "Column",
    "Constraint",
    "Cursor",
    "Database",
    "DuplicateName",
    "Error",
    "Explained",
    "FileTooLong",
    "Greatest",
    "HeaderMismatch",
    "InUse",
    "LimitTooGreat",
    "Limits",
    "NeedsDistinct",
    "NoLibrary",
    "NoMemory",
    "NoSession",
    "NoStatement",
    "NotAQuery",
    "NotCovered",
    "NotGrouped",
    "NotText",
    "NumberRange",
    "Ok",
    "Opened",
    "OverBudget",
    "Pair",
    "Pairs",
    "Place",
    "Price",
    "Probed",
    "RESERVED",
    "RecordWidth",
    "Refused",
    "Report",
    "Session",
    "SessionBusy",
    "SessionIdle",
    "SeveralStatements",
    "ShapeMismatch",
    "Specialised",
    "Statement",
    "SumOfText",
    "Syntax",
    "TableExists",
    "TextTooLong",
    "TooDeep",
    "TooLarge",
    "TooLong",
    "TooMany",
    "TooManyCandidates",
    "TypeMismatch",
    "UnknownAccess",
    "UnknownColumn",
    "UnknownTable",
    "Unreadable",
    "WrongThread",
    "WrongWidth",
    "literal",
    "quoted",
    "statements_of",
]
