"""From the tokens of a piece to a statement's tree, by the grammar of docs/language.md."""
from typing import Any

from .reading import END, Queries
from .tokens import MOST_DEPTH, Refused, Token, depth_of
from .trees import CreateAccess, CreateTable, Delete, DiscoverGroup, DiscoverPairs, DropAccess, Insert, Load, Query, SelectBlock

Statement = Any


class Statements(Queries):
    """Reads statements."""

    def statement(self) -> Statement:
        word = self.token().text if self.token().kind == "word" else ""
        ways = {"create": self.create, "drop": self.drop, "load": self.load, "insert": self.insert, "delete": self.delete}
        ways |= {"discover": self.discover, "explain": self.explain, "scan": self.scan_ok, "specialise": self.specialise}
        if word in ways:
            self.place += 1
            return ways[word]()
        return self.grouped() if ("word", "group") in self.tokens else Query("", self.query())

    def create(self) -> Statement:
        if self.has("word", "table"):
            return CreateTable(self.name(), self.within(lambda: self.several(self.column)))
        self.want("access")
        name = self.name()
        self.want("on")
        table, key = self.name(), self.within(self.names_or_none)
        self.want("fetch")
        fetched = self.within(self.names)
        self.want("limit")
        return CreateAccess(name, table, key, fetched, self.take("number"))

    def column(self) -> tuple[str, type]:
        name, kind = self.name(), self.take("word")
        if kind not in ("integer", "int", "text"):
            raise Refused(1, "syntax")
        return name, str if kind == "text" else int

    def drop(self) -> DropAccess:
        self.want("access")
        return DropAccess(self.name())

    def load(self) -> Load:
        table = self.name()
        self.want("from")
        return Load(table, self.take("text"))

    def insert(self) -> Insert:
        self.want("into")
        table = self.name()
        self.want("values")
        return Insert(table, self.several(lambda: self.within(lambda: self.several(self.literal))))

    def delete(self) -> Delete:
        self.want("from")
        return Delete(self.name(), self.where())

    def discover(self) -> Statement:
        table = self.name()
        if self.has("word", "limit"):
            return DiscoverPairs(table, self.take("number"))
        key = self.within(self.names_or_none)
        self.want("fetch")
        return DiscoverGroup(table, key, self.within(self.names))

    def explain(self) -> Query:
        return Query("explain", self.query())

    def scan_ok(self) -> Query:
        self.want("ok")
        return Query("scan ok", self.query())

    def specialise(self) -> Query:
        return Query("specialise", self.block())


def parse(tokens: list[Token]) -> Statement:
    """The statement that these tokens spell; else refusals in their order."""
    if depth_of(tokens) > MOST_DEPTH:
        raise Refused(2, f"nesting deeper than {MOST_DEPTH}")
    reader = Statements(tokens)
    statement = reader.statement()
    if reader.token() != END:
        raise Refused(1, "syntax")
    if isinstance(statement, Query) and isinstance(statement.tree, SelectBlock) and not statement.tree.is_distinct:
        raise Refused(23, "DISTINCT wanted")
    return statement
