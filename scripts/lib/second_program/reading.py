"""Reads tokens, conditions and queries."""
from collections.abc import Callable
from typing import Any, TypeVar

from .tokens import Refused, Token
from .trees import Between, Compare, Either, Grouped, Number, Ref, SelectBlock, Words

Kind = TypeVar("Kind")
RESERVED = set(
    """access all and as between by case create cross delete discover distinct drop except exists explain fetch from full group having in
    inner insert int integer intersect into is join left like limit load natural not null offset on or order outer right select table text
    union using values where with""".split()
)
SIGNS = {"=": "=", "<>": "<>", "!=": "<>", "<": "<", "<=": "<=", ">": ">", ">=": ">="}
FOLDS = {"count": True, "sum": True, "min": False, "max": False}
END = Token("end", "")
Tree = SelectBlock | Either


def literal_of(is_negative: bool, digits: str) -> Number:
    digits = digits.lstrip("0") or "0"
    return Number(is_negative and digits != "0", digits)


class Reader:
    """Reads single tokens and lists of them."""

    def __init__(self, tokens: list[Token]) -> None:
        self.tokens, self.place = tokens, 0

    def token(self, ahead: int = 0) -> Token:
        place = self.place + ahead
        return self.tokens[place] if place < len(self.tokens) else END

    def is_word(self, word: str, ahead: int = 0) -> bool:
        return self.token(ahead) == ("word", word)

    def take(self, kind: str) -> str:
        token = self.token()
        if token.kind != kind:
            raise Refused(1, "syntax")
        self.place += 1
        return token.text

    def has(self, kind: str, text: str) -> bool:
        """Whether this token comes next; it is taken."""
        well = self.token() == (kind, text)
        self.place += well
        return well

    def want(self, *parts: str) -> None:
        for part in parts:
            if not self.has("word" if part.isalpha() else "mark", part):
                raise Refused(1, "syntax")

    def name(self) -> str:
        word = self.take("word")
        if word in RESERVED:
            raise Refused(1, "syntax")
        return word

    def several(self, one: Callable[[], Kind]) -> list[Kind]:
        found = [one()]
        while self.has("mark", ","):
            found.append(one())
        return found

    def within(self, one: Callable[[], Kind]) -> Kind:
        self.want("(")
        found = one()
        self.want(")")
        return found

    def names(self) -> list[str]:
        return self.several(self.name)

    def names_or_none(self) -> list[str]:
        return [] if self.token() == ("mark", ")") else self.names()


class Conditions(Reader):
    """Reads sides and conditions."""

    def literal(self) -> Number | Words:
        if self.token().kind == "text":
            return Words(self.take("text"))
        is_negative = self.has("mark", "-")
        if not is_negative:
            self.has("mark", "+")
        return literal_of(is_negative, self.take("number"))

    def ref(self) -> Ref:
        first = self.name()
        return Ref(first, self.name()) if self.has("mark", ".") else Ref(None, first)

    def side(self) -> Ref | Number | Words:
        return self.ref() if self.token().kind == "word" else self.literal()

    def conditions(self) -> list[Any]:
        found = self.condition()
        while self.has("word", "and"):
            found += self.condition()
        return found

    def condition(self) -> list[Any]:
        if self.token() == ("mark", "("):
            return self.within(self.conditions)
        left = self.side()
        if isinstance(left, Ref) and self.has("word", "between"):
            low = self.side()
            self.want("and")
            return [Between(left, low, self.side())]
        sign = SIGNS.get(self.take("mark"))
        right = self.side()
        if sign is None or not (isinstance(left, Ref) or isinstance(right, Ref)):
            raise Refused(1, "syntax")
        return [Compare(left, sign, right)]

    def where(self) -> list[Any]:
        return self.conditions() if self.has("word", "where") else []


class Queries(Conditions):
    """Reads queries and grouped statements."""

    def query(self) -> Tree:
        tree = self.term()
        while self.is_word("union") or self.is_word("except"):
            tree = Either(self.take("word"), tree, self.term())
        return tree

    def term(self) -> Tree:
        return self.within(self.query) if self.token() == ("mark", "(") else self.block()

    def block(self) -> SelectBlock:
        self.want("select")
        is_distinct = self.has("word", "distinct")
        items = None if self.has("mark", "*") else self.several(self.ref)
        sources, conditions = self.sources()
        return SelectBlock(is_distinct, items, sources, conditions + self.where())

    def sources(self) -> tuple[list[tuple[str, str]], list[Any]]:
        self.want("from")
        sources, conditions = [], []
        while not sources or self.has("mark", ","):
            sources.append(self.item())
            self.joins(sources, conditions)
        return sources, conditions

    def joins(self, sources: list[tuple[str, str]], conditions: list[Any]) -> None:
        while any(map(self.is_word, ("inner", "join", "cross"))):
            is_cross = self.has("word", "cross")
            if not is_cross:
                self.has("word", "inner")
            self.want("join")
            sources.append(self.item())
            if not is_cross:
                self.want("on")
                conditions += self.conditions()

    def item(self) -> tuple[str, str]:
        table = self.name()
        token = self.token()
        if self.has("word", "as") or token.kind == "word" and token.text not in RESERVED:
            return table, self.name()
        return table, table

    def group_item(self) -> tuple[str, Ref]:
        fold = self.token().text
        if self.token().kind != "word" or fold not in FOLDS or self.token(1) != ("mark", "("):
            return "", self.ref()
        self.place += 2
        if FOLDS[fold]:
            self.want("distinct")
        column = self.ref()
        self.want(")")
        return fold, column

    def grouped(self) -> Grouped:
        self.want("select")
        items = self.several(self.group_item)
        sources, conditions = self.sources()
        conditions += self.where()
        self.want("group", "by")
        keys = self.several(self.ref)
        return Grouped(items, keys, SelectBlock(True, keys + [column for _, column in items], sources, conditions))
