"""Tokens and pieces of a script."""
import re
from collections.abc import Iterator
from typing import NamedTuple


class Refused(Exception):
    """What a statement is refused for: the number of the refusal and its text."""

    def __init__(self, number: int, text: str) -> None:
        super().__init__(f"refused {number} {text}")


MOST_DEPTH = 32
MOST_SIGNS = 1024
MOST_OF_A_WORD = 64
MARKS = ["<>", "!=", "<=", ">=", *"();,.*+-=<>@"]
SPACE = re.compile(r"(?:[ \t\r\n\f]|--[^\n]*)+")
PARTS = [
    ("word", re.compile("[A-Za-z_][A-Za-z0-9_]*")),
    ("number", re.compile("[0-9]+")),
    ("text", re.compile("'(?:[^']|'')*'")),
    ("bad", re.compile("'.*", re.S)),
    ("mark", re.compile("|".join(map(re.escape, MARKS)))),
    ("bad", re.compile(".", re.S)),
]


class Token(NamedTuple):
    """A kind (word, number, text, mark or bad), and the folded word, the digits, the text without its quotes, or the mark."""

    kind: str
    text: str


def token_of(kind: str, spelling: str) -> Token:
    if kind == "word":
        return Token("word" if len(spelling) <= MOST_OF_A_WORD else "bad", spelling.lower())
    return Token(kind, spelling[1:-1].replace("''", "'") if kind == "text" else spelling)


def next_token(script: str, place: int) -> tuple[Token, int]:
    """The token at a place that is no space, and the place after it."""
    for kind, pattern in PARTS:
        found = pattern.match(script, place)
        if found:
            return token_of(kind, found[0]), found.end()
    raise AssertionError("the last pattern fits any character")


def tokens_of(script: str) -> Iterator[Token]:
    place = 0
    while True:
        space = SPACE.match(script, place)
        place = space.end() if space else place
        if place == len(script):
            return
        token, place = next_token(script, place)
        yield token


def pieces_of(script: str) -> Iterator[list[Token]]:
    """The lists of tokens between semicolons, those without a token left out."""
    piece: list[Token] = []
    for token in tokens_of(script):
        if token != ("mark", ";"):
            piece.append(token)
        elif piece:
            yield piece
            piece = []
    if piece:
        yield piece


def depth_of(tokens: list[Token]) -> int:
    """The greatest depth of a walk: parentheses that are open, and each UNION or EXCEPT past the 1,024th."""
    depth = most = signs = 0
    for token in tokens:
        if token == ("mark", ")"):
            depth = max(0, depth - 1)
        signs += token in (("word", "union"), ("word", "except"))
        if token == ("mark", "(") or token in (("word", "union"), ("word", "except")) and signs > MOST_SIGNS:
            depth += 1
        most = max(most, depth)
    return most
