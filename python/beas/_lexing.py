"""Scripts cut into statements and tokens, by the lexical rules of docs/language.md.

A comment goes from `--` to the line's end, a text from a quote to the next one. (Two quotes in a row are the end of one text and the
beginning of another, which comes to the same.) A text that isn't closed takes all the rest.
"""
import re
from collections.abc import Iterator
from typing import NamedTuple

from ._errors import NotAQuery

# a comment, a text, which may lack its last quote, a semicolon, spaces, and all else, of which a single - is no comment
PARTS = re.compile(r"--[^\n]*|'[^']*'?|;|[ \t\r\n\f]+|[^;'\- \t\r\n\f]+|-")
TOKENS = re.compile(
    r"(?P<gap>(?:[ \t\r\n\f]+|--[^\n]*)+)|(?P<word>[A-Za-z_][A-Za-z0-9_]*)|(?P<number>[0-9]+)|(?P<text>'[^']*(?:''[^']*)*')"
    r"|(?P<open>'.*)|(?P<mark><>|!=|<=|>=|.)",
    re.S,
)
LONGEST_NAME = 64
BEGIN_A_QUERY = ("select", "(", "scan")
#: The words that can't be names.
RESERVED = frozenset(
    """access all and as between by case create cross delete discover distinct drop except exists explain fetch from full group having in
    inner insert int integer intersect into is join left like limit load natural not null offset on or order outer right select table text
    union using values where with""".split()
)


class Statement(NamedTuple):
    """A statement of a script: its text from its first token to its last one, and the line on which it begins, counted from 1."""

    text: str
    line: int


class Token(NamedTuple):
    """A token. Its kind is word, number, text, open (a text without an end) or mark; a word is in small letters, a text without quotes."""

    kind: str
    text: str


def statements_of(script: str) -> list[Statement]:
    """The statements of a script. A piece of spaces and comments alone is none.

    >>> statements_of("DROP ACCESS a; -- DROP;\\n ;SELECT ';' ; ")
    [Statement(text='DROP ACCESS a', line=1), Statement(text="SELECT ';'", line=2)]
    """
    return list(_statements_in(script))


def _statements_in(script: str) -> Iterator[Statement]:
    first = last = -1
    line = first_line = 1
    for found in PARTS.finditer(script):
        part = found[0]
        if part == ";":
            if first >= 0:
                yield Statement(script[first:last], first_line)
            first = -1
        elif part[0] not in " \t\r\n\f" and not part.startswith("--"):
            if first < 0:
                first, first_line = found.start(), line
            last = found.end()
        line += part.count("\n")
    if first >= 0:
        yield Statement(script[first:last], first_line)


class Pending:
    """Statements that come line by line, until a line ends with a semicolon. Each line is looked at once.

    >>> pending = Pending()
    >>> pending.more("SELECT ';\\n"), pending.is_in_text
    ([], True)
    >>> [it.text for it in pending.more("';\\n")]
    ["SELECT ';\\n'"]
    """

    def __init__(self) -> None:
        self.lines: list[str] = []
        self.is_in_text = False
        self.is_whole = True

    @property
    def is_empty(self) -> bool:
        """Whether nothing but spaces and comments waits for more."""
        return self.is_whole

    def more(self, line: str) -> list[Statement]:
        """The statements that a further line ends, if nothing is left open then."""
        self.lines.append(line)
        # Within a text a quote put before the line makes its beginning a text. What follows is cut as it would be.
        for found in PARTS.finditer(f"'{line}" if self.is_in_text else line):
            self.take(found[0])
        if not self.is_whole:
            return []
        script, self.lines = "".join(self.lines), []
        return statements_of(script)

    def take(self, part: str) -> None:
        if part[0] not in " \t\r\n\f" and not part.startswith("--"):
            self.is_whole = part == ";"
            self.is_in_text = part[0] == "'" and (len(part) == 1 or part[-1] != "'")


def is_whole(script: str) -> bool:
    """Whether a script ends with a semicolon outside texts and comments, or holds no statement.

    >>> [is_whole(it) for it in ("DROP ACCESS a;", "DROP ACCESS a; -- gone", "DROP ACCESS a", "SELECT ';", "")]
    [True, True, False, False, True]
    """
    pending = Pending()
    pending.more(script)
    return pending.is_whole


def tokens_of(text: str) -> list[Token]:
    """The tokens of a text.

    >>> tokens_of("@2 Select 'it''s' <= 7")[2:4]
    [Token(kind='word', text='select'), Token(kind='text', text="it's")]
    """
    tokens = []
    for found in TOKENS.finditer(text):
        kind, part = str(found.lastgroup), found[0]
        if kind == "word":
            tokens.append(Token("word" if len(part) <= LONGEST_NAME else "mark", part.lower()))
        elif kind == "text":
            tokens.append(Token(kind, part[1:-1].replace("''", "'")))
        elif kind != "gap":
            tokens.append(Token(kind, part))
    return tokens


def without_session(tokens: list[Token]) -> list[Token]:
    """The tokens after `@` and its number, if they begin so."""
    begins = len(tokens) > 1 and tokens[0] == ("mark", "@") and tokens[1].kind == "number"
    return tokens[2:] if begins else tokens


def first_token(text: str) -> str:
    """The first token of a text, in small letters, and nothing where there is none.

    >>> first_token("-- all cards\\nSELECT DISTINCT card")
    'select'
    """
    for found in TOKENS.finditer(text):
        if found.lastgroup != "gap":
            return found[0].lower()
    return ""


def refuse_another(query: str) -> None:
    """Raises NotAQuery where a text begins as another statement does."""
    # Most begin so, and need no closer look.
    if not query.startswith("SELECT ") and first_token(query) not in BEGIN_A_QUERY:
        raise NotAQuery("a query begins with SELECT, SCAN OK or a parenthesis")


def is_name(text: str) -> bool:
    """Whether a text can be the name of a table, a column or a constraint."""
    return bool(re.fullmatch("[A-Za-z_][A-Za-z0-9_]*", text)) and len(text) <= LONGEST_NAME and text.lower() not in RESERVED


def quoted(text: str) -> str:
    """A text as a literal.

    >>> quoted("O'Hara")
    "'O''Hara'"
    """
    return "'" + text.replace("'", "''") + "'"
