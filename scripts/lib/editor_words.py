"""The words that the editors colour, as the sources have them."""
import re

from .place import TOP

TYPES = {"int", "integer", "text"}


def read(path: str) -> str:
    return (TOP / path).read_text(encoding="utf-8")


def reserved() -> list[str]:
    lists = re.search(r"RESERVED: \[&\[&str\]; \d+\] = \[(.*?)^\];", read("crates/beas_core/src/folded_names.rt"), re.S | re.M)
    return re.findall(r'"(\w+)"', lists[1]) if lists else []


def of_grammar() -> list[str]:
    """The words that the grammar names, reserved or not."""
    texts = read("crates/sql_text/specs/Words.antt") + read("crates/piece_reader/specs/Sayings.antt")
    return re.findall(r'= word \(codes "(\w+)"\)', texts)
