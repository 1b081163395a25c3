"""Parts of a page that a script writes: each stands between two marks."""
import re
import textwrap

from .place import TOP, read

END = "<!-- end of figures -->"


def paragraph(text: str) -> str:
    return textwrap.fill(" ".join(text.split()), 120, break_on_hyphens=False)


def put(page: str, part: str, text: str) -> None:
    """Writes a part of a page of the repository: what stands between the part's mark and the end."""
    old = read(page)
    found = re.compile(rf"(<!-- {part}: [^\n]*-->\n).*?({re.escape(END)})", re.S)
    if len(found.findall(old)) != 1:
        raise ValueError(f"{page} has no marks of {part}, or several")
    (TOP / page).write_text(found.sub(lambda its: f"{its[1]}\n{text.strip()}\n\n{its[2]}", old), encoding="utf-8")
