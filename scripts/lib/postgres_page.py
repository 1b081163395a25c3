"""What docs/postgres.md and docs/scale.md say of the bridge's figures: each part stands between marks, and there are pictures."""
from collections.abc import Callable, Iterable, Iterator
from pathlib import Path
from typing import Any

from .benchmark_page import picture
from .benchmark_sets import SETS
from .page_marks import paragraph
from .postgres_bench import FEW, LARGE, SOME, WAYS, Figures
from .spread_bench import PARTS
from .spread_bench import WAYS as SPREAD_WAYS

COLOURS = {"bridge": "#d1495b", "own": "#00798c", "bare": "#edae49"}
SHORT = {"bridge": "the bridge", "own": "PostgreSQL", "bare": "without indexes"}
# where each part stands
PLACES = {"sizes": "docs/postgres.md", "edges": "docs/postgres.md", "spread": "docs/scale.md"}
PLANS = {
    True: "The library plans each query, and that time is the bridge's.",
    False: "Plans were made before by the second program, so the bridge's times have none for it.",
}
# Other work on the machine has changed times that were taken under more load than the servers' own.
QUIET = 1.5


def told(seconds: float) -> str:
    return f"{seconds * 1e3:.2f} ms" if seconds < 1 else f"{seconds:.2f} s"


def table(heads: str, rows: Iterable[Iterable[str]]) -> str:
    names = heads.split(", ")
    return "\n".join([f"| {' | '.join(names)} |", "|---" * len(names) + "|", *(f"| {' | '.join(cells)} |" for cells in rows)])


def taken(runs: list[Figures]) -> str:
    """When and where the figures were taken, and whether other work went on."""
    days, loads = sorted({it["taken"][:10] for it in runs}), [it["load"] for it in runs]
    text = f"Taken on {' and '.join(days)}, with {runs[-1]['versions']}, {runs[-1]['machine']}, in one connection. {PLANS[runs[-1]['plans']]}"
    if max(loads) <= QUIET:
        return text
    return f"{text} **The times are to be taken again**: the machine did other work (load up to {max(loads):.1f}). The counts stay."


# ---- sizes


def in_order(runs: Iterable[Figures], name: str) -> list[Figures]:
    return sorted((it for it in runs if it["set"] == name), key=lambda it: int(it["rows"]))


def cells_of(it: Figures, way: str) -> list[str]:
    of = it[way]
    times = [told(of[field]) for field in ("time", "late", "cold", "cold late")]
    return [f"{it['rows']:,}", WAYS[way], *times, f"{of['pages']:,.0f}", f"{of['most pages']:,}", f"{of['cold pages']:,.1f}"]


def sizes_text(results: dict[str, Figures]) -> str:
    runs = list(results.values())
    parts = [paragraph(f"{taken(runs)} {runs[-1]['queries']} queries of each set; {SOME} without indexes, and {FEW} from {LARGE:,} rows on.")]
    for name in sorted({it["set"] for it in runs}):
        its, title = in_order(runs, name), SETS[name](1000).title
        parts += [f"### {title[0].upper()}{title[1:]}"]
        heads = "Rows, By, Median, p99, Cold, Cold p99, Pages (mean), Pages (most), From outside (cold)"
        parts += [table(heads, (cells_of(it, way) for it in its for way in WAYS))]
        more = ([f"{it['rows']:,}", f"{it['size']:,} MB", str(it["steps"]), f"{it['bound']:,}", f"{it['reads']:.1f}", str(it["late reads"])] for it in its)
        parts += [table("Rows, On disk, Steps, Bound, Reads (mean), Reads (p99)", more)]
        parts += [f"![{name}: {kind}](postgres-{kind}-{name}.svg)" for kind in ("pages", "time")]
    return "\n\n".join(parts)


Line = tuple[str, str, list[tuple[int, float]]]


def draw(results: dict[str, Figures], folder: Path) -> None:
    """The pictures of each set: pages beside reads and bound, and the times that 99 of 100 queries keep."""
    for name in {it["set"] for it in results.values()}:
        runs = in_order(results.values(), name)

        def line(title: str, colour: str, of: Callable[[Figures], Any], runs: list[Figures] = runs) -> Line:
            return title, colour, [(it["rows"], of(it)) for it in runs]

        pages = [line(SHORT[way], COLOURS[way], lambda it, way=way: it[way]["pages"]) for way in SHORT]
        pages += [line("bound, in tuples", "#888", lambda it: it["bound"]), line("reads, p99", "#3b3b98", lambda it: it["late reads"])]
        late = [line(SHORT[way], COLOURS[way], lambda it, way=way: it[way]["late"]) for way in SHORT]
        late.append(line("the bridge, cold", "#8d6a9f", lambda it: it["bridge"]["cold late"]))
        picture(str(folder / f"postgres-pages-{name}.svg"), f"{name}: pages of a query, its reads and its bound", lambda y: f"{y:,.0f}", pages)
        picture(str(folder / f"postgres-time-{name}.svg"), f"{name}: time of a query, p99", told, late)


# ---- edges


def edges_text(found: Figures) -> str:
    rows = []
    for it in found["cases"]:
        of = [it["bridge"], it["own"]]
        rows.append([it["case"], f"{it['rows']:,}", *(f"{way['pages']:,.0f}" for way in of), *(told(way["time"]) for way in of)])
    heads = "Case, Rows, Pages (the bridge), Pages (PostgreSQL), Median (the bridge), Median (PostgreSQL)"
    return f"{paragraph(taken([found]))}\n\n{table(heads, rows)}"


# ---- spread


def spread_parts(it: Figures) -> Iterator[str]:
    title = SETS[it["set"]](1000).title
    yield f"**{title[0].upper()}{title[1:]}**, {it['rows']:,} rows, {it['queries']} queries:"
    rows = []
    for way, name in SPREAD_WAYS.items():
        of = it[way]
        rows.append([name, told(of["time"]), told(of["late"]), *(f"{of[field]:,.1f}" for field in ("asks", "servers", "rows"))])
    yield table("By, Median, p99, Asks of servers, Servers asked, Rows that they send", rows)
    steps = ([str(of["step"]), of["table"], f"{of['keys']:.1f}", f"{of['servers']:.2f}", str(of["most"])] for of in it["steps"])
    yield table("Step of the bridge, Table, Keys (mean), Servers asked (mean), At most", steps)


def spread_text(found: Figures) -> str:
    head = f"Measured over {PARTS} servers with a fourth in front, all on one machine. {taken([found])}"
    return "\n\n".join([paragraph(head), *(part for it in found["sets"] for part in spread_parts(it))])


TEXTS: dict[str, Callable[[Any], str]] = {"sizes": sizes_text, "edges": edges_text, "spread": spread_text}
