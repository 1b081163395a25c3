"""The benchmark's page and pictures."""
import math
import textwrap
from collections.abc import Callable, Iterator
from typing import Any

from .benchmark_sets import SETS, Set

FEWEST_FOR_MEMORY = 100_000
ENGINES = ["beas", "sqlite", "postgres"]
NAMES = {"beas": "beas", "sqlite": "SQLite", "postgres": "PostgreSQL"}
COLOURS = {"beas": "#d1495b", "sqlite": "#00798c", "postgres": "#edae49"}
Runs = dict[str, dict[str, Any]]
Points = list[tuple[int, float]]


def told(seconds: float | None) -> str:
    if seconds is None:
        return "not taken"
    for unit, factor in (("s", 1), ("ms", 1e3), ("µs", 1e6)):
        if seconds * factor >= 1:
            return f"{seconds * factor:.3g} {unit}"
    return f"{seconds * 1e9:.0f} ns"


def picture(path: str, title: str, unit: Callable[[float], str], series: list[tuple[str, str, Points]]) -> None:
    """A chart on logarithmic axes; series are (name, colour, points). What is 0, as memory below a megabyte, has no place there."""
    series = [(name, colour, shown) for name, colour, its in series if (shown := [it for it in its if it[1] > 0])]
    points = [it for _, _, its in series for it in its]
    low_x, high_x = (f(math.log10(x) for x, _ in points) for f in (min, max))
    low_y, high_y = math.floor(min(math.log10(y) for _, y in points)), math.ceil(max(math.log10(y) for _, y in points) + 0.01)
    place_x = lambda x: 70 + 420 * (math.log10(x) - low_x) / max(high_x - low_x, 1e-9)
    place_y = lambda y: 300 - 240 * (math.log10(y) - low_y) / (high_y - low_y)
    parts = ['<svg xmlns="http://www.w3.org/2000/svg" viewBox="0 0 640 350" font-family="sans-serif" font-size="12">',
             '<rect width="640" height="350" fill="white"/>', f'<text x="20" y="24" font-size="15">{title}</text>']
    for power in range(low_y, high_y + 1):
        y = place_y(10**power)
        parts.append(f'<line x1="70" x2="490" y1="{y:.1f}" y2="{y:.1f}" stroke="#ddd"/>'
                     f'<text x="62" y="{y + 4:.1f}" text-anchor="end">{unit(10.0**power)}</text>')
    for x in sorted({x for x, _ in points}):
        parts.append(f'<text x="{place_x(x):.1f}" y="320" text-anchor="middle">{x:,}</text>')
    parts.append('<text x="280" y="340" text-anchor="middle">rows of the greatest table</text>')
    names = sorted(series, key=lambda it: -it[2][-1][1])
    last = 0.0
    for name, colour, its in names:
        line = " ".join(f"{place_x(x):.1f},{place_y(y):.1f}" for x, y in its)
        parts.append(f'<polyline points="{line}" fill="none" stroke="{colour}" stroke-width="2.5"/>')
        parts += [f'<circle cx="{place_x(x):.1f}" cy="{place_y(y):.1f}" r="4" fill="{colour}"/>' for x, y in its]
        last = max(last + 16, place_y(its[-1][1]) + 4)
        parts.append(f'<text x="500" y="{last:.1f}" fill="{colour}">{name}</text>')
    with open(path, "w", encoding="utf-8") as file:
        file.write("\n".join([*parts, "</svg>\n"]))


def points_of(runs: Runs, name: str, engine: str, field: str) -> Points:
    found = [(int(key.split()[1]), it[field]) for key, it in runs.items()
             if key.split()[0] == name and key.split()[2] == engine and it.get(field) is not None]
    return sorted(found)


def per_million(run: dict[str, Any]) -> float | None:
    """MB for each million rows of all tables of a run, where they are so many that it tells something."""
    return run["memory"] / run["rows"] * 1e6 if run["memory"] is not None and run["rows"] >= FEWEST_FOR_MEMORY else None


def megabytes(count: float) -> str:
    return f"{count:,.0f} MB"


# what a picture of a set shows: its file's name, its title, a field of the runs, how a number of it is written
SHOWN = [("time", "time of a query", "query", told), ("load", "time to load all tables with their indexes", "load", told),
         ("memory", "memory for each million rows of all tables", "per_million", megabytes)]


def pictures(results: dict[str, Any], folder: str) -> dict[str, list[tuple[str, str]]]:
    """Draws all for which beas has numbers, and gives their files, by the name of their set."""
    drawn = {name: [] for name in SETS}
    runs = {key: {**it, "per_million": per_million(it)} for key, it in results["runs"].items()}
    for name in SETS:
        for kind, title, field, unit in SHOWN if name != "chain" else SHOWN[:1]:
            series = [(NAMES[it], COLOURS[it], points_of(runs, name, it, field)) for it in ENGINES if points_of(runs, name, it, field)]
            if any(y > 0 for _, y in points_of(runs, name, "beas", field)):
                picture(f"{folder}/{kind}-{name}.svg", f"{name}: {title}", unit, series)
                drawn[name].append((title, f"{kind}-{name}.svg"))
    bounds, reads = points_of(runs, "cafes", "beas", "bound"), points_of(runs, "cafes", "beas", "reads")
    if bounds:
        picture(f"{folder}/reads.svg", "One query over tables of growing size", lambda y: f"{y:,.0f}", [
            ("bound", "#888", bounds), ("reads of a query", COLOURS["beas"], reads), ("rows in the table", "#00798c", [(x, x) for x, _ in bounds])])
    return drawn


def row_of(count: int, engine: str, it: dict[str, Any]) -> str:
    of_million = per_million(it)
    cells = [f"{count:,}", NAMES[engine], told(it["query"]), told(it["load"]), "not taken" if it["memory"] is None else megabytes(it["memory"]),
             "" if of_million is None else megabytes(of_million), *((f"{it['bound']:,}", f"{it['reads']:,.1f}") if engine == "beas" else ("", ""))]
    return f"| {' | '.join(cells)} |"


def item(text: str) -> str:
    return textwrap.fill(text, 118, initial_indent="- ", subsequent_indent="  ")


def statements_of(count: int, make: Callable[[int], Set]) -> str:
    """The tables, constraints and query of a set with so many rows."""
    the_set = make(count)
    query = textwrap.fill(the_set.query, 118, subsequent_indent="  ", break_long_words=False)
    return "\n".join(["```sql", *(f"{it};" for it in (*the_set.schema(), *the_set.accesses(), query)), "```"])


def with_part(page: str, mark: str, part: str) -> str:
    """A page with another part between the line of a mark, <!-- mark -->, and the next <!-- end -->."""
    before, begins, rest = page.partition(f"<!-- {mark} -->\n")
    _, ends, after = rest.partition("<!-- end -->\n")
    if not ends:
        raise ValueError(f"the page has no part {mark}")
    return f"{before}{begins}{part}{ends}{after}"


def page(results: dict[str, Any], drawn: dict[str, list[tuple[str, str]]]) -> Iterator[str]:
    yield ("# Benchmarks\n\nMade by `scripts/benchmark`. Nothing here is proved. All engines have the same rows in memory, the same covering\n"
           "indexes and the same queries. PostgreSQL is a server of its own, without sync.")
    yield "\n".join(map(item, [
        f"**When, where and what**: {results['machine']}.",
        "**Rows** are those of the largest table.",
        "**A query**: the mean time of all queries of a set, in the best of three passes over them. beas reads each query from its text; the"
        " others have it prepared. All answers that were compared were equal. One pass differs from the next by up to a fifth, and a set has"
        " other rows and other queries at each size.",
        "**Times** of beas and SQLite are processor time. Those of PostgreSQL are wall time at its client, so a query's time includes the way"
        " to the server and back.",
        "**Memory** is the most that the process grew by, and for PostgreSQL what its files grew by. *Of a million rows* is this memory divided"
        f" by the millions of rows of all tables, from {FEWEST_FOR_MEMORY:,} rows of all tables on.",
    ]))
    if any(it["query"] is None for it in results["runs"].values()):
        yield "'Not taken' means that beas was a program without proof, whose bounds and reads are the same and whose times tell nothing."
    if points_of(results["runs"], "cafes", "beas", "reads"):
        yield "![reads](reads.svg)"
    for name, make in SETS.items():
        counts = sorted({int(key.split()[1]) for key in results["runs"] if key.startswith(f"{name} ")})
        if not counts:
            continue
        title = make(1000).title
        yield f"## {title[0].upper()}{title[1:]}"
        yield statements_of(counts[-1], make)
        if name == "chain":
            yield item("The limit of r3 is the size of its one group, so the bound grows with the rows, and so do the reads and the time.")[2:]
        there = [(count, it) for count in counts for it in ENGINES if f"{name} {count} {it}" in results["runs"]]
        yield "\n".join(["| Rows | Engine | A query | Load | Memory | Of a million rows | Bound | Reads of a query |", "|---|---|---|---|---|---|---|---|",
                         *(row_of(count, it, results["runs"][f"{name} {count} {it}"]) for count, it in there)])
        yield from (f"![{name}: {title}]({path})" for title, path in drawn[name])
    yield "[times.md](times.md) has times of single statements."
