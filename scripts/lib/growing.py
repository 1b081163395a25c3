"""Inputs of each kind that grow, at any size n."""
import itertools
import random
from collections.abc import Callable, Iterable
from typing import NamedTuple

MANY = 16_777_216
LATE = 99_991_231
ONE_GROUP = f"CREATE TABLE t (a INTEGER); CREATE ACCESS k ON t () FETCH (a) LIMIT {MANY};\n"
WIDE = [f"c{nth}" for nth in range(64)]
WIDE_TABLE = f"CREATE TABLE t ({', '.join(f'{column} INTEGER' for column in WIDE)});\n"


class Input(NamedTuple):
    """A script and the files that it loads."""

    script: str
    files: dict[str, str] = {}


def lines_of(header: str, lines: Iterable[object]) -> str:
    return f"{header}\n" + "".join(f"{line}\n" for line in lines)


# ---- one long group


def load_before(size: int) -> Input:
    """Rows that all go before a greater one."""
    script = f"{ONE_GROUP}INSERT INTO t VALUES ({LATE});\nLOAD t FROM 'rows.csv';\n"
    return Input(script, {"rows.csv": lines_of("a", range(size))})


def load_ascending(size: int) -> Input:
    return Input(f"{ONE_GROUP}LOAD t FROM 'rows.csv';\n", {"rows.csv": lines_of("a", range(size))})


def one_at_a_time(value: Callable[[int, int], int]) -> Callable[[int], Input]:
    """INSERTs of one row each, the values by their number and the number of all."""
    return lambda size: Input(ONE_GROUP + "".join(f"INSERT INTO t VALUES ({value(nth, size)});\n" for nth in range(size)))


def before_the_greatest(nth: int, _: int) -> int:
    return nth if nth else LATE


def after_the_first(nth: int, _: int) -> int:
    return LATE - nth if nth else 0


def into_the_middle(nth: int, size: int) -> int:
    return 2 * size - nth if nth % 2 else nth


def at_four_fronts(nth: int, size: int) -> int:
    """Two ascending and two descending sequences, a gap between each two."""
    step, front = divmod(nth, 4)
    return 10 * size * (front // 2) + (4 * size - step if front % 2 else step)


def parts_from_the_last(size: int) -> Input:
    """Ten parts of a sorted file, from the last to the first."""
    cuts = [size * nth // 10 for nth in range(11)]
    files = {f"part{nth}.csv": lines_of("a", range(cuts[nth], cuts[nth + 1])) for nth in range(10)}
    return Input(ONE_GROUP + "".join(f"LOAD t FROM '{name}';\n" for name in reversed(files)), files)


# ---- joins


def friends_in_common(size: int) -> Input:
    rows = (f"{person},{step * nth + 10}" for nth in range(size) for person, step in ((1, 1), (2, 2)))
    script = f"""CREATE TABLE friend (a INTEGER, b INTEGER); CREATE ACCESS k ON friend (a) FETCH (b) LIMIT {MANY}; LOAD friend FROM 'rows.csv';
SELECT DISTINCT x.b FROM friend x, friend y WHERE x.a = 1 AND y.a = 2 AND y.b = x.b;
"""
    return Input(script, {"rows.csv": lines_of("a,b", rows)})


def scanned_join(size: int) -> Input:
    script = """CREATE TABLE t (a INTEGER, b INTEGER); LOAD t FROM 'rows.csv';
SCAN OK SELECT DISTINCT x.a FROM t x, t y WHERE y.a = x.b;
"""
    return Input(script, {"rows.csv": lines_of("a,b", (f"{nth},{7 * nth}" for nth in range(size)))})


def scanning_blocks(size: int) -> Input:
    """So many blocks over one table, each of which scans it."""
    table = {"rows.csv": lines_of("a,b", (f"{nth},{7 * nth}" for nth in range(20_000)))}
    blocks = " UNION ".join(f"SELECT b FROM t WHERE a = {nth}" for nth in range(size))
    return Input(f"CREATE TABLE t (a INTEGER, b INTEGER); LOAD t FROM 'rows.csv';\nSCAN OK {blocks};\n", table)


# ---- constraints


def constraints(names: Iterable[str]) -> str:
    return "CREATE TABLE t (a INTEGER, b INTEGER);\n" + "".join(f"CREATE ACCESS {it} ON t (a) FETCH (b) LIMIT 5;\n" for it in names)


def made_and_dropped(size: int) -> Input:
    names = [f"k{nth}" for nth in range(size)]
    return Input(constraints(names) + "".join(f"DROP ACCESS {it};\n" for it in names))


def queries_beside(size: int) -> Input:
    """Constraints on one table and as many queries on another."""
    other = "CREATE TABLE u (a INTEGER, b INTEGER); CREATE ACCESS z ON u (a) FETCH (b) LIMIT 5;\n"
    return Input(constraints(f"k{nth}" for nth in range(size)) + other + "SELECT DISTINCT b FROM u WHERE a = 1;\n" * size)


def specialised(size: int) -> Input:
    """Constraints of which each wants all candidates, so that all sets of them are tried: of 16, or of 10 where few constraints are made."""
    columns = [f"c{nth}" for nth in range(16 if size >= 1000 else 10)]
    table = f"CREATE TABLE t ({', '.join(f'{it} INTEGER' for it in columns)});\n"
    key = ", ".join(columns)
    accesses = (f"CREATE ACCESS k{nth} ON t ({key}) FETCH (c0) LIMIT 5;\n" for nth in range(size))
    return Input(f"{table}{''.join(accesses)}SPECIALISE SELECT DISTINCT {key} FROM t;\n")


def specialised_apart(size: int) -> Input:
    """Constraints of which each has a key of its own, so that none stands for another, over 16 candidates, or 10 where few are made. The
    second table has no constraint, so all sets of them are tried."""
    last = 15 if size >= 1000 else 9
    keys = [it for long in range(last // 2 + 1, last + 1) for it in itertools.combinations(range(1, last + 1), long)]
    tables = f"CREATE TABLE t ({', '.join(f'c{nth} INTEGER' for nth in range(64))});\nCREATE TABLE u (a INTEGER);\n"

    def access(nth: int) -> str:
        key = ", ".join(f"c{it}" for it in keys[nth % len(keys)])
        return f"CREATE ACCESS k{nth} ON t ({key}) FETCH (c0, c{16 + nth // len(keys)}) LIMIT 5;\n"

    return Input(f"{tables}{''.join(map(access, range(size)))}SPECIALISE SELECT DISTINCT t.c0 FROM t, u WHERE u.a = t.c0;\n")


# ---- wide tuples


def wide_rows(size: int) -> dict[str, str]:
    middle = ",".join(["5"] * 62)
    return {"rows.csv": lines_of(",".join(WIDE), (f"1,{middle},{nth}" for nth in range(size)))}


def wide_deleted(size: int) -> Input:
    """Tuples of 65 columns, since the key is fetched too, half of which go."""
    access = f"CREATE ACCESS k ON t (c0) FETCH ({', '.join(WIDE)}) LIMIT {MANY};\n"
    return Input(f"{WIDE_TABLE}{access}LOAD t FROM 'rows.csv';\nDELETE FROM t WHERE c63 >= {size // 2};\n", wide_rows(size))


def wide_loaded_twice(size: int) -> Input:
    access = f"CREATE ACCESS k ON t (c0) FETCH ({', '.join(WIDE)}) LIMIT {size};\n"
    return Input(WIDE_TABLE + access + "LOAD t FROM 'rows.csv';\n" * 2, wide_rows(size))


# ---- one kind of text


def text_of(part: str, before: str = "", after: str = "") -> Callable[[int], Input]:
    """A script with so many bytes of one kind."""
    return lambda size: Input(before + part * (size // len(part)) + after)


SMALL_TABLE = "CREATE TABLE t (a INTEGER, b INTEGER); CREATE ACCESS k ON t (a) FETCH (b) LIMIT 9;\n"


def file_of(part: str) -> Callable[[int], Input]:
    """A CSV file with so many bytes of one kind after its header."""
    return lambda size: Input("CREATE TABLE t (a TEXT);\nLOAD t FROM 'rows.csv';\n", {"rows.csv": "a\n" + part * (size // len(part))})


def deleted(size: int) -> Input:
    rows = {"rows.csv": lines_of("a,b", (f"{nth // 5},{nth}" for nth in range(size)))}
    return Input(f"{SMALL_TABLE}LOAD t FROM 'rows.csv';\nDELETE FROM t;\n", rows)


def discovered(size: int) -> Input:
    """Pairs of 64 columns over rows at random."""
    draw = random.Random(size)
    rows = (",".join(str(draw.randrange(100)) for _ in WIDE) for _ in range(size))
    return Input(f"{WIDE_TABLE}LOAD t FROM 'rows.csv';\nDISCOVER t LIMIT 5;\n", {"rows.csv": lines_of(",".join(WIDE), rows)})


def stepped(size: int) -> Input:
    """A session's query with so many probes."""
    script = f"""CREATE TABLE keys (a INTEGER); CREATE ACCESS all_keys ON keys () FETCH (a) LIMIT {MANY}; LOAD keys FROM 'keys.csv';
{SMALL_TABLE}@1 SELECT DISTINCT t.b FROM keys, t WHERE t.a = keys.a;
"""
    return Input(script + "@1 STEP;\n" * (size + 2), {"keys.csv": lines_of("a", range(size))})
