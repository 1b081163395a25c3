"""Workloads of SCAN OK, of groups and of SPECIALISE."""
from .timed import EMPTY_KEY, MILLION, Timed, beyond, rows_of, sqlite_pass, taking_turns

FIND = "SELECT DISTINCT a, b FROM r WHERE b = 7"
GROUPED = "SELECT b, COUNT(DISTINCT a), MAX(a) FROM r GROUP BY b"
TABLE = "CREATE TABLE r (a INTEGER, b INTEGER)"
FILL = "INSERT INTO r VALUES (?, ?)"


def scan(program: str) -> Timed:
    """A selection that keeps a thousandth of a million rows, and that no constraint covers."""
    rows = [(i, i % 1000) for i in range(MILLION)]
    rows_of("rows.csv", rows)
    one_pass = sqlite_pass([TABLE], [], [(FILL, rows)], [(f"{FIND} ORDER BY 1, 2", ())])
    (spent, beside), refusals = taking_turns(program, [f"{TABLE}; LOAD r FROM 'rows.csv';\n"], [[f"SCAN OK {FIND};\n"]], one_pass)
    return spent, refusals, beside


def grouped(program: str, count: int = 100_000) -> Timed:
    """All rows, in 5,000 groups."""
    rows = [(i, i * 7 % 5000) for i in range(count)]
    rows_of("rows.csv", rows)
    one_pass = sqlite_pass([TABLE], ["CREATE INDEX ba ON r (b, a)"], [(FILL, rows)], [(f"{GROUPED} ORDER BY 1", ())] * 5)
    (spent, beside), refusals = taking_turns(program, [EMPTY_KEY, "LOAD r FROM 'rows.csv';\n"], [[f"{GROUPED};\n"] * 5], one_pass)
    return spent / 5, refusals, beside / 5


def specialised(program: str, constraints: int) -> Timed:
    """16 candidates, and constraints of which each wants all of them, so that each set is tried."""
    columns = [f"c{nth}" for nth in range(16)]
    key = ", ".join(columns)
    begun = [f"CREATE TABLE t ({', '.join(f'{it} INTEGER' for it in columns)});\n"]
    begun += [f"CREATE ACCESS k{nth} ON t ({key}) FETCH (c0) LIMIT 5;\n" for nth in range(constraints)]
    spent, refusals = beyond(program, begun, [f"SPECIALISE SELECT DISTINCT {key} FROM t;\n"] * 10)
    return spent / 10, refusals
