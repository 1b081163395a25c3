"""Inputs whose values or names collide, at any size n."""
from .colliding import codes_in_one_slot, names_in_one_slot, pairs_of_a_key, pairs_of_a_step, texts_of_32_bytes
from .growing import MANY, Input, constraints, lines_of


def colliding_texts(size: int) -> Input:
    """Fields in quotes, whose own are doubled."""
    rows = ('"' + text.replace('"', '""') + '"' for text in texts_of_32_bytes(size))
    return Input("CREATE TABLE t (a TEXT); CREATE ACCESS k ON t (a) FETCH (a) LIMIT 1;\nLOAD t FROM 'rows.csv';\n", {"rows.csv": lines_of("a", rows)})


def colliding_keys(size: int) -> Input:
    rows = (f"{a},{b}" for a, b in pairs_of_a_key(size))
    script = "CREATE TABLE t (a INTEGER, b INTEGER); CREATE ACCESS k ON t (a, b) FETCH (a) LIMIT 1;\nLOAD t FROM 'rows.csv';\n"
    return Input(script, {"rows.csv": lines_of("a,b", rows)})


def colliding_join(size: int) -> Input:
    script = f"""CREATE TABLE t (a INTEGER, b INTEGER); CREATE ACCESS k ON t () FETCH (a, b) LIMIT {MANY}; LOAD t FROM 'rows.csv';
CREATE TABLE s (a INTEGER, b INTEGER, c INTEGER); CREATE ACCESS sk ON s (a, b) FETCH (c) LIMIT 1; INSERT INTO s VALUES (1, 2, 3);
SELECT DISTINCT s.c FROM t, s WHERE t.a = s.a AND t.b = s.b;
"""
    return Input(script, {"rows.csv": lines_of("a,b", (f"{a},{b}" for a, b in pairs_of_a_step(size)))})


def colliding_values(size: int) -> Input:
    """Two groups that have the same tuples, and are joined by both columns of these."""
    script = f"""CREATE TABLE t (g INTEGER, a INTEGER, b INTEGER); CREATE ACCESS k ON t (g) FETCH (a, b) LIMIT {MANY}; LOAD t FROM 'rows.csv';
SELECT DISTINCT x.b FROM t x, t y WHERE x.g = 1 AND y.g = 2 AND y.a = x.a AND y.b = x.b;
"""
    return Input(script, {"rows.csv": lines_of("g,a,b", (f"{group},{a},{b}" for a, b in pairs_of_a_step(size, 0) for group in (1, 2)))})


def colliding_names(size: int) -> Input:
    return Input(constraints(names_in_one_slot(size)))


def colliding_tuples(size: int) -> Input:
    """Tuples of one key. Each value has itself as its code, since all come in order first, in another table."""
    script = f"""CREATE TABLE s (a INTEGER); CREATE ACCESS sk ON s (a) FETCH (a) LIMIT 1; LOAD s FROM 'codes.csv';
CREATE TABLE t (a INTEGER, b INTEGER); CREATE ACCESS k ON t () FETCH (a, b) LIMIT {MANY}; LOAD t FROM 'rows.csv';
"""
    rows = (f"{a},{b}" for a, b in codes_in_one_slot(size))
    return Input(script, {"codes.csv": lines_of("a", range(size)), "rows.csv": lines_of("a,b", rows)})


def colliding_aliases(size: int) -> Input:
    """A block of so many atoms that it is refused, once all of its names are found."""
    names = list(names_in_one_slot(size))
    atoms = ", ".join(f"t {name}" for name in names)
    return Input(f"CREATE TABLE t (a INTEGER);\nSELECT DISTINCT {names[0]}.a FROM {atoms} WHERE {names[-1]}.a = 1;\n")
