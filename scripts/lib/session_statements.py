"""Drawn statements over tables t0, t1 .. of columns c0, c1 .., with constraints that a script may make, drop and make anew."""
import random

from .second_program.database import Database, quoted, shown
from .second_program.tokens import Refused

INTEGERS, TEXTS = [0, 1, 2, 3, -1], ["u", "v", "it's"]
Kind = type[int] | type[str]
# a column of an atom, with its type
Placed = tuple[str, Kind]
SIGNS = ["=", "<>", "!=", "<", "<=", ">", ">="]


class Files:
    """Files in memory."""

    def __init__(self) -> None:
        self.contents: dict[str, bytes] = {}

    def read(self, name: str) -> bytes:
        if name not in self.contents:
            raise Refused(15, f"cannot read {quoted(name)}")
        return self.contents[name]


class Specification:
    """A constraint that a script may make, drop and make anew."""

    def __init__(self, name: str, table: str, key: list[str], fetched: list[str], bound: int) -> None:
        self.name, self.table, self.key, self.fetched, self.bound = name, table, key, fetched, bound

    def text(self) -> str:
        return f"CREATE ACCESS {self.name} ON {self.table} ({', '.join(self.key)}) FETCH ({', '.join(self.fetched)}) LIMIT {self.bound}"


class Statements:
    """Draws statements over the tables that there are."""

    def __init__(self, draw: random.Random) -> None:
        self.draw, self.files = draw, Files()
        self.tables: dict[str, dict[str, Kind]] = {}
        self.specifications: list[Specification] = []
        self.db = Database()

    def chance(self, share: float) -> bool:
        return self.draw.random() < share

    def value(self, kind: Kind) -> int | str:
        return self.draw.choice(INTEGERS if kind is int else TEXTS)

    def create_table(self) -> str:
        name = f"t{len(self.tables)}"
        self.tables[name] = {f"c{nth}": self.draw.choice([int, int, str]) for nth in range(self.draw.randint(2, 4))}
        for _ in range(self.draw.randint(1, 3)):
            self.specifications.append(self.specification(name))
        columns = ", ".join(f"{column} {'INTEGER' if kind is int else 'TEXT'}" for column, kind in self.tables[name].items())
        return f"CREATE TABLE {name} ({columns})"

    def specification(self, table: str) -> Specification:
        columns = self.draw.sample(list(self.tables[table]), len(self.tables[table]))
        cut = self.draw.choice([0, 1, 1, 1, 2])
        key, fetched = columns[:cut], columns[cut:] or columns[:1]
        if self.chance(0.3):
            fetched = fetched[:1]
        return Specification(f"k{len(self.specifications)}", table, key, fetched, self.draw.choice([2, 3, 4, 6, 20, 20]))

    def rows(self, table: str) -> list[list[int | str]]:
        return [[self.value(kind) for kind in self.tables[table].values()] for _ in range(self.draw.randint(1, 5))]

    def insert(self, table: str) -> str:
        tuples = ", ".join(f"({', '.join(map(shown, row))})" for row in self.rows(table))
        return f"INSERT INTO {table} VALUES {tuples}"

    def load(self, table: str) -> str:
        name = f"f{len(self.files.contents)}.csv"
        columns = self.draw.sample(list(self.tables[table]), len(self.tables[table]))
        rows = [[str(self.value(self.tables[table][column])) for column in columns] for _ in range(self.draw.randint(1, 3))]
        if self.chance(0.15):
            self.draw.choice([columns, *rows]).append("1")
        self.files.contents[name] = "".join(",".join(row) + "\n" for row in [columns, *rows]).encode()
        return f"LOAD {table} FROM '{name if self.chance(0.9) else 'missing.csv'}'"

    def delete(self, table: str) -> str:
        if self.chance(0.1):
            return f"DELETE FROM {table}"
        column, kind = self.draw.choice(list(self.tables[table].items()))
        return f"DELETE FROM {table} WHERE {column} {self.draw.choice(SIGNS)} {shown(self.value(kind))}"

    # ---- queries

    def some_specification(self) -> Specification:
        """Mostly of a constraint that is there."""
        live = {one.name for one in self.db.constraints}
        fit = [one for one in self.specifications if one.name in live]
        return self.draw.choice(fit if fit and self.chance(0.85) else self.specifications)

    def key_value(self, one: Specification, column: str) -> str:
        """Mostly a value that a row has there."""
        table = self.db.tables.get(one.table)
        values = [row[table.names.index(column)] for row in table.rows] if table else []
        return shown(self.draw.choice(values) if values and self.chance(0.8) else self.value(self.tables[one.table][column]))

    def kinds(self, one: Specification) -> list[Kind]:
        return [self.tables[one.table][column] for column in one.key + one.fetched]

    def chain(self, shape: list[Kind]) -> str | None:
        """A block whose atoms are each led to by a constraint, from constants and from the atoms before."""
        atoms, conditions, places = [], [], []
        for nth in range(self.draw.choice([1, 1, 2, 2, 3])):
            one = self.some_specification()
            atoms.append(f"{one.table} x{nth}")
            new = [(f"x{nth}.{column}", kind) for column, kind in zip(one.key + one.fetched, self.kinds(one))]
            for (place, kind), column in zip(new, one.key):
                conditions.append(f"{place} = {self.some_place(places, kind) or self.key_value(one, column)}")
            places += new
        return self.block(shape, atoms, conditions + self.further_conditions(places), places)

    def some_place(self, places: list[Placed], kind: Kind) -> str | None:
        fit = [place for place, its in places if its is kind]
        return self.draw.choice(fit) if fit and self.chance(0.8) else None

    def further_conditions(self, places: list[Placed]) -> list[str]:
        conditions = []
        for _ in range(self.draw.choice([0, 0, 0, 1, 2])):
            place, kind = self.draw.choice(places)
            conditions.append(f"{place} {self.draw.choice(SIGNS)} {self.some_place(places, kind) or shown(self.value(kind))}")
        return conditions

    def block(self, shape: list[Kind], atoms: list[str], conditions: list[str], places: list[Placed]) -> str | None:
        """A block with this output, where its places have it."""
        outputs = [[place for place, its in places if its is kind] for kind in shape]
        if not all(outputs):
            return None
        head = f"SELECT DISTINCT {', '.join(map(self.draw.choice, outputs))} FROM {', '.join(atoms)}"
        return f"{head} WHERE {' AND '.join(conditions)}" if conditions else head

    def by_key(self, shape: list[Kind]) -> str | None:
        """A block that is led to by its guide's answers: its output is the key of a constraint."""
        fit = [one for one in self.specifications if one.key and self.kinds(one)[: len(one.key)] == shape]
        if not fit:
            return self.chain(shape)
        one = self.draw.choice(fit)
        places = [(f"x.{column}", kind) for column, kind in zip(one.key + one.fetched, self.kinds(one))]
        conditions = self.further_conditions(places) if self.chance(0.3) else []
        head = f"SELECT DISTINCT {', '.join(f'x.{column}' for column in one.key)} FROM {one.table} x"
        return f"{head} WHERE {' AND '.join(conditions)}" if conditions else head

    def tree(self, shape: list[Kind], depth: int, has_guide: bool = False) -> str | None:
        if depth == 0 or self.chance(0.3):
            return (self.by_key if has_guide else self.chain)(shape)
        sign = self.draw.choice(["UNION", "EXCEPT", "EXCEPT"])
        left, right = self.tree(shape, depth - 1, has_guide), self.tree(shape, depth - 1, has_guide or sign == "EXCEPT")
        return left and right and f"({left}) {sign} ({right})"

    def query(self) -> str:
        text = None
        while not text:
            one = self.some_specification()
            shape = self.kinds(one)[: len(one.key)] if one.key and self.chance(0.6) else [self.draw.choice([int, int, str])]
            text = self.tree(shape, self.draw.choice([0, 0, 1, 1, 2]))
        return text.replace(" t0 ", " nope ") if self.chance(0.01) else text

    def at_once(self) -> str:
        """A statement with a query that isn't opened."""
        block = self.chain([self.draw.choice([int, int, str])])
        turn = self.draw.randrange(4)
        if turn == 0 or block is None:
            return f"EXPLAIN {self.query()}"
        if turn == 1:
            return f"SCAN OK {self.query()}"
        if turn == 2:
            return f"SPECIALISE {block}"
        ref = block.split(" FROM ")[0].removeprefix("SELECT DISTINCT ")
        fold = self.draw.choice(["COUNT(DISTINCT {})", "MIN({})", "MAX({})"]).format(ref)
        return f"{block.replace(f'DISTINCT {ref}', f'{ref}, {fold}', 1)} GROUP BY {ref}"

    def discover(self, table: str) -> str:
        key, fetched = self.draw.sample(list(self.tables[table]), 2)
        return self.draw.choice([f"DISCOVER {table} LIMIT 2", f"DISCOVER {table} ({key}) FETCH ({fetched})"])
