"""Drawn scripts for beas and for SQLite: each statement with what SQLite is to do for it."""
import csv
import io
import random

INTEGERS = [0, 1, 2, 3, 4, -1, 2**63 - 1, -(2**63)]
TEXTS = ["", "a", "b", "B", "it's", "a,b", "two\nlines", 'say "hi"', "é", "4 refused 12"]
SIGNS = ["=", "<>", "!=", "<", "<=", ">", ">="]
QUERIES_OF_A_SCRIPT = 20
# a column of an atom, with its type
Place = tuple[str, str]
Both = tuple[str, str]


def literal(value: int | str) -> str:
    return str(value) if isinstance(value, int) else "'" + value.replace("'", "''") + "'"


class Case:
    """A drawn script: its statements, each with its text and what SQLite is to do for it."""

    def __init__(self, seed: str) -> None:
        self.draw = random.Random(seed)
        self.tables: dict[str, list[Place]] = {}
        self.constraints: dict[str, tuple[str, list[str], list[str], int]] = {}
        self.files: dict[str, str] = {}
        self.statements: list[tuple[str, str, object]] = []
        # how many columns the keys of constraints have; without empty keys, more is guided and less is covered
        self.key_widths = self.draw.choice([[0, 0, 1, 1, 2], [1, 1, 2]])
        for nth in range(self.draw.randint(1, 3)):
            self.table(f"t{nth}")
        for nth in range(self.draw.randint(2, 7)):
            self.constraint(f"c{nth}")
        for _ in range(self.draw.randint(4, 10)):
            self.draw.choice([self.insert, self.insert, self.load, self.delete])()
        for nth in range(QUERIES_OF_A_SCRIPT):
            self.query()
            if nth % 7 == 6:
                self.draw.choice([self.insert, self.delete])()

    def say(self, kind: str, text: str, more: object = None) -> None:
        self.statements.append((kind, text, more))

    def table(self, name: str) -> None:
        columns = [(f"c{nth}", self.draw.choice(["INTEGER", "INTEGER", "TEXT"])) for nth in range(self.draw.randint(2, 4))]
        self.tables[name] = columns
        text = f"CREATE TABLE {name} ({', '.join(f'{column} {kind}' for column, kind in columns)})"
        self.say("schema", text, text)

    def constraint(self, name: str) -> None:
        table = self.draw.choice(list(self.tables))
        names = [column for column, _ in self.tables[table]]
        self.draw.shuffle(names)
        cut = self.draw.choice(self.key_widths)
        key, fetched = names[: min(cut, len(names) - 1)], names[min(cut, len(names) - 1) :]
        if self.draw.random() < 0.2:
            fetched = fetched[:1]
        limit = self.draw.choice([60, 60, 25, 12, 6])
        self.constraints[name] = (table, key, fetched, limit)
        self.say("access", f"CREATE ACCESS {name} ON {table} ({', '.join(key)}) FETCH ({', '.join(fetched)}) LIMIT {limit}", name)

    def value(self, kind: str) -> int | str:
        return self.draw.choice(INTEGERS if kind == "INTEGER" else TEXTS)

    def rows(self, table: str) -> list[tuple[int | str, ...]]:
        return [tuple(self.value(kind) for _, kind in self.tables[table]) for _ in range(self.draw.randint(1, 6))]

    def insert(self) -> None:
        table = self.draw.choice(list(self.tables))
        rows = self.rows(table)
        tuples = ", ".join("(" + ", ".join(map(literal, row)) + ")" for row in rows)
        self.say("rows", f"INSERT INTO {table} VALUES {tuples}", (table, rows))

    def load(self) -> None:
        table = self.draw.choice(list(self.tables))
        rows, order = self.rows(table), list(range(len(self.tables[table])))
        self.draw.shuffle(order)
        out = io.StringIO(newline="")
        writer = csv.writer(out, lineterminator=self.draw.choice(["\n", "\r\n"]))
        writer.writerow([self.tables[table][it][0].upper() for it in order])
        writer.writerows([[row[it] for it in order] for row in rows])
        name = f"f{len(self.files)}.csv"
        self.files[name] = out.getvalue()
        self.say("rows", f"LOAD {table} FROM '{name}'", (table, rows))

    def delete(self) -> None:
        table = self.draw.choice(list(self.tables))
        column, kind = self.draw.choice(self.tables[table])
        text = f"DELETE FROM {table} WHERE {column} {self.draw.choice(SIGNS)} {literal(self.value(kind))}"
        self.say("delete", text, text)

    def kinds(self, table: str, names: list[str]) -> list[str]:
        return [kind for name in names for column, kind in self.tables[table] if column == name]

    def block(self, shape: list[str]) -> str | None:
        atoms = [(f"x{nth}", self.draw.choice(list(self.tables))) for nth in range(self.draw.choice([1, 1, 2, 2, 3]))]
        places = [(f"{alias}.{column}", kind) for alias, table in atoms for column, kind in self.tables[table]]
        conditions = [self.condition(places) for _ in range(self.draw.randint(1, 2 + len(atoms)))]
        outputs = []
        for kind in shape:
            fit = [place for place, its in places if its == kind]
            if not fit:
                return None
            outputs.append(self.draw.choice(fit))
        head = f"SELECT DISTINCT {', '.join(outputs)} FROM {', '.join(f'{table} AS {alias}' for alias, table in atoms)}"
        return f"{head} WHERE {' AND '.join(conditions)}"

    def block_by_constants(self, shape: list[str]) -> str | None:
        """A SELECT of a constraint's columns, whose key is given: it is covered by itself."""
        table, key, fetched, _ = self.draw.choice(list(self.constraints.values()))
        columns = list(zip(key + fetched, self.kinds(table, key + fetched)))
        outputs = [[column for column, its in columns if its == kind] for kind in shape]
        if not all(outputs):
            return self.block(shape)
        given = [f"{column} = {literal(self.value(kind))}" for column, kind in columns[: len(key)]]
        conditions = given + [self.condition(columns) for _ in range(self.draw.randint(0 if given else 1, 1))]
        head = f"SELECT DISTINCT {', '.join(map(self.draw.choice, outputs))} FROM {table}"
        return f"{head} WHERE {' AND '.join(conditions)}" if conditions else head

    def block_by_key(self, shape: list[str]) -> str | None:
        """A SELECT of a constraint's key: it is covered where its guide gives the key, and seldom by itself."""
        fit = [it for it in self.constraints.values() if it[1] and self.kinds(it[0], it[1]) == shape]
        whole = {table for table, key, _, _ in self.constraints.values() if not key}
        if not fit:
            return self.block(shape)
        table, key, fetched, _ = self.draw.choice([it for it in fit if it[0] not in whole] or fit)
        head = f"SELECT DISTINCT {', '.join(key)} FROM {table}"
        return f"{head} WHERE {self.condition(list(zip(fetched, self.kinds(table, fetched))))}" if self.draw.random() < 0.5 else head

    def condition(self, places: list[Place]) -> str:
        left, kind = self.draw.choice(places)
        others = [place for place, its in places if its == kind and place != left]
        turn = self.draw.random()
        if turn < 0.35 and others:
            return f"{left} {self.draw.choice(['=', '=', '=', *SIGNS])} {self.draw.choice(others)}"
        if turn < 0.45:
            return f"{left} BETWEEN {literal(self.value(kind))} AND {literal(self.value(kind))}"
        return f"{left} {self.draw.choice(['=', '=', '=', *SIGNS])} {literal(self.value(kind))}"

    def tree(self, shape: list[str], depth: int, by_key: bool = False) -> Both | None:
        """A query as beas reads it, and as SQLite does, which has no parentheses round the sides of a UNION."""
        if depth == 0 or self.draw.random() < 0.3:
            make = self.block_by_key if by_key else self.draw.choice([self.block, self.block_by_constants, self.block_by_constants])
            block = make(shape)
            return (block, block) if block else None
        sign = self.draw.choice(["UNION", "EXCEPT", "EXCEPT"])
        left, right = self.tree(shape, depth - 1, by_key), self.tree(shape, depth - 1, by_key or sign == "EXCEPT" and self.draw.random() < 0.7)
        if not left or not right:
            return None
        return f"({left[0]}) {sign} ({right[0]})", f"SELECT * FROM ({left[1]}) {sign} SELECT * FROM ({right[1]})"

    def shape(self) -> list[str]:
        """The types of the columns of an answer: often those of a constraint's key."""
        table, key, *_ = self.draw.choice(list(self.constraints.values()))
        if key and self.draw.random() < 0.5:
            return self.kinds(table, key)
        return [self.draw.choice(["INTEGER", "INTEGER", "TEXT"]) for _ in range(self.draw.randint(1, 2))]

    def query(self) -> None:
        both = None
        while not both:
            both = self.tree(self.shape(), self.draw.choice([0, 1, 1, 2]))
        self.say("query", both[0], both[1])
