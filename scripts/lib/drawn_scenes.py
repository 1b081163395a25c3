"""The scenes, queries and updates of the crate drawn_tables, drawn anew, for the second program.

Tables, r, s and t, have two columns of integers and two of texts there; here all are numbers from 0 to 5, which compare alike."""
from .second_program.answers import meets_all
from .second_program.database import Constraint, Database, projected
from .second_program.scopes import Block, Condition, Place
from .second_program.trees import Either

TABLES, COLUMNS = "rst", "abcd"
SIGNS = ["<>", "<", "<=", ">", ">="]
# how many conditions are drawn for a block at most, by its role in a query
CONDITIONS = {"whole": 5, "part": 2, "with guide": 3}
Tree = Block | Either


class Draws:
    """A generator of drawn numbers."""

    def __init__(self, seed: int) -> None:
        self.state = seed

    def below(self, most: int) -> int:
        self.state = (self.state * 6364136223846793005 + 1442695040888963407) % 2**64
        return (self.state >> 33) % most


def database(columns: int) -> Database:
    db = Database()
    for table in TABLES:
        db.create_table(table, [(f"{COLUMNS[nth % 4]}{nth // 4 or ''}", int) for nth in range(columns)])
    return db


class Scene:
    """Drawn rows and constraints."""

    def __init__(self, seed: int) -> None:
        self.draws, self.db = Draws(seed), database(4)
        with_key = self.draws.below(8) > 0
        for _ in range(8):
            self.insert()
        if with_key:
            whole = Constraint("whole", TABLES[0], [], [0, 1, 2, 3], 0)
            whole.bound = self.greatest(whole) + self.draws.below(3) + 1
            self.make(whole)
        for number in range(20):
            self.create(f"k{number}", with_key)

    def greatest(self, one: Constraint) -> int:
        return one.greatest(self.db.tables[one.table].rows)

    def insert(self) -> None:
        rows = self.db.tables[TABLES[self.draws.below(3)]].rows
        for _ in range(self.draws.below(3) + 1):
            rows.append(tuple(self.draws.below(6) for _ in range(4)))

    def columns(self, turns: int) -> list[int]:
        return list(dict.fromkeys(self.draws.below(4) for _ in range(turns)))

    def create(self, name: str, with_key: bool) -> None:
        table, bound = self.draws.below(3), self.draws.below(16)
        key_turns = min(self.draws.below(4), self.draws.below(4))
        fetched_turns = max(self.draws.below(30), 1)
        key = self.columns(max(key_turns, 1 if with_key and table > 0 else 0))
        self.make(Constraint(name, TABLES[table], key, self.columns(fetched_turns), bound))

    def make(self, one: Constraint) -> None:
        if one.fetched and self.greatest(one) <= one.bound != 0:
            self.db.constraints.append(one)

    def later_constraints(self, first: int) -> list[Constraint]:
        """Constraints that are made after a query was prepared."""
        made = []
        for number in range(max(0, self.draws.below(6) - 2)):
            table = TABLES[self.draws.below(3)]
            key = [column for column in range(4) if self.draws.below(4) == 0]
            fetched = [column for column in range(4) if self.draws.below(2) == 0]
            one = Constraint(f"k{first + number}", table, key, fetched, 0)
            one.bound = self.greatest(one) + self.draws.below(3)
            made.append(one)
        return made


# ---- drawn queries


def draw_block(draws: Draws, kinds: list[int], role: str) -> Block:
    count = min(draws.below(3), draws.below(3)) + 1
    if role == "with guide" and draws.below(16) > 0 or role == "part" and draws.below(8) > 0:
        count = 1
    output = []
    for kind in kinds:
        column = kind * 2 + draws.below(2)
        output.append(Place(draws.below(count), column))
    tables = [TABLES[draw_table(draws, role)] for _ in range(count)]
    conditions = [draw_condition(draws, count) for _ in range(draws.below(CONDITIONS[role]))]
    return Block(0, tables, [4] * count, conditions, output)


def draw_table(draws: Draws, role: str) -> int:
    if role == "whole":
        return draws.below(3)
    return max(0, draws.below(16) - 13) if role == "part" else min(draws.below(8), 1) + draws.below(2)


def draw_condition(draws: Draws, count: int) -> Condition:
    column = draws.below(4)
    sign = dict(enumerate(SIGNS)).get(draws.below(10), "=")
    left = Place(draws.below(count), column)
    number = draws.below(6)
    if draws.below(2) == 1:
        return Condition(left, sign, number)
    column = column // 2 * 2 + draws.below(2)
    return Condition(left, sign, Place(draws.below(count), column))


def draw_tree(draws: Draws, kinds: list[int], role: str, depth: int) -> Tree:
    turn = draws.below(8) if depth > 0 else 0
    if turn == 0:
        return draw_block(draws, kinds, role)
    beside = "with guide" if role == "with guide" else "part"
    sign, right = ("union", beside) if turn <= 2 else ("except", "with guide")
    return Either(sign, draw_tree(draws, kinds, beside, depth - 1), draw_tree(draws, kinds, right, depth - 1))


def draw_query(draws: Draws) -> Tree:
    depth = draws.below(4)
    kinds = [int(draws.below(2) == 0) for _ in range(3)]
    return numbered(draw_tree(draws, kinds[: draws.below(3) + 1], "whole", depth), [])


def numbered(tree: Tree, before: list[Block]) -> Tree:
    """A tree whose blocks are numbered from left to right, after those before it."""
    if isinstance(tree, Either):
        return Either(tree.sign, numbered(tree.left, before), numbered(tree.right, before))
    before.append(tree)
    return tree._replace(number=len(before) - 1)


def without_columns(tree: Tree) -> Tree:
    if isinstance(tree, Either):
        return Either(tree.sign, without_columns(tree.left), without_columns(tree.right))
    return tree._replace(output=[])


# ---- drawn updates


class Updates:
    """Updates of three tables of so many columns, each with values below a number, and how many of them are refused."""

    def __init__(self, columns: int, values: int, key_turns: int) -> None:
        self.columns, self.values, self.key_turns = columns, values, key_turns
        self.draws, self.db, self.refused = Draws(1), database(columns), 0

    def next(self) -> None:
        turn = self.draws.below(100)
        is_done = self.insert() if turn < 65 else self.delete() if turn < 80 else self.create() if turn < 94 else self.drop()
        self.refused += not is_done

    def insert(self) -> bool:
        table = TABLES[self.draws.below(3)]
        more = [tuple(self.draws.below(self.values) for _ in range(self.columns)) for _ in range(self.draws.below(3) + 1)]
        rows = self.db.tables[table].rows + more
        for one in self.db.constraints:
            keys = {projected(row, one.key) for row in more} if one.table == table else set()
            if any(len(one.group(rows, key)) > one.bound for key in keys):
                return False
        self.db.tables[table].rows = rows
        return True

    def delete(self) -> bool:
        table = TABLES[self.draws.below(3)]
        conditions = [draw_condition(self.draws, 1) for _ in range(min(self.draws.below(40), 3))]
        self.db.delete(table, lambda row: meets_all(row, conditions))
        return True

    def drawn_columns(self, turns: int) -> list[int]:
        return list(dict.fromkeys(self.draws.below(self.columns) for _ in range(turns)))

    def create(self) -> bool:
        name, table, bound = f"k{self.draws.below(12)}", TABLES[self.draws.below(3)], self.draws.below(10)
        key_turns = min(self.draws.below(self.key_turns), self.draws.below(self.key_turns))
        fetched_turns = max(self.draws.below(6), 1)
        one = Constraint(name, table, self.drawn_columns(key_turns), self.drawn_columns(fetched_turns), bound)
        is_there = any(name == its.name for its in self.db.constraints)
        if is_there or not one.greatest(self.db.tables[table].rows) <= bound != 0:
            return False
        self.db.constraints.append(one)
        return True

    def drop(self) -> bool:
        name, count = f"k{self.draws.below(12)}", len(self.db.constraints)
        self.db.constraints = [one for one in self.db.constraints if one.name != name]
        return len(self.db.constraints) < count

    def groups(self) -> int:
        """How many groups are asked for: of each constraint, that of the key of each row of any table, in both stores."""
        return 2 * len(self.db.constraints) * sum(len(table.rows) for table in self.db.tables.values())
