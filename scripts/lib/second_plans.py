"""Plans as data, from the second program: what the library's are compared with, and what stands in for them where it isn't built."""
import json
import sys
from typing import Any

from .place import TOP
from .second_program.binding import Query, bind
from .second_program.database import Database
from .second_program.desk import Desk
from .second_program.files import Folder
from .second_program.grammar import parse
from .second_program.plans import Plan, Use
from .second_program.prepared import Prepared, prepare
from .second_program.scopes import Condition, Place
from .second_program.tokens import Refused, pieces_of
from .second_program.trees import Either
from .second_program.trees import Query as Asked

sys.path.insert(0, str(TOP / "python"))

from beas._library import paths
from beas._refusals import refusal
from beas.plans import Plan as PlanAsData
from beas.plans import plan_of
from beas.postgres import use_planner

class SecondPlanner:
    """Plans queries over the schema of a script, by the second program."""

    def __init__(self, script: str, budget: int | None = None) -> None:
        self.desk, self.budget, self.said = Desk(Folder("."), budget), budget, 0
        for piece in pieces_of(script):
            self.said += 1
            report = self.desk.report(piece)
            if report[0].startswith("refused "):
                raise refused(self.said, report[0])

    @property
    def db(self) -> Database:
        return self.desk.db

    def prepared(self, query: str) -> Prepared:
        """An announced query. Raises its refusal, as the library does."""
        self.said += 1
        try:
            pieces = list(pieces_of(query))
            asked = parse(pieces[0]) if len(pieces) == 1 else None
            if not isinstance(asked, Asked) or asked.before:
                raise Refused(1, "syntax")
            return prepare(self.db, self.budget, *bind(self.db, asked.tree))
        except Refused as why:
            raise refused(self.said, str(why)) from None

    def text(self, query: str) -> str:
        """The text of a plan, in JSON."""
        return plan_text(self.db, self.prepared(query))

    def plan(self, query: str) -> PlanAsData:
        return plan_of(self.text(query))

    def close(self) -> None:
        """Nothing is held."""

def refused(statement: int, text: str) -> Exception:
    _, number, why = text.split(" ", 2)
    return refusal(statement, int(number), why)

def use_plans_there() -> None:
    """Makes the library the planner of the bridge, or the second program where the library isn't built."""
    use_planner(None if any(it.exists() for it in paths()) else SecondPlanner)

def plan_text(db: Database, prepared: Prepared) -> str:
    """The text of a plan, in JSON, as the library has it."""
    blocks = [block_told(db, plan) for plan in prepared.plans]
    told = {"bound": str(prepared.number), "columns": prepared.header, "query": tree_told(prepared.query), "blocks": blocks}
    return json.dumps(told, ensure_ascii=False, separators=(",", ":"))

def tree_told(tree: Query) -> dict[str, Any]:
    if isinstance(tree, Either):
        return {tree.sign: [tree_told(tree.left), tree_told(tree.right)]}
    return {"block": tree.number}

def block_told(db: Database, plan: Plan) -> dict[str, Any]:
    block, of = plan.block, plan.classes.of
    numbers: dict[Place, int] = {}
    for place in sorted(of):
        numbers.setdefault(of[place], len(numbers))
    return {
        "atoms": block.tables,
        "classes": [[numbers[of[Place(atom, column)]] for column in range(width)] for atom, width in enumerate(block.widths)],
        "count": len(numbers),
        "constants": [[numbers[group], value] for group, value in plan.classes.constants],
        "comparisons": list(map(comparison_told, plan.classes.comparisons)),
        "output": list(map(list, block.output)),
        "guided": plan.is_guided,
        "steps": [step_told(db, use, adds) for use, (adds, _, _) in zip(plan.steps, plan.sizes(plan.steps, 1))],
    }

def comparison_told(one: Condition) -> dict[str, Any]:
    right = {"at": list(one.right)} if isinstance(one.right, Place) else {"value": one.right}
    return {"left": list(one.left), "sign": one.sign, "right": right}

def step_told(db: Database, use: Use, adds: bool) -> dict[str, Any]:
    one = use.constraint
    names = db.tables[one.table].names
    return {
        "atom": use.atom,
        "table": one.table,
        "constraint": one.name,
        "key": [names[column] for column in one.key],
        "fetch": [names[column] for column in one.fetched],
        "limit": one.bound,
        "adds": adds,
    }
