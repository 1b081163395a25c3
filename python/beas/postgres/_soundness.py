"""Whether a plan is one of a schema, and its steps are sound for its blocks, as docs/definitions.md has it.

A sound plan gives full answers, so a planner's mistake is found here and not in an answer.
"""
from collections import Counter
from collections.abc import Iterable

from ..plans import BadPlan, Block, Place, Plan, Step
from ._schema import Described


def check_plan(schema: Described, plan: Plan) -> None:
    """Raises BadPlan unless each atom is a table of the schema, each step one of its constraints, and each block's steps are sound."""
    for block in plan.blocks:
        for table, classes in zip(block.atoms, block.classes):
            if len(schema.tables.get(table, ())) != len(classes):
                raise BadPlan(f"the plan has another table {table} than the schema")
        for step in block.steps:
            one = schema.constraints.get(step.constraint)
            if one != (step.constraint, step.table, step.key, step.fetch, step.limit):
                raise BadPlan(f"the plan has another constraint {step.constraint} than the schema")
        Soundness(schema, block).check()


class Soundness:
    """The steps of a block, and what is known before each."""

    def __init__(self, schema: Described, block: Block) -> None:
        self.schema, self.block = schema, block
        self.known = {class_of for class_of, _ in block.constants}
        if block.guided:
            self.known |= {block.class_of(place) for place in block.output}

    def check(self) -> None:
        for step in self.block.steps:
            self.take(step)
        places = [*self.block.output, *(place for one in self.block.comparisons for place in one.places())]
        if any(self.block.class_of(place) not in self.known for place in places):
            raise BadPlan("the output or a comparison needs a value that no step gives")
        for atom, needed in enumerate(self.needed_columns()):
            if not any(step.atom == atom and needed <= self.columns_of(step) for step in self.block.steps):
                raise BadPlan(f"no step has all columns of atom {atom} that the query needs")

    def take(self, step: Step) -> None:
        if not self.classes_of(step, step.key) <= self.known:
            raise BadPlan(f"the step by {step.constraint} needs a value that no step before gives")
        fetched = self.classes_of(step, step.fetch)
        if step.adds != (not fetched <= self.known):
            raise BadPlan(f"the step by {step.constraint} says wrongly whether it adds")
        self.known |= fetched

    def classes_of(self, step: Step, columns: Iterable[str]) -> set[int]:
        return {self.block.class_of(Place(step.atom, self.schema.position(step.table, it))) for it in columns}

    def columns_of(self, step: Step) -> set[int]:
        return {self.schema.position(step.table, it) for it in step.key + step.fetch}

    def needed_columns(self) -> list[set[int]]:
        """Of each atom the columns that stand in a condition or in the output. A class with a constant or of two places has conditions."""
        block = self.block
        counts = Counter(class_of for classes in block.classes for class_of in classes)
        bound = {class_of for class_of, _ in block.constants} | {it for it, count in counts.items() if count > 1}
        places = {*block.output, *(place for one in block.comparisons for place in one.places())}
        return [
            {column for column, class_of in enumerate(classes) if class_of in bound or Place(atom, column) in places}
            for atom, classes in enumerate(block.classes)
        ]
