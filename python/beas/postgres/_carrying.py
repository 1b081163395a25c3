"""A plan carried out: each step is one statement with all its keys."""
from collections.abc import Iterable, Iterator, Mapping, Sequence
from dataclasses import dataclass, field

from ..plans import BadPlan, Block, Leaf, Place, Plan, Step, Tree, Value
from ._catalogue import TableThere
from ._connection import Cursor
from ._errors import BoundBroken, NullsAllowed
from ._relations import Joining, Row, Valuations, kept, starts
from ._schema import Described
from ._statements import fetch, rest_of

Groups = dict[Row, list[Row]]
NO_TEXT = "\0"


@dataclass
class Carrying:
    """A query that is carried out over one snapshot, with what it read until now."""

    plan: Plan
    schema: Described
    tables: Mapping[str, TableThere]
    cursor: Cursor
    #: The tuples that were read, and the keys that have none.
    reads: int = 0
    #: The keys that were asked.
    probes: int = 0
    statements: list[tuple[str, Sequence[list[Value]]]] = field(default_factory=list)

    def answers(self) -> list[Row]:
        """The rows of the answer, in order."""
        found = self._answers(self.plan.query, None)
        if self.reads > self.plan.bound:
            raise BadPlan(f"{self.reads} tuples were read, and the plan's bound is {self.plan.bound}")
        return sorted(found)

    def _answers(self, tree: Tree, guide: set[Row] | None) -> set[Row]:
        if isinstance(tree, Leaf):
            return self._block(self.plan.blocks[tree.block], guide)
        left = self._answers(tree.left, guide)
        if tree.sign == "union":
            return left | self._answers(tree.right, guide)
        return left - self._answers(tree.right, left)

    def _block(self, block: Block, guide: set[Row] | None) -> set[Row]:
        found = kept(starts(block, guide), block, ())
        for step in block.steps:
            before = found
            found = kept(self._after(block, step, before), block, before.classes)
        return found.projected(block.class_of(place) for place in block.output)

    def _classes(self, block: Block, step: Step, columns: Iterable[str]) -> list[int]:
        return [block.class_of(Place(step.atom, self.schema.position(step.table, it))) for it in columns]

    def _after(self, block: Block, step: Step, before: Valuations) -> Valuations:
        one = self.schema.constraints[step.constraint]
        rest = self._classes(block, step, rest_of(one))
        joining = Joining(before, self._classes(block, step, step.key), rest)
        groups = self._fetched(step, before.projected(self._classes(block, step, step.key)))
        return Valuations(joining.classes, frozenset(joining.extended(before.rows, groups)))

    # ---- what is asked of the database

    def _fetched(self, step: Step, keys: set[Row]) -> Groups:
        """The group of each key."""
        groups: Groups = {key: [] for key in keys}
        # The database has no text with a zero byte, and takes none.
        asked = [key for key in keys if not any(isinstance(it, str) and NO_TEXT in it for it in key)]
        for number, found in self._asked(step, asked):
            groups[asked[number - 1]].append(found)
        broken = [key for key, group in groups.items() if len(group) > step.limit]
        if broken:
            raise BoundBroken(step.constraint, min(broken), step.limit)
        for key, group in groups.items():
            self._count(step, key, group)
        return groups

    def _count(self, step: Step, key: Row, group: Sequence[Row]) -> None:
        if any(value is None for found in group for value in found):
            raise NullsAllowed(f"{step.table} has NULL in a row of key {key}")
        self.probes += 1
        self.reads += max(1, len(group))

    def _asked(self, step: Step, keys: Sequence[Row]) -> Iterator[tuple[int, Row]]:
        if not keys:
            return
        one, table = self.schema.constraints[step.constraint], self.tables[step.table]
        lists = [[key[nth] for key in keys] for nth in range(len(one.key))]
        statement = fetch(table, one)
        self.statements.append((statement, lists))
        self.cursor.execute(statement, tuple(lists))
        for number, *found in self.cursor.fetchall():
            yield number, tuple(found) if rest_of(one) else ()
