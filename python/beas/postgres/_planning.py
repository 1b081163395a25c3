"""Who makes plans: the library, unless another planner is named."""
from collections.abc import Callable
from typing import Protocol

from .._database import Database
from ..plans import Plan


class Planner(Protocol):
    """Plans queries over the tables and constraints of one script. It reads no rows, since it has none."""

    def plan(self, query: str) -> Plan:
        """The plan of a query. Raises the refusal of a query that has none, or whose bound is above the budget."""

    def close(self) -> None:
        """Gives back what it holds."""


MakePlanner = Callable[[str, "int | None"], Planner]


class LibraryPlanner:
    """The library's own plans, over a database that has no rows."""

    def __init__(self, script: str, budget: int | None) -> None:
        self.db = Database(budget=budget)
        try:
            self.db.run(script)
        except BaseException:
            self.close()
            raise

    def plan(self, query: str) -> Plan:
        plan = self.db.plan(query)
        if self.db.budget is not None and plan.bound > self.db.budget:
            # A plan comes whatever the budget is; EXPLAIN is refused where the bound is above it.
            self.db.say(f"EXPLAIN {query}")
            raise AssertionError(f"the bound {plan.bound} is within the budget {self.db.budget}")
        return plan

    def close(self) -> None:
        self.db.close()


_make: MakePlanner = LibraryPlanner


def use_planner(make: MakePlanner | None) -> None:
    """Makes another planner the one of all bridges that are made from now on; with None, the library's is it again."""
    global _make
    _make = make or LibraryPlanner


def planner_for(script: str, budget: int | None) -> Planner:
    return _make(script, budget)
