"""Whose plans are measured: the library's, or plans that were made before."""
from typing import Any

from .second_plans import SecondPlanner

from beas import Database
from beas._library import paths
from beas.postgres import use_planner


class KnownPlans(SecondPlanner):
    """Plans that were made before by the second program, whose time isn't measured."""

    def __init__(self, script: str, budget: int | None) -> None:
        super().__init__(script, budget)
        self.known: dict[str, Any] = {}

    def plan(self, query: str) -> Any:
        if query not in self.known:
            self.known[query] = super().plan(query)
        return self.known[query]


def library_plans() -> bool:
    """Whether the library is built and gives plans. Then these are taken, and their time is the bridge's."""
    return hasattr(Database, "plan") and any(it.exists() for it in paths())


def use_plans() -> None:
    use_planner(None if library_plans() else KnownPlans)
