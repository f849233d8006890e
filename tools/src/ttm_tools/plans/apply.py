"""A scenario's actions, carried out one after another, and what each of them did."""

from dataclasses import dataclass

from ..core.toml_file import Entry
from ..core.toml_values import near, nearest_name
from .action_list import ACTIONS
from .base import Base
from .plan_file import PlannedScenario
from .state import Change, State

ABOUT = ("route", "trip", "stop")  # keys that say what an action is about


@dataclass(frozen=True)
class ActionResult:
    """What an action did."""

    scenario: str
    number: int  # among the scenario's actions, from 1 on
    entry: Entry
    before: dict[str, int]  # what `State.counts` gives
    after: dict[str, int]
    notes: list[str]  # sentences on what it chose
    changes: list[Change]

    @property
    def what(self) -> str:
        return str(self.entry.values["do"])

    @property
    def about(self) -> list[str]:
        """The routes, trips or stops that it names."""
        return next((self.entry.texts(key) for key in ABOUT if self.entry.has(key)), [])

    def count(self, what: str) -> int:
        return sum(change.what == what for change in self.changes)


@dataclass(frozen=True)
class ScenarioResult:
    """A scenario whose actions were carried out."""

    planned: PlannedScenario
    state: State
    done: list[ActionResult]

    @property
    def name(self) -> str:
        return self.planned.name


def apply_scenario(base: Base, planned: PlannedScenario) -> ScenarioResult:
    """Carries out all actions of a scenario; one that changes nothing is reported by its line."""
    state, done = State(base, planned.name), list[ActionResult]()
    for number, entry in enumerate(planned.actions, 1):
        what = entry.text("do")
        if what not in ACTIONS:
            fault = entry.fault(f"is not an action{near(what, ACTIONS)}", "do", what, ", ".join(ACTIONS))
            raise fault.noting(nearest=nearest_name(what, ACTIONS))
        action = ACTIONS[what]
        entry.only(("do", *action.keys))
        before, state.changes = state.counts(), []
        notes = action.carry_out()(state, entry)
        if not state.changes:
            raise entry.fault("changes nothing", "do", what)
        done.append(ActionResult(planned.name, number, entry, before, state.counts(), notes, state.changes))
    return ScenarioResult(planned, state, done)
