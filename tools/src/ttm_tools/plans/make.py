"""From a feed and a plan to the feed of all scenarios with their files, or to that of one."""

import shlex
from dataclasses import dataclass
from pathlib import Path

from ..core.errors import InputError
from ..core.files import atomic_folder, require_empty
from ..core.progress import reported
from ..core.reading import as_one_line
from ..core.scenarios import TODAY
from ..core.text import as_text
from ..core.toml_values import near, nearest_name
from .apply import ScenarioResult, apply_scenario
from .base import read_base
from .limits import refuse_limits, sentences_on_days
from .plan_file import PlanFile, read_plan
from .report import sentences, unused, write_lists
from .scenario_files import write_scenarios
from .writing import Written, write_all, written_of

FOLDER, WORDS, REPORT = "scenarios", "scenarios.words", "scenarios.md"


@dataclass(frozen=True)
class Planned:
    """A feed of scenarios that was written."""

    lines: list[str]  # what was done, a sentence a line
    arguments: str | None  # of a run with all scenarios; none for the feed of one
    finished: list[ScenarioResult]


def make(feed: str, path: str, out: str, only: str | None = None, called: str = "") -> tuple[list[str], str | None]:
    """Writes the folder of all scenarios of a plan, or of one. Gives what is reported, and the arguments of a run with
    all, which name the folder as it is called.
    """
    made = planned(feed, path, out, only, called)
    return made.lines, made.arguments


def planned(feed: str, path: str, out: str, only: str | None = None, called: str = "") -> Planned:
    """Writes the same folder, and gives what was done."""
    require_empty(Path(out))
    plan = read_plan(path)
    names = [scenario.name for scenario in plan.scenarios]
    if only is not None and only not in names:
        found = {"column": "--only", "value": only, "nearest": nearest_name(only, names)}
        raise InputError(path, f"no scenario {only}{near(only, names)}").noting(**found)
    base = read_base(feed, plan.stops)
    chosen = [scenario for scenario in plan.scenarios if only in (None, scenario.name)]
    finished = [apply_scenario(base, scenario) for scenario in reported(chosen, len(chosen), "scenarios")]
    refuse_limits(path, base, [scenario.state for scenario in finished])
    written = written_of(base, finished, alone=only is not None)
    lines = [*sentences(finished), *([] if only else unused(written)), *sentences_on_days(base, written.states)]
    with atomic_folder(out) as folder:
        write_all(written, folder)
        write_lists(written, folder)
        arguments = write_arguments(written, folder, called or out) if only is None else None
        write_report(plan, finished, lines, folder)
    return Planned(lines, arguments, finished)


def write_arguments(written: Written, folder: Path, out: str) -> str:
    names = write_scenarios(written, folder / FOLDER)
    arguments = ["--feed", out, *(str(Path(out) / FOLDER / name) for name in names)]
    text = " ".join(map(shlex.quote, arguments))
    (folder / WORDS).write_text(text + "\n", encoding="utf-8", errors="surrogateescape")
    return text


def files_in_order(folder: str) -> list[str]:
    """Return the scenario files in the folder of a plan's feed, in the plan's order; by name where none is stated."""
    files = {path.name: str(path) for path in sorted((Path(folder) / FOLDER).glob("*.csv"))}
    words = Path(folder) / WORDS
    stated = list[str]()
    if words.is_file():
        with as_one_line(words, "is not the arguments of ttm-tools scenarios"):
            text = words.read_text(encoding="utf-8", errors="surrogateescape")
            stated = [Path(word).name for word in shlex.split(text)]
    first = [f"{TODAY}.csv", *stated]
    names = dict.fromkeys([*(name for name in first if name in files), *files])
    return [files[name] for name in names]


def write_report(plan: PlanFile, finished: list[ScenarioResult], lines: list[str], folder: Path) -> None:
    names = ", ".join(scenario.name for scenario in finished)
    text = [f"# Scenarios of {as_text(Path(plan.path).name)}: {names}", ""]
    text += [line[2:] if line.startswith("  ") else f"- {line}" for line in map(as_text, lines)]
    body = "\n".join(f"  {line}" if not line.startswith(("-", "#")) and line else line for line in text)
    (folder / REPORT).write_text(body + "\n", encoding="utf-8", errors="backslashreplace")
