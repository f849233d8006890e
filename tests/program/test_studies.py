"""Studies that are data (study_cases.py, fault_cases.py): what the built program prints and tells, byte for byte. A
case whose line a report explains is run with one as well.
"""

from __future__ import annotations

from operator import attrgetter
from pathlib import Path

import pytest

import fault_cases
import study_cases
from run_cases import FEED
from running import left, start
from study_cases import Case

PROOFS = Path(__file__).resolve().parents[2] / "docs/explanation/proofs.md"
OWN = ("footpaths", "origins", "opportunities", "destinations")
USUAL = {
    "date": "20260504",
    "from": "08:00",
    "to": "08:00",
    "trips": 2,
    "walk": 0,
    "share": 50,
    "within": 1800,
    "workers": 1,
    "tries": 2,
}


def lay_out(case: Case, room: Path) -> list[str]:
    """Writes a case's files, and gives its arguments."""
    files: dict[str, str | None] = {**FEED, "origins.csv": "stop_id\nA\n", **case.files}
    arguments = ["--feed", "feed"]
    arguments += [str(item) for option, text in {**USUAL, **case.asked}.items() for item in (f"--{option}", text)]
    for name, text in files.items():
        path = room / ("feed" if name.endswith(".txt") else ".") / name
        if text is None:
            continue
        path.parent.mkdir(parents=True, exist_ok=True)
        path.write_text(text, encoding="utf-8", newline="")
        if path.suffix == ".csv":
            arguments += ([f"--{path.stem}"] if path.stem in OWN else []) + [name]
    return arguments


@pytest.mark.parametrize("case", [*study_cases.CASES, *fault_cases.CASES], ids=attrgetter("name"))
def test_study(program: str, open_room: Path, case: Case) -> None:
    arguments = lay_out(case, open_room)
    wanted = (case.prints, case.tells, 2 if case.tells else 0)
    assert left(start(program, arguments, open_room)) == wanted
    if case.explains:
        out, err, status = left(start(program, [*arguments, "--report"], open_room))
        assert (out, status) == ("", 2)
        assert err.endswith(case.tells + case.explains)


def test_the_page_of_proofs_counts_these_studies() -> None:
    cases = [*study_cases.CASES, *fault_cases.CASES]
    refused = [case for case in cases if case.tells]
    explained = [case for case in refused if case.explains]
    text = " ".join(PROOFS.read_text().split())
    assert f"{len(cases) - len(refused)} small studies print the matrix" in text
    assert f" {len(refused)} with a wrong file, name or date are refused" in text
    assert f" {len(explained)} of them with the right explanation" in text
