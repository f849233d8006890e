"""Runs of `ttm` from Python, and the page that shows them."""

import datetime
import re
import stat
from pathlib import Path

import numpy as np
import pytest

import ttm_tools
from asking import standing_in
from helpers import Room
from ttm_tools.compat.v2 import run
from ttm_tools.matrices.result import Result
from ttm_tools.core.errors import ArgumentError, MissingDependencyError
from ttm_tools.engine.arguments import EngineArguments, program_at
from ttm_tools.engine.refusals import EngineError, refusal_of

PAGE = Path(__file__).resolve().parents[2] / "docs" / "howto" / "python.md"


def test_each_block_of_the_page_runs(room: Room, program: str, monkeypatch: pytest.MonkeyPatch) -> None:
    if not PAGE.is_file():
        pytest.skip("docs/howto/python.md is missing")
    monkeypatch.setenv("TTM_PROGRAM", program)
    blocks = re.findall(r"^```python\n(.*?)^```$", PAGE.read_text(), re.MULTILINE | re.DOTALL)
    assert len(blocks) == 10
    names: dict[str, object] = {}
    with standing_in(room.folder):
        for block in blocks:
            exec(compile(block, str(PAGE), "exec"), names)


def test_the_words_of_a_run() -> None:
    arguments = EngineArguments(
        "feed", "20260504", ("08:00", "08:59"), shares=(25, 50), limits=(900,), scenarios=["cut.csv"]
    ).arguments()
    expected = "--feed feed --date 20260504 --from 08:00 --to 08:59 --trips 4 --walk 600 --workers 1 --tries 1"
    assert " ".join(arguments) == expected + " --share 25,50 --within 900 --back 1 --ahead 1 cut.csv"


@pytest.mark.parametrize(
    "line, file, record",
    [
        ("ttm: stop_times.txt: record 5: bad number", "stop_times.txt", 5),
        ("ttm: stops.txt: missing file", "stops.txt", None),
        ("ttm: scenario cut: record 2: unknown action", "scenario cut", 2),
        ("ttm: out of memory", "ttm", None),
        ("ttm: bad window", "ttm", None),
        ("killed", "ttm", None),
    ],
)
def test_a_fault_line_names_file_and_record(line: str, file: str, record: int | None) -> None:
    fault = EngineError(line, 2)
    assert (fault.file, fault.record, fault.line) == (file, record, line)


@pytest.mark.parametrize(
    "message, option, column, value, allowed",
    [
        (
            'ttm: bad date\nttm: --date is "4.5.2026"; a date is YYYYMMDD',
            "--date",
            "--date",
            "4.5.2026",
            "a date is YYYYMMDD",
        ),
        (
            'ttm: calendar.txt: record 2: bad date\nttm: column start_date is "x"; a date is YYYYMMDD',
            *(None, "start_date", "x", "a date is YYYYMMDD"),
        ),
        ("ttm: stops.txt: missing file\nttm: folder a has b", None, None, None, None),
    ],
)
def test_a_fault_has_what_the_report_explains(
    message: str, option: str | None, column: str | None, value: str | None, allowed: str | None
) -> None:
    fault = EngineError(message, 2)
    assert (fault.option, fault.column, fault.value, fault.allowed) == (option, column, value, allowed)
    assert fault.line == message.splitlines()[0] and fault.explanation == message.splitlines()[1:]
    assert value is None or str(fault).endswith(f"{column} {value!r} bad date; allowed: {allowed}")


def test_a_refusal_says_the_option_its_value_and_what_is_allowed(program: str, room: Room) -> None:
    with pytest.raises(EngineError) as raised:
        ttm_tools.matrix(room.folder, "20260504", ("8:00", "08:00"), program=program)
    allowed = "a time of day is HH:MM, 00:00 to 23:59"
    assert (raised.value.option, raised.value.value, raised.value.allowed) == ("--from", "8:00", allowed)
    assert str(raised.value) == f"ttm: --from '8:00' bad window; allowed: {allowed}"


@pytest.mark.parametrize("date", ["20260504", "2026-05-04", datetime.date(2026, 5, 4)])
def test_dates_are_taken_as_people_write_them(date: str | datetime.date) -> None:
    assert EngineArguments("feed", date, ("08:00", "08:59")).arguments()[3] == "20260504"


def test_without_a_name_the_scenario_is_that_others_are_compared_with() -> None:
    numbers = {(name, 50): np.full((1, 1), place, np.float32) for place, name in enumerate(("base", "today", "tram"))}
    result = Result(["base", "today", "tram"], [50], [1800], ["A"], ["A"], numbers, {}, 0)
    assert result.array().tolist() == [[1]] and result.times().loc["A", "A"] == 1
    assert result.array("base").tolist() == [[0]]


def test_all_public_names_are_found_by_tab() -> None:
    assert {"ArgumentError", "open_network", "EngineError"} <= set(dir(ttm_tools))
    assert ttm_tools.ArgumentError is ArgumentError


def test_a_run_that_fails_leaves_no_matrix(room: Room) -> None:
    program = room.folder / "ttm"
    program.write_text("#!/bin/sh\necho half\necho 'ttm: stops.txt: missing file' >&2\nexit 2\n")
    program.chmod(program.stat().st_mode | stat.S_IXUSR)
    with pytest.raises(EngineError) as raised:
        run(EngineArguments("feed", "20260504", ("08:00", "08:00")), room.path("matrix.csv"), program)
    assert (str(raised.value), raised.value.status) == ("stops.txt: missing file", 2)
    assert room.names() == {"ttm"}


def test_a_program_that_is_not_there_is_told(room: Room) -> None:
    with pytest.raises(MissingDependencyError) as raised:
        program_at(room.path("nothing"))
    assert str(raised.value).startswith(f"no program ttm {room.path('nothing')}: ")


def test_a_share_that_is_not_there_is_told(program: str, room: Room) -> None:
    room.write("stops.txt", "stop_id", [["A"]])
    room.write("routes.txt", "route_id", [["R"]])
    room.write("trips.txt", "route_id,service_id,trip_id", [])
    room.write("stop_times.txt", "trip_id,arrival_time,departure_time,stop_id,stop_sequence", [])
    room.write("calendar_dates.txt", "service_id,date,exception_type", [])
    result = ttm_tools.matrix(room.folder, "20260504", ("08:00", "08:00"), shares=(25, 50), program=program)
    with pytest.raises(ArgumentError, match="it has base with 25, 50"):
        result.times("cut", 50)
    with pytest.raises(ArgumentError, match="name one"):
        result.array("base")


@pytest.mark.parametrize(
    "last, line", [("ttm: write fault", "ttm: write fault"), (None, "ttm: question 12: status 2, 15 bytes")]
)
def test_questions_that_were_answered_are_no_refusal(last: str | None, line: str) -> None:
    printed = ["ttm: stops: 3", "ttm: question 1: status 0, 26 bytes", "ttm: question: out of memory"]
    printed += ["ttm: question 12: status 2, 15 bytes", *([last] if last else [])]
    assert refusal_of("\n".join(printed).encode(), 5) == [line]


def test_what_ttm_warns_of_is_a_warning(room: Room) -> None:
    program = Path(room.path("ttm"))
    line = "warning: no trip runs on the date itself; is it a date of the feed's calendar?"
    matrix = "scenario,origin,share,access_1800,A\\nbase,A,50,1,0\\n"
    twice = f'echo "ttm: {line}" >&2\n' * 2
    program.write_text(f'#!/bin/sh\n{twice}printf "{matrix}"\n')
    program.chmod(0o755)
    with pytest.warns(UserWarning) as caught:
        run(EngineArguments("feed", "20260504", ("08:00", "08:00")), room.path("m.csv"), program)
    assert [str(item.message) for item in caught] == [line.removeprefix("warning: ")]


@pytest.mark.parametrize(
    "old, new",
    [
        ("BadInput", "InputError"),
        ("EngineFault", "EngineError"),
        ("Run", "EngineArguments"),
        ("WrongWords", "ArgumentError"),
    ],
)
def test_old_names_stay_for_one_version(old: str, new: str) -> None:
    with pytest.warns(
        DeprecationWarning, match=f"^ttm_tools.{old} is deprecated and will be removed: use ttm_tools.{new}$"
    ):
        assert getattr(ttm_tools, old) is getattr(ttm_tools, new)


def test_old_names_of_the_engine_stay_for_one_version() -> None:
    with pytest.warns(DeprecationWarning, match=r"^ttm_tools\.engine\.run is .*: use ttm_tools\.compat\.v2\.run$"):
        assert ttm_tools.engine.run is run
    with pytest.warns(DeprecationWarning):
        assert ttm_tools.engine.Run is EngineArguments
    with pytest.warns(DeprecationWarning, match="use status"):
        assert EngineError("ttm: bad date", 2).ended == 2
    with pytest.raises(AttributeError):
        ttm_tools.engine.nothing
