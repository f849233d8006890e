"""Questions of the built program, `ttm --ask`: each percentile from 1 to 100, against the travel times of the single
departures, and own files that are too long.
"""

from __future__ import annotations

import csv
import io
import os
from collections.abc import Iterator
from pathlib import Path

import pytest

from conversations import Answer, Question, answers_in, question
from run_cases import ASKED, OWN_WORDS
from running import lay_out
from test_conversations import whole

KEPT = f"--feed feed {ASKED} 300 {OWN_WORDS} -- cut.csv".split()
AT_ONCE = 8  # percentiles of a question, at most
MOST_FILE_BYTES = 1 << 30
STOPS = ("A", "B", "C")
# from the first minute to the last: T1 leaves at 08:00, so that some departures have no travel time
WINDOWS = [(470, 480), (474, 480), (473, 482), (450, 509), (481, 490)]

Row = tuple[str, str]  # of a scenario and an origin
Cells = dict[tuple[Row, int], list[int | None]]  # by row and percentile, a cell for each stop


def window(first: int, last: int, *more: str) -> Question:
    clock = [f"{minute // 60:02}:{minute % 60:02}" for minute in (first, last)]
    return question(f"--from={clock[0]}", f"--to={clock[1]}", *more)


def cells_of(program: str, room: Path, questions: list[Question]) -> list[Cells]:
    """The cells of each answer."""
    out, err, status = whole(program, ["--ask", *KEPT], room, b"".join(item.block for item in questions))
    answers = list(answers_in(out))
    assert (err, status, [answer.status for answer in answers]) == (b"", 0, [0] * len(questions))
    return [dict(rows_of(answer.body.decode())) for answer in answers]


def rows_of(text: str) -> Iterator[tuple[tuple[Row, int], list[int | None]]]:
    for row in csv.DictReader(io.StringIO(text)):
        times = [int(row[stop]) if row[stop] else None for stop in STOPS]
        yield ((row["scenario"], row["origin"]), int(row["share"])), times


def nearest_rank(times: list[int | None], percentile: int) -> int | None:
    """The least time that at least this percentage of the departures achieves, if they do."""
    ranked = sorted(time for time in times if time is not None)
    rank = -(-percentile * len(times) // 100)
    return ranked[rank - 1] if rank <= len(ranked) else None


@pytest.mark.parametrize("first, last", WINDOWS)
def test_each_percentile(one_build: str, open_room: Path, first: int, last: int) -> None:
    lay_out(open_room)
    minutes = cells_of(one_build, open_room, [window(minute, minute) for minute in range(first, last + 1)])
    parts = [range(start, min(start + AT_ONCE, 101)) for start in range(1, 101, AT_ONCE)]
    asked = [window(first, last, "--share=" + ",".join(map(str, part))) for part in parts]
    cells = {key: row for answer in cells_of(one_build, open_room, asked) for key, row in answer.items()}
    rows = {row for row, _ in cells}
    assert len(rows) == 4 and len(cells) == 400
    for row, percentile in cells:
        times = [minute[row, 50] for minute in minutes]
        wanted = [nearest_rank(list(of_stop), percentile) for of_stop in zip(*times)]
        assert cells[row, percentile] == wanted, (row, percentile)


def test_a_file_that_is_too_long_is_no_lack_of_memory(one_build: str, open_room: Path) -> None:
    """Out of memory could take the place of any answer, with another status."""
    lay_out(open_room)
    (open_room / "long.csv").touch()
    os.truncate(open_room / "long.csv", MOST_FILE_BYTES + 1)
    own_files = [question(f"--{option}", "long.csv") for option in ("origins", "opportunities", "destinations")]
    out, err, status = whole(one_build, ["--ask", *KEPT], open_room, b"".join(item.block for item in own_files))
    assert list(answers_in(out)) == [Answer(2, b"ttm: long.csv: too long\n")] * 3
    assert (err, status) == (b"", 0)
