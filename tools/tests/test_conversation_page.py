"""The page of `ttm --ask`: its commands print what it says; and a hundred answers about a city are those of runs."""

import os
import subprocess
import sys
from pathlib import Path

import pytest

from conversations import answers_in
from helpers import Room
from test_pages import PATH, ROOT, commands_run, make_town

WORDS = "--feed city --date 20260504 --from 08:00 --to 08:59 --trips 4 --walk 600 --share 50 --within 1800 --tries 1"
SINGLE = 3  # runs of one origin; the rows of the others are compared with those of one run of all


def words_of(workers: int) -> list[str]:
    return [*WORDS.split(), "--workers", str(workers), "--footpaths", "city/footpaths.csv"]


def run_of(program: str, folder: Path, origins: str, workers: int) -> bytes:
    arguments = [program, *words_of(workers), "--origins", origins]
    return subprocess.run(arguments, cwd=folder, stdout=subprocess.PIPE, check=True).stdout


def test_the_page_prints_what_it_says(room: Room, program: str) -> None:
    make_town(room, program)
    before = f"{PATH}; unzip -q town.zip -d town; ttm-tools walks town 2> walks.txt"
    assert commands_run(room, "reference/conversation", before=before) == 2


def test_a_hundred_answers_about_a_city_are_those_of_runs(room: Room, program: str) -> None:
    generator = ROOT / "bench" / "feedgen.py"
    if not generator.is_file():
        pytest.skip("bench/feedgen.py is missing")
    subprocess.run([sys.executable, str(generator), "city", "city"], cwd=room.folder, check=True, capture_output=True)
    hundred = Path(room.path("city/origins500.csv")).read_text().split()[1:101]
    os.mkdir(room.path("asked"))
    for stop in hundred:
        Path(room.path(f"asked/{stop}.csv")).write_text(f"stop_id\n{stop}\n")
    questions = "".join(f"--origins\nasked/{stop}.csv\n\n" for stop in hundred).encode()
    arguments = [program, *words_of(1), "--ask"]
    ran = subprocess.run(arguments, cwd=room.folder, input=questions, stdout=subprocess.PIPE, check=True)
    answers = list(answers_in(ran.stdout))
    assert {answer.status for answer in answers} == {0} and len(set(hundred)) == len(answers) == 100
    for stop, answer in list(zip(hundred, answers))[:SINGLE]:
        assert answer.body == run_of(program, room.folder, f"asked/{stop}.csv", 1)
    Path(room.path("hundred.csv")).write_text("\n".join(["stop_id", *hundred, ""]))
    header, *rows = run_of(program, room.folder, "hundred.csv", 4).splitlines(True)
    assert [header + row for row in rows] == [answer.body for answer in answers]
