"""Options that would do nothing are refused, and those that count are not."""

from pathlib import Path

import pytest

from helpers import Room, Town, town_matrix


@pytest.fixture(autouse=True)
def in_a_folder_of_its_own(tmp_path: Path, monkeypatch: pytest.MonkeyPatch) -> None:
    """Tests of other processes write the same default outputs."""
    monkeypatch.chdir(tmp_path)


@pytest.mark.parametrize(
    "words, message",
    [
        ("access --opportunities jobs.csv --nearest 1 --cutoffs 15,30", "--cutoffs does nothing with --nearest"),
        ("access --opportunities jobs.csv --nearest 1 --within=900", "--within does nothing with --nearest"),
        ("access --opportunities jobs.csv --nearest 1 --decay linear", "--decay does nothing with --nearest"),
        ("access --opportunities jobs.csv --nearest 1 --decay-v 5", "--decay-value does nothing with --nearest"),
        ("access --opportunities jobs.csv --interval 15,45 --cutoffs 30", "--cutoffs does nothing with --interval"),
        ("access --opportunities jobs.csv --of places", "--of goes with --nearest"),
        ("access --opportunities jobs.csv --feed .", "--feed goes with --nearest"),
        ("compare --by pair --within 900", "--within goes with --by origin"),
        ("compare --by pair --least 1", "--least and --listed go with --by origin"),
        ("long --access --reached", "--reached does nothing with --access"),
        ("long --access --destinations d.csv", "--destinations does nothing with --access"),
        ("map access --origin A --feed .", "--origin does nothing in a map of access"),
        ("map times --origin A --feed . --cutoff 15", "--cutoff does nothing in a map of travel times"),
        ("map difference --origin A --feed . --within 900", "--within does nothing in a map of travel times"),
        ("map access --feed . --opportunities jobs.csv", "--opportunities goes with nearest, or with --nearest"),
        ("map times --origin A --feed . --column jobs", "--column goes with nearest, or with --nearest"),
        ("map access --feed . --streets s.osm", "--streets goes with isochrones"),
        ("map access --feed . --walk 300", "--walk goes with isochrones"),
        ("isochrones --origin A --feed . --out a.json --near 50", "--near goes with --streets"),
        ("page --feed . --near 50", "--near goes with --streets"),
    ],
)
def test_what_does_nothing_is_refused(town: Town, words: str, message: str) -> None:
    town.matrix(town_matrix(True))
    command, *arguments = words.replace(" .", f" {town.feed}").split()
    out, errors, status = town.ran(command, *arguments, town.file)
    assert (out, status) == ("", 2) and errors.splitlines()[-1] == f"ttm-tools {command}: {message}", errors


@pytest.mark.parametrize(
    "words, message",
    [
        ("walks --table w.csv --limit 300 .", "--limit does nothing with --table, whose walks have times of their own"),
        ("walks --table w.csv --speed 1 .", "--speed does nothing with --table, whose walks have times of their own"),
        ("walks --table w.csv --near 1 .", "--near does nothing with --table, whose walks have times of their own"),
        ("walks --near 50 .", "--near goes with --streets"),
        ("points . cells.csv --out doors --near 50", "--near goes with --streets"),
        ("prepare --back 0 --out x .", "--back goes with --date"),
        ("prepare --ahead 0 --check .", "--ahead goes with --date"),
        ("prepare --check --box 1,2,3,4 .", "--box does nothing with --check"),
        ("prepare --check --date 20260505 .", "--date does nothing with --check"),
        ("prepare --check --repair .", "--repair does nothing with --check"),
        ("equity a.csv --people p.csv --measure theil --lose 5", "--lose does nothing with --measure"),
    ],
)
def test_what_does_nothing_without_a_matrix_is_refused(room: Room, words: str, message: str) -> None:
    command, *arguments = words.replace(" .", f" {room.folder}").split()
    out, errors, status = room.ran(command, *arguments)
    assert (out, status) == ("", 2) and errors.splitlines()[-1] == f"ttm-tools {command}: {message}", errors


def test_options_that_count_are_taken(town: Town) -> None:
    town.matrix(town_matrix(True))
    jobs = town.write("jobs.csv", "stop_id,jobs", [["A", 10], ["B", 5]])
    for words in (
        ["access", "--opportunities", jobs, "--cutoffs", "15", "--decay", "linear", "--decay-value", "5"],
        ["access", "--opportunities", jobs, "--nearest", "1", "--column", "jobs"],
        ["compare", "--by", "origin", "--within", "1800"],
        ["long", "--access", "--within", "1800"],
    ):
        assert town.ran(*words, town.file)[2] == 0, words
