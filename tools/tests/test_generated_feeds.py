"""The feeds and streets that `bench/feedgen.py` and `bench/streetgen.py` generate for examples and tests."""

import hashlib
from pathlib import Path

import pytest

import feedgen

# of all files of the town that seed 1 makes: results of other days are of these bytes
TOWN = "58955af162bcfc04fb364acd8aca7f8b3f51f3be99fd5ac4ae8dd0ecf852cf0d"


def test_the_town_has_the_same_bytes_for_ever(tmp_path: Path) -> None:
    printed = feedgen.write_feed("town", 1, str(tmp_path))
    assert printed == (
        "size town seed 1: stops 482, stations 6, routes 37, trips 4993, stop_times 61617, direct footpaths 3444\n"
    )
    files = sorted(tmp_path.iterdir())
    sums = "".join(f"{hashlib.sha256(file.read_bytes()).hexdigest()} {file.name}\n" for file in files)
    assert len(files) == 13 and hashlib.sha256(sums.encode()).hexdigest() == TOWN


def test_change_times_are_in_the_transfers_alone(tmp_path: Path) -> None:
    plain, changed = tmp_path / "plain", tmp_path / "changed"
    feedgen.write_feed("town", 1, str(plain))
    feedgen.write_feed("town", 1, str(changed), 120)
    other = [path.name for path in sorted(plain.iterdir()) if path.read_bytes() != (changed / path.name).read_bytes()]
    assert other == ["transfers.txt"]
    rows = (changed / "transfers.txt").read_text().splitlines()
    assert len([row for row in rows if row.endswith(",2,120")]) == 482 and "B00000N,B00000N,2,120" in rows


def test_another_seed_makes_another_town(tmp_path: Path) -> None:
    printed = [feedgen.write_feed("town", seed, str(tmp_path / str(seed))) for seed in (1, 2, 2)]
    assert printed[0] != printed[1] == printed[2]


def test_a_region_has_long_headways_and_school_days(tmp_path: Path) -> None:
    printed = feedgen.write_feed("region", 1, str(tmp_path))
    assert printed.startswith("size region seed 1: stops 3006, stations 3, routes 149, trips 9010, stop_times 179005")
    services = [line.split(",")[1] for line in (tmp_path / "trips.txt").read_text().splitlines()[1:]]
    assert services.count("SCHOOL") == 3 * 20 and set(services) == {"ALL", "WD", "SCHOOL"}
    days = (tmp_path / "calendar.txt").read_text().splitlines()[1:]
    assert [day.split(",")[0] for day in days] == ["ALL", "WD", "SCHOOL"]  # a service has one record
    exceptions = (tmp_path / "calendar_dates.txt").read_text().splitlines()
    assert {"SCHOOL,20260330,2", "SCHOOL,20260501,2", "SCHOOL,20260831,2"} < set(exceptions)
    assert sum(exception.startswith("SCHOOL,") for exception in exceptions) == 10 + 1 + 31


def test_streets_are_drawn_alike_and_cross_the_river_by_bridges_alone() -> None:
    numpy = pytest.importorskip("numpy")
    import streetgen

    def drawn() -> tuple[streetgen.Grid, list[tuple[list[int], dict[str, str]]]]:
        draw = numpy.random.default_rng(1)
        grid = streetgen.grid_of((7.0, 0.0, 7.02, 0.01), 800, draw)
        return grid, list(streetgen.ways_of(grid, draw))

    grid, ways = drawn()
    assert (grid.rows, grid.columns) == (20, 40) and drawn()[1] == ways
    middle = grid.rows // 2 * grid.columns
    pieces = [ends for nodes, _ in ways for ends in zip(nodes, nodes[1:])]
    assert {a % grid.columns for a, b in pieces if a < middle <= b} <= {0, 20}
    assert 0.8 < len(pieces) / (2 * len(grid.degrees)) < 0.95
