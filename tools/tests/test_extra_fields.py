"""A record with more fields than the header has, such as a number with a comma, is refused where numbers count."""

import pytest

from helpers import Room, Town, town_matrix
from test_points import PACE, feed, place


@pytest.mark.parametrize("line", ["A,1,234", "A,2,5"])
def test_people_with_a_comma_in_their_number_are_refused(town: Town, line: str) -> None:
    town.matrix(town_matrix(True))
    path = town.write("jobs.csv", "stop_id,jobs", [["B", 10], line.split(","), ["C", 1]])
    message = f"{path}: record 3: 3 fields, and the header has 2; a number with a comma would be cut off"
    town.refused(message, "access", "--opportunities", path, town.file)


def test_points_with_a_comma_in_their_number_are_refused(room: Room) -> None:
    town = feed(room)
    path = room.write("cells.csv", "id,lat,lon,people", [["1", *place(30, 0), 1, 234]])
    message = f"{path}: record 2: 5 fields, and the header has 4; a number with a comma would be cut off"
    room.refused(message, "points", town, path, "--out", room.path("doors"), *PACE)


def test_empty_fields_behind_the_last_column_are_taken(town: Town) -> None:
    town.matrix(town_matrix(True))
    path = town.write("jobs.csv", "stop_id,jobs", [["B", 10, "", " "], ["C", 1]])
    assert town.ran("access", "--opportunities", path, town.file)[2] == 0
