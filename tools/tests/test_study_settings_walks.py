"""Walks of a study's own table are taken as they are, so that no option changes them without a word."""

import pytest

from helpers import Room
from test_study import STUDY


@pytest.mark.parametrize("field", ["limit = 300", "kmh = 4", "speed = 1.2", "detour = 1.4"])
def test_options_of_computed_walks_are_refused_next_to_a_table(room: Room, field: str) -> None:
    room.write("walks.csv", "from_stop_id,to_stop_id,seconds", [])
    for name in ("published", "jobs.csv", "people.csv", "cut.csv"):
        (room.folder / name).write_text("")
    (room.folder / "nine.toml").write_text(f'{STUDY}[walks]\ntable = "walks.csv"\n{field}\n')
    _, errors, status = room.ran("study", room.path("nine.toml"))
    name = field.split(" ")[0]
    assert status == 1 and f"{name} '{field.split(' ')[2]}' doesn't go with table" in errors


def test_a_speed_is_in_one_unit(room: Room) -> None:
    for name in ("published", "jobs.csv", "people.csv", "cut.csv"):
        (room.folder / name).write_text("")
    (room.folder / "nine.toml").write_text(f"{STUDY}[walks]\nkmh = 4\nspeed = 1.2\n")
    _, errors, status = room.ran("study", room.path("nine.toml"))
    assert status == 1 and "speed doesn't go with kmh; allowed: one of kmh, speed" in errors, errors
