"""Parts of the origins, and the whole from the matrices of parts."""

import csv
import io
import itertools
import random
import subprocess
from pathlib import Path
from typing import Sequence

import pytest

from helpers import CALENDAR, STOP_TIMES, Room, launched
from ttm_tools.core.errors import InputError
from ttm_tools.matrices.parts import PartMatrix, in_order, parts_of, write_whole

ORIGINS = ["A", 'b,"c"', "line\nend", "D", "E", "0004", "G"]
SCENARIOS = ["base", "cut", "late,\nlater"]


def matrix_of(scenarios: Sequence[str], origins: Sequence[str], shares: int = 1) -> str:
    """A matrix as text: names with commas, quotes and line ends in them."""
    out = io.StringIO()
    writer = csv.writer(out, lineterminator="\n")
    writer.writerow(["scenario", "origin", "share", "access_60", "A", "x,\ny"])
    for scenario, origin, share in itertools.product(scenarios, origins, range(shares)):
        writer.writerow([scenario, origin, share, 7, "", len(scenario + origin)])
    return out.getvalue()


def parts(room: Room, *origins: Sequence[str], scenarios: Sequence[str] = SCENARIOS, shares: int = 1) -> list[str]:
    """Writes a matrix for each part, and gives their paths."""
    paths = []
    for number, part in enumerate(origins):
        paths.append(room.path(f"matrix_{number}.csv"))
        Path(paths[-1]).write_bytes(matrix_of(scenarios, part, shares).encode())
    return paths


def joined(paths: Sequence[str]) -> bytes:
    out = io.BytesIO()
    write_whole(in_order([PartMatrix(path) for path in paths], ORIGINS, "origins.csv"), out)
    return out.getvalue()


def refused(paths: Sequence[str], message: str) -> None:
    with pytest.raises(InputError) as seen:
        joined(paths)
    assert str(seen.value) == message


def test_parts_in_any_order_give_the_bytes_of_the_whole(room: Room) -> None:
    for count, shares in itertools.product(range(1, 9), (1, 3)):
        paths = parts(room, *parts_of(ORIGINS, count), shares=shares)
        random.Random(count).shuffle(paths)
        assert joined(paths) == matrix_of(SCENARIOS, ORIGINS, shares).encode()


def test_a_missing_part_is_named(room: Room) -> None:
    refused(parts(room, ORIGINS[:3], ORIGINS[5:]), "origins.csv: 2 origins in no part: D and 1 more")
    refused(parts(room, ORIGINS[:3], ORIGINS[4:]), "origins.csv: 1 origin in no part: D")


def test_a_doubled_part_is_named(room: Room) -> None:
    paths = parts(room, ORIGINS[:4], ORIGINS[3:])
    refused(paths, f"{paths[1]}: origin D is in {paths[0]}, too")


def test_an_origin_of_another_study_is_named(room: Room) -> None:
    paths = parts(room, ORIGINS, ["Z"])
    refused(paths, f"{paths[1]}: Z isn't an origin of the study")


def test_other_headers_and_scenarios_are_refused(room: Room) -> None:
    some, other = parts(room, ORIGINS[:3], ORIGINS[3:])
    Path(other).write_bytes(matrix_of(["base", "cut"], ORIGINS[3:]).encode())
    refused([some, other], f"{other}: its scenarios aren't those of {some}")
    Path(other).write_bytes(matrix_of(SCENARIOS, ORIGINS[3:]).replace("A,", "B,", 1).encode())
    refused([some, other], f"{other}: its header isn't that of {some}")


def test_origins_that_are_interleaved_are_refused(room: Room) -> None:
    message = "origins.csv: the parts aren't consecutive origins of the study"
    refused(parts(room, ORIGINS[::2], ORIGINS[1::2]), message)


def test_a_matrix_that_was_cut_short_is_refused(room: Room) -> None:
    some, other = parts(room, ORIGINS[:3], ORIGINS[3:])
    whole = Path(other).read_bytes()
    for count in (1, 2, 20):
        Path(other).write_bytes(whole[:-count])
        refused([some, other], f"{other}: truncated")


def test_a_matrix_that_was_cut_between_two_rows_is_refused(room: Room) -> None:
    (path,) = parts(room, ["D", "E"], scenarios=["base", "cut"])
    Path(path).write_bytes(Path(path).read_bytes().replace(b"cut,E,0,7,,4\n", b""))
    refused([path], f"{path}: cut has other origins than the first scenario")


def test_a_matrix_that_was_cut_between_two_shares_is_refused(room: Room) -> None:
    some, other = parts(room, ORIGINS[:2], ORIGINS[2:], scenarios=["base", "cut"], shares=2)
    whole = Path(other).read_bytes()
    Path(other).write_bytes(whole.replace(b"cut,G,1,7,,4\n", b""))
    refused([some, other], f"{other}: G has other percentiles in cut than the first origin")
    Path(other).write_bytes(whole.replace(b"base,D,0,", b"base,D,2,"))
    refused([some, other], f"{other}: D has other percentiles in base than the first origin")


def test_a_matrix_that_ends_after_any_line_is_refused(room: Room) -> None:
    for shares in (1, 2):
        some, other = parts(room, ORIGINS[:3], ORIGINS[3:], shares=shares)
        lines = Path(other).read_bytes().splitlines(keepends=True)
        for count in range(1, len(lines)):
            Path(other).write_bytes(b"".join(lines[:count]))
            with pytest.raises(InputError):
                joined([some, other])


def test_parts_with_other_shares_are_refused(room: Room) -> None:
    (some,) = parts(room, ORIGINS[:3], shares=2)
    other = room.path("other.csv")
    Path(other).write_bytes(matrix_of(SCENARIOS, ORIGINS[3:], 3).encode())
    refused([some, other], f"{other}: its percentiles aren't those of {some}")


def test_parts_are_whole_in_order_and_about_equal() -> None:
    for count, number in itertools.product(range(30), range(1, 12)):
        result = parts_of(list(range(count)), number)
        assert list(itertools.chain(*result)) == list(range(count))
        assert len(result) == max(1, min(number, count))
        assert max(map(len, result)) - min(map(len, result)) <= 1


def test_a_fault_leaves_no_part_behind(room: Room) -> None:
    room.write("some.csv", "stop_id", [["A"], ["B"], ["A"]])
    message = f"{room.path('some.csv')}: record 4: A occurs twice"
    room.refused(message, "split", "--origins", room.path("some.csv"), "--parts", "2", "--out", room.path("parts"))
    assert room.ran("split", "--feed", str(room.folder), "--parts", "0")[2] == 2


@pytest.mark.parametrize("columns", (None, ["s,7", "s,0"], []), ids=("all columns", "two columns", "access alone"))
def test_the_parts_of_a_study_joined_are_the_study(room: Room, program: str, columns: list[str] | None) -> None:
    stops = [f"s,{number}" for number in range(9)]
    room.write("stops.txt", "stop_id,location_type", [*[[stop, ""] for stop in stops], ["station", 1]])
    room.write("routes.txt", "route_id", [["R"], ["Q"]])
    room.write("calendar.txt", *CALENDAR)
    room.write("trips.txt", "route_id,service_id,trip_id", [["R", "M", "T"], ["Q", "M", "U"]])
    times = [["T", *[f"08:{number:02}:00"] * 2, stop, number] for number, stop in enumerate(stops)]
    times += [["U", *[f"08:{30 + number:02}:00"] * 2, stop, number] for number, stop in enumerate(reversed(stops))]
    room.write("stop_times.txt", STOP_TIMES, times)
    room.write("cut.csv", "action,id,seconds", [["remove_route", "Q", ""]])
    ran = launched("split", "--feed", str(room.folder), "--parts", "4", "--out", room.path("parts"))
    assert (ran.returncode, ran.stderr) == (0, b"9 origins in 4 parts\n")
    arguments = f"--feed {room.folder} --date 20260504 --from 08:00 --to 08:03 --trips 2 --walk 0 --share 25,50,75"
    arguments += f" --within 300,600 --workers 1 --tries 1 {room.folder}/cut.csv"
    if columns is not None:
        room.write("columns.csv", "stop_id", [[stop] for stop in columns])
        arguments += f" --destinations {room.path('columns.csv')}"

    def run(*more: str) -> bytes:
        return subprocess.run([program, *arguments.split(), *more], capture_output=True, check=True).stdout

    found = sorted((room.folder / "parts").glob("part_*.csv"))
    for part in found:
        part.with_name(f"matrix_{part.name}").write_bytes(run("--origins", str(part)))
    matrices = [str(path) for path in (room.folder / "parts").glob("matrix_part_*.csv")]
    whole = launched("join", "--origins", room.path("parts/origins.csv"), *matrices)
    assert (len(found), whole.stdout) == (4, run())
