"""The long form: lines for pairs, for access, and as r5py names them."""

import importlib.util
import itertools
import random
from pathlib import Path

import pytest

from helpers import TOWN, Cell, Town, read, town_matrix
from ttm_tools.gtfs.stops import read_stops
from ttm_tools.matrices import open_matrix
from ttm_tools.views import long


def lines(town: Town, *arguments: str) -> str:
    out, errors, status = town.ran("long", *arguments, town.file)
    assert (errors, status) == ("", 0)
    return out


@pytest.mark.parametrize("second_form", [False, True])
def test_each_pair_has_a_line(town: Town, second_form: bool) -> None:
    town.matrix(town_matrix(second_form))
    rows = read(lines(town))
    expected = [
        (scenario, origin, stop, str(time))
        for scenario, origins in TOWN.items()
        for origin, times in origins.items()
        for stop, time in zip("ABCD", times)
    ]
    assert [(row["scenario"], row["origin"], row["destination"], row["seconds"]) for row in rows] == expected
    assert list(rows[0]) == ["scenario", *["share"] * second_form, "origin", "destination", "seconds"]


def test_rows_turned_a_few_at_a_time_are_the_same(town: Town, monkeypatch: pytest.MonkeyPatch) -> None:
    town.matrix(town_matrix(True, shares=(10, 20, 50)))
    whole = lines(town, "--feed", town.feed)
    monkeypatch.setattr(long, "CELLS_AT_ONCE", 8)
    assert lines(town, "--feed", town.feed) == whole


def test_names_and_coordinates_of_both_ends(town: Town) -> None:
    town.matrix(town_matrix(False))
    rows = read(lines(town, "--feed", town.feed))
    assert [rows[1][f"destination_{name}"] for name in ("name", "lat", "lon")] == ['Béta, "the" square', "0.0", "9.01"]
    assert [rows[2]["destination_name"], rows[6]["origin_name"], rows[6]["origin_lat"]] == ["C", "Delta", "0.02"]


def test_only_what_is_asked_for(town: Town) -> None:
    town.matrix(town_matrix(True, shares=(25, 50)))
    some, ends = town.write("some.csv", "stop_id", [["D"]]), town.write("ends.csv", "stop_id", [["D"], ["B"]])
    chosen = lines(town, "--origins", some, "--destinations", ends, "--share", "25", "--scenario", "cut")
    assert chosen == "scenario,share,origin,destination,seconds\ncut,25,D,D,0\ncut,25,D,B,850\n"
    town.matrix(town_matrix(False))
    assert lines(town, "--reached", "--scenario", "base").count("\n") == 8


def test_access_has_a_line_for_each_limit(town: Town) -> None:
    town.matrix(town_matrix(True, limits=(900, 1800)))
    head = "scenario,share,origin,within,access\n"
    expected = head + "base,50,A,900,3\nbase,50,A,1800,3\nbase,50,D,900,2\nbase,50,D,1800,3\n"
    assert lines(town, "--access", "--scenario", "base") == expected
    one = lines(town, "--access", "--scenario", "base", "--share", "50", "--within", "900")
    assert one == head + "base,50,A,900,3\nbase,50,D,900,2\n"
    message = f"{town.file}: no access within 60 seconds, but within 900, 1800"
    out, said, status = town.ran("long", "--access", "--within", "60", "--out", town.path("a.csv"), town.file)
    assert (out, said, status) == ("", f"ttm-tools long: {message}\n", 1)
    assert "a.csv" not in town.names()
    named = lines(town, "--access", "--scenario", "cut", "--feed", town.feed).splitlines()
    assert named[1] == "cut,50,A,900,2,Alpha,0.0,9.0"
    town.matrix(town_matrix(False))
    assert lines(town, "--access").splitlines()[:2] == ["scenario,origin,access", "base,A,3"]


def test_r5py_names_have_minutes_and_a_column_for_each_share(town: Town) -> None:
    town.matrix(town_matrix(True, shares=(25, 50)))
    rows = lines(town, "--names", "r5py", "--scenario", "cut").splitlines()
    assert rows[0] == "from_id,to_id,travel_time_p25,travel_time_p50"
    assert rows[1:5] == ["A,A,0.0,0.0", "A,B,3.0,6.0", "A,C,15.83,31.67", "A,D,,"]
    assert "A,D,," not in lines(town, "--names", "r5py", "--scenario", "cut", "--reached").splitlines()
    message = "r5py's columns name no scenario, and it has base, cut: choose one with --scenario"
    town.refused(f"{town.file}: {message}", "long", "--names", "r5py", town.file)
    median = lines(town, "--names", "r5py", "--scenario", "cut", "--share", "50").splitlines()
    assert median[:2] == ["from_id,to_id,travel_time", "A,A,0.0"]
    town.matrix(town_matrix(False, {"base": TOWN["base"]}))
    assert lines(town, "--names", "r5py").splitlines()[:3] == ["from_id,to_id,travel_time", "A,A,0.0", "A,B,5.0"]


def test_a_parquet_file_needs_a_package_and_is_told_in_a_line(town: Town) -> None:
    town.matrix(town_matrix(True))
    out = town.path("long.parquet")
    if any(importlib.util.find_spec(name) for name in ("pyarrow", "fastparquet")):
        import pandas

        assert town.ran("long", "--feed", town.feed, "--out", out, town.file) == ("", "", 0)
        assert pandas.read_parquet(out).to_csv(index=False) == lines(town, "--feed", town.feed)
        return
    message = "Parquet needs pyarrow or fastparquet, and neither is installed; a name that ends in .csv writes a CSV"
    town.refused(f"{out}: {message}", "long", "--out", out, town.file)


@pytest.mark.parametrize("reached", [False, True])
def test_the_tables_of_a_parquet_file_have_the_lines_of_the_csv(town: Town, reached: bool) -> None:
    pandas = pytest.importorskip("pandas")
    matrix = open_matrix(town.matrix(town_matrix(True)))
    choice = long.TableChoice(["base", "cut"], [50], None, matrix.stops, reached)
    frames = list(long.frames_of(matrix, choice, read_stops(town.feed)))
    result = pandas.concat(frames, ignore_index=True).to_csv(index=False)
    assert result == lines(town, "--feed", town.feed, *["--reached"] * reached)


def test_so_have_those_with_names_of_r5py(town: Town) -> None:
    pandas = pytest.importorskip("pandas")
    matrix = open_matrix(town.matrix(town_matrix(True, shares=(25, 50))))
    choice = long.TableChoice(["cut"], [25, 50], None, matrix.stops, False, True)
    result = pandas.concat(long.frames_of(matrix, choice, None), ignore_index=True).to_csv(index=False)
    assert result == lines(town, "--names", "r5py", "--scenario", "cut")


def test_names_in_windows_1252_are_text_in_utf8(town: Town) -> None:
    town.matrix(town_matrix(True))
    stops = (town.folder / "stops.txt").read_text().replace("Alpha", "Größe €").replace("Béta", "B")
    (town.folder / "stops.txt").write_bytes(stops.encode("cp1252"))
    assert read(lines(town, "--feed", town.feed))[0]["origin_name"] == "Größe €"


def test_faults_name_the_file_and_the_record(town: Town) -> None:
    some = town.write("some.csv", "stop_id", [["D"], ["B"]])
    town.matrix(town_matrix(True))
    town.refused(f"{some}: record 3: the matrix has no origin B", "long", "--origins", some, town.file)
    trips = town.path("trips.txt")
    town.refused(f"{trips}: record 1: no column stop_id", "long", "--destinations", trips, town.file)
    zipped = town.path("feed.zip")
    town.refused(f"{zipped}: not the folder of a feed (unzip it first)", "long", "--feed", zipped, town.file)
    out = town.path("long.csv")
    town.matrix(town_matrix(True, stops="AZCD"))
    message = f"{town.path('stops.txt')}: no stop Z, which the matrix has: is it from another feed?"
    town.refused(message, "long", "--feed", town.feed, "--out", out, town.file)


def test_a_matrix_that_was_cut_between_two_shares_is_told(town: Town) -> None:
    text = town_matrix(True, shares=(25, 50))
    town.matrix(text[: text.index("cut,D,50")])
    message = "scenario cut: 1 of 2 origins of share 25 aren't in share 50: D"
    town.refused(f"{town.file}: {message}", "long", "--out", town.path("a.csv"), town.file)


def test_drawn_matrices_have_the_lines_that_plain_loops_write(town: Town) -> None:
    draw = random.Random(11)
    for _ in range(20):
        stops = [f"s{number}" for number in range(draw.randrange(1, 9))]
        times: list[Cell] = ["", 0, 1, draw.randrange(1 << 23), draw.randrange(1 << 20)]
        rows: dict[str, list[Cell]] = {
            origin: [draw.choice(times) for _ in stops]
            for origin in draw.sample(stops, draw.randrange(1, len(stops) + 1))
        }
        shares = draw.choice([(50,), (25, 100)])
        town.matrix(town_matrix(True, {"base": rows}, shares=shares, stops=stops))
        expected = [
            f"base,{share},{origin},{stop},{time if isinstance(time, str) else time * share // 50}"
            for (origin, times), share in itertools.product(rows.items(), shares)
            for stop, time in zip(stops, times)
        ]
        assert lines(town).splitlines()[1:] == expected


def test_a_file_is_written_whole(town: Town) -> None:
    town.matrix(town_matrix(True))
    assert town.ran("long", "--out", town.path("long.csv"), town.file) == ("", "", 0)
    assert Path(town.path("long.csv")).read_text() == lines(town)


def test_more_lines_than_a_spreadsheet_shows_are_told(town: Town, monkeypatch: pytest.MonkeyPatch) -> None:
    town.matrix(town_matrix(True))
    monkeypatch.setattr("ttm_tools.views.long.MOST_LINES", 16)
    out, errors, status = town.ran("long", "--out", town.path("long.csv"), town.file)
    wanted = f"{town.path('long.csv')}: 17 lines, of which a spreadsheet shows 16: choose some with --origins\n"
    assert (out, errors, status) == ("", wanted, 0)


def test_types_of_columns_stand_beside_for_qgis(town: Town) -> None:
    town.matrix(town_matrix(True))
    assert town.ran("long", "--csvt", "--feed", town.feed, "--out", town.path("long.csv"), town.file)[2] == 0
    result = (town.folder / "long.csvt").read_text()
    assert result == ('"String","Integer","String","String","Integer","String","Real","Real","String","Real","Real"\n')
    assert town.ran("long", "--csvt", town.file)[1:] == ("ttm-tools long: --csvt needs --out, the name of a CSV\n", 2)


def test_names_that_are_formulas_are_quoted(town: Town) -> None:
    town.matrix(town_matrix(True))
    town.write("stops.txt", "stop_id,stop_name", [["A", "=1+1"], ["B", "-x"], ["C", "@c"], ["D", "Delta"]])
    result = lines(town, "--safe", "--feed", town.feed).splitlines()
    assert result[1] == "base,50,A,A,0,'=1+1,,,'=1+1,," and result[4].endswith(",Delta,,")
    assert lines(town, "--feed", town.feed).splitlines()[1] == "base,50,A,A,0,=1+1,,,=1+1,,"
