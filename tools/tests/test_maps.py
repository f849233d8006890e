"""Maps: what is written on them, their classes and lines, and files for geographic information systems."""

import json
from pathlib import Path
from typing import Any

import numpy as np
import pytest

from helpers import CALENDAR, STOP_TIMES, TOWN, Table, Town, read, town_matrix
from ttm_tools.core.text import counted, singular
from ttm_tools.gtfs.projection import Projection
from ttm_tools.gtfs.shapes import lines_of, pieces, read_trips, removed_trips
from ttm_tools.gtfs.stops import read_stops

matplotlib = pytest.importorskip("matplotlib")

from matplotlib.figure import Figure  # noqa: E402

from ttm_tools.views import drawing  # noqa: E402
from ttm_tools.views.classes import TOKENS  # noqa: E402


def figure(town: Town, monkeypatch: pytest.MonkeyPatch, *arguments: str) -> tuple[list[str], str, list[str]]:
    """The figure that the command would save, as the words of its texts and of its key."""
    figures: list[Any] = []
    monkeypatch.setattr(Figure, "savefig", lambda figure, *_, **__: figures.append(figure))
    said = town.ran("map", *arguments, "--feed", town.feed, "--out", town.path("map.png"), town.file)
    assert said == ("", "", 0)
    (figure_drawn,) = figures
    (key,) = figure_drawn.legends
    texts = [text.get_text() for text in figure_drawn.texts]
    return texts, key.get_title().get_text(), [text.get_text() for text in key.get_texts()]


@pytest.mark.parametrize("second_form", [False, True])
def test_travel_times_in_classes_of_minutes(town: Town, monkeypatch: pytest.MonkeyPatch, second_form: bool) -> None:
    town.matrix(town_matrix(second_form))
    texts, key, classes = figure(town, monkeypatch, "times", "--origin", "A")
    message = "3 of 3 other stops are reached, half of them within 15 minutes"
    assert texts[:2] == ["Travel time from Alpha (A)", message]
    assert ("50 % of departures" in texts[2].replace("\n", " ")) == second_form
    assert key == "Travel time,\nwaiting included"
    assert classes == ["up to 10 min  (1)", "11 to 20 min  (1)", "31 to 45 min  (1)", "origin", "where vehicles run"]
    arguments = ["times", "--origin", "A", "--scenario", "cut", "--breaks", "5,6"]
    classes = figure(town, monkeypatch, *arguments)[2]
    assert classes[:3] == ["6 min  (1)", "more than 6 min  (1)", "not reached  (1)"]


def test_access_in_round_numbers(town: Town, monkeypatch: pytest.MonkeyPatch) -> None:
    town.matrix(town_matrix(True))
    texts, key, classes = figure(town, monkeypatch, "access", "--unit", "jobs", "--scenario", "cut")
    assert (texts[0], key) == ("Access from each stop: jobs within 30 minutes", "Jobs reached\nwithin 30 minutes")
    no_origin = "not an origin of the matrix  (2)"
    assert classes == ["less than 3  (1)", "3 or more  (1)", no_origin, "where vehicles run"]
    town.matrix(town_matrix(False))
    assert figure(town, monkeypatch, "access")[0][0] == "Access from each stop: opportunities"


def test_the_answer_stands_above_what_is_drawn_unless_a_title_is_named(
    town: Town, monkeypatch: pytest.MonkeyPatch
) -> None:
    town.matrix(town_matrix(True))
    cases: list[tuple[list[str], str]] = [([], "Half of 2 stops"), (["--title", "Ours"], "Ours")]
    for more, on_top in cases:
        figures: list[Any] = []
        monkeypatch.setattr(Figure, "savefig", lambda figure, *_, **__: figures.append(figure))
        assert town.ran("map", "access", *more, "--feed", town.feed, "--out", town.path("map.png"), town.file)[2] == 0
        first, second = sorted(figures[0].texts[:2], key=lambda text: -float(text.get_position()[1]))
        assert first.get_text().startswith(on_top) and first.get_fontweight() == "bold"
        assert second.get_color() == TOKENS["soft"]


def test_one_is_named_in_the_singular() -> None:
    for plural, one in (("jobs", "1 job"), ("primary schools", "1 primary school"), ("opportunities", "1 opportunity")):
        assert (counted(1, plural), counted(2000, plural)) == (one, f"2,000 {plural}")
    for plural, one in (
        ("churches", "church"),
        ("boxes", "box"),
        ("access", "access"),
        ("Arbeit", "Arbeit"),
        ("s", "s"),
    ):
        assert singular(plural) == one
    assert counted(0, "jobs") == "0 jobs"


def test_destinations_that_are_no_origins_have_a_sign_of_their_own(town: Town, monkeypatch: pytest.MonkeyPatch) -> None:
    """Of the points A to D the matrix has A and D as origins; B and C are destinations alone."""
    town.matrix(town_matrix(True))
    rows = [["A", 0, 9], ["B", 0, 9.01], ["C", 0.01, 9.01], ["D", 0.02, 9.01]]
    common = ["--points", town.write("mine.csv", "id,lat,lon", rows)]
    for picture in ("access", "difference"):
        _, _, classes = figure(town, monkeypatch, picture, *common)
        assert "destinations  (2)" in classes and not [text for text in classes if "not an origin" in text]
    schools = town.write("schools.csv", "stop_id,schools", [["B", 1], ["C", 2]])
    _, _, classes = figure(town, monkeypatch, "nearest", "--opportunities", schools, *common)
    assert "destinations  (2)" in classes


def test_a_note_without_a_full_stop_gets_one(town: Town, monkeypatch: pytest.MonkeyPatch) -> None:
    town.matrix(town_matrix(True))
    for note, written in (("two vehicles", "two vehicles."), ("Why?", "Why?"), ("One. ", "One.")):
        texts, *_ = figure(town, monkeypatch, "access", "--note", note)
        assert f"stop. {written} In brackets: number of stops." in texts[2].replace("\n", " ")


def test_the_difference_of_access(town: Town, monkeypatch: pytest.MonkeyPatch) -> None:
    town.matrix(town_matrix(True))
    texts, _, classes = figure(town, monkeypatch, "difference")
    message = "Of 2 stops 1 loses, 1 gains; the greatest loss: 33 % (1 opportunity) at Alpha (A)"
    assert texts[1] == message
    lost, gained = "25 % or more lost  (1)", "25 % or more gained  (1)"
    assert classes[:3] == [lost, gained, "not an origin of the matrix  (2)"]


def test_the_difference_of_travel_times(town: Town, monkeypatch: pytest.MonkeyPatch) -> None:
    town.matrix(town_matrix(False))
    texts, _, classes = figure(town, monkeypatch, "difference", "--origin", "A")
    title = "Travel time from Alpha (A): cut compared with base"
    assert texts[:2] == [title, "Of 4 stops 1 cut off, 1 slower, 0 faster"]
    gone = "cut off  (1)"
    assert classes[:3] == [gone, "15 min or more slower  (1)", "less than 2 min either way  (1)"]
    town.matrix(town_matrix(True))
    classes = figure(town, monkeypatch, "difference", "--origin", "D")[2]
    new = "newly reached  (1)"
    assert classes[:2] == ["less than 2 min either way  (2)", new]


def test_lines_go_from_stop_to_stop_or_along_shapes(town: Town, monkeypatch: pytest.MonkeyPatch) -> None:
    stops = read_stops(town.feed)
    projection = Projection(stops.latitudes, stops.longitudes)
    straight = lines_of(town.feed, stops, projection)
    assert (len(pieces(straight)), len(pieces(straight.of_lines({"T"})))) == (3, 2)
    points = [["s", 3, 0.0, 9.02], ["s", 1, 0.0, 9.0], ["s", 2, 0.0, 9.01], ["t", 1, 0.0, 9.01], ["t", 2, 0.0, 9.0]]
    town.write("shapes.txt", "shape_id,shape_pt_sequence,shape_pt_lat,shape_pt_lon", points)
    shaped, trips = lines_of(town.feed, stops, projection), read_trips(town.feed, True)
    assert (len(pieces(shaped)), len(pieces(shaped.of_lines(trips.lines({"U"}, True))))) == (2, 1)
    cut = town.write("cut.csv", "action,id,seconds", [["remove_route", "R", ""], ["shift_trip", "U", 60]])
    assert removed_trips(trips, cut) == {"T"}
    town.matrix(town_matrix(True))
    assert "removed trips" in figure(town, monkeypatch, "difference", "--edits", cut)[2]


def test_trips_that_a_scenario_adds_are_named_as_such(town: Town, monkeypatch: pytest.MonkeyPatch) -> None:
    town.matrix(town_matrix(True, {**TOWN, "more": TOWN["base"]}))
    cut = town.write("cut.csv", "action,id,seconds", [["remove_route", "R", ""]])
    more = town.write("more.csv", "action,id,seconds", [["remove_route", "Q", ""]])
    arguments = ["difference", "--base", "cut", "--scenario", "more", "--edits", cut, "--edits", more]
    assert figure(town, monkeypatch, *arguments)[2][-2:] == ["removed trips", "added trips"]
    arguments = ["difference", "--base", "cut", "--scenario", "base", "--edits", cut]
    assert figure(town, monkeypatch, *arguments)[2][-2:] == ["where vehicles run", "added trips"]
    arguments = ["access", "--scenario", "cut", "--base", "cut", "--edits", cut]
    assert figure(town, monkeypatch, *arguments)[2][-1] == "removed trips"


def test_kilometres_are_those_on_the_ground_and_the_date_line_is_no_edge() -> None:
    projection = Projection(np.array([60.0, 60.0]), np.array([179.9, -179.9]))
    east, _ = projection.kilometres(np.array([-179.9, 179.9]), np.array([60.0, 60.0]))
    _, north = projection.kilometres(np.array([180.0, 180.0]), np.array([61.0, 60.0]))
    assert east[0] - east[1] == pytest.approx(0.2 * 55.7995, abs=0.001)
    assert north[0] - north[1] == pytest.approx(111.42, abs=0.01)


def test_a_png_file_as_wide_as_asked(town: Town) -> None:
    town.matrix(town_matrix(True))
    out = town.path("map.png")
    arguments = ["map", "times", "--origin", "A", "--feed", town.feed, "--width", "640", "--out", out, town.file]
    assert town.ran(*arguments) == ("", "", 0)
    head = Path(out).read_bytes()[:24]
    assert (head[:8], int.from_bytes(head[16:20], "big")) == (b"\x89PNG\r\n\x1a\n", 640)


def test_names_with_dollars_are_text(town: Town) -> None:
    places = [["A", "$x^$ & $", 0, 9], ["B", "$", 0, 9.1], ["C", "\\alpha$", 1, 9], ["D", "{$}", 1, 9.1]]
    town.write("stops.txt", "stop_id,stop_name,stop_lat,stop_lon", places)
    town.matrix(town_matrix(True))
    for arguments in (["times", "--origin", "A"], ["difference"], ["difference", "--origin", "A", "--title", "$^$"]):
        assert town.ran("map", *arguments, "--feed", town.feed, "--out", town.path("m.png"), town.file) == ("", "", 0)


def test_a_stop_without_coordinates_is_counted(town: Town) -> None:
    places: Table = [["A", 0, 9], ["B", "", ""], ["C", 0, 0], ["D", 1, "x"]]
    town.write("stops.txt", "stop_id,stop_lat,stop_lon", places)
    town.matrix(town_matrix(True))
    out = town.path("map.png")
    errors = town.ran("map", "times", "--origin", "A", "--feed", town.feed, "--out", out, town.file)[1]
    assert errors == "3 stops have no stop_lat and stop_lon and are not drawn\n"


def test_faults_name_the_file_and_the_record(town: Town) -> None:
    def refused(message: str, *more: str) -> None:
        town.refused(message, "map", "times", "--feed", town.feed, "--out", town.path("m.png"), *more, town.file)

    town.matrix(town_matrix(True))
    refused(f"{town.feed}/stops.txt: no stop Z", "--origin", "Z")
    refused(f"{town.file}: the scenario base has no origin B", "--origin", "B")
    town.matrix(town_matrix(True, shares=(25, 50)))
    message = f"{town.file}: it has rows for the percentiles 25, 50: choose one with --share"
    refused(message, "--origin", "A")
    town.matrix(town_matrix(False))
    refused(f"{town.file}: no scenario late; it has base, cut", "--origin", "A", "--scenario", "late")
    header = "shape_id,shape_pt_sequence,shape_pt_lat,shape_pt_lon"
    town.write("shapes.txt", header, [["s", 1, 0, 0], ["s", 2, "north", 0]])
    refused(f"{town.feed}/shapes.txt: record 3: shape_pt_lat 'north' is not a number", "--origin", "A")
    cut = town.write("cut.csv", "action,id,seconds", [["remove_route", "Z", ""]])
    town.write("shapes.txt", header, [])
    refused(f"{cut}: record 2: Z isn't in trips.txt", "--origin", "A", "--edits", cut)
    town.write("stops.txt", "stop_id", [["A"], ["B"], ["C"], ["D"]])
    message = f"{town.feed}/stops.txt: no stop has stop_lat and stop_lon, so there is nothing to draw"
    refused(message, "--origin", "A")


def test_points_for_a_geographic_information_system(town: Town) -> None:
    town.matrix(town_matrix(True))
    out = town.path("town.geojson")
    message = f"{out}: 4 stops; 0 without coordinates\n"
    assert town.ran("gis", "--feed", town.feed, "--origin", "A", "--out", out, town.file) == ("", message, 0)
    result = json.loads(Path(out).read_text())
    assert result["features"][1]["geometry"] == {"type": "Point", "coordinates": [9.01, 0.0]}
    names: dict[str, Any] = {"stop_id": "B", "stop_name": 'Béta, "the" square'}
    columns = {"base_50_access_1800": None, "base_50_seconds": 300, "cut_50_access_1800": None, "cut_50_seconds": 360}
    assert result["features"][1]["properties"] == {**names, **columns}
    assert result["features"][3]["properties"]["cut_50_access_1800"] == 4
    assert result["features"][3]["properties"]["cut_50_seconds"] is None
    message = f"{town.file}: the scenario base has no origin B"
    town.refused(message, "gis", "--feed", town.feed, "--origin", "B", "--out", town.path("b.json"), town.file)


def test_a_geopackage_has_the_same_points(town: Town) -> None:
    geopandas = pytest.importorskip("geopandas")
    town.write("stops.txt", "stop_id,stop_lat,stop_lon", [["A", 1, 9], ["B", 2, 8], ["C", 0, 0], ["D", 1, 7]])
    town.matrix(town_matrix(False))
    out = town.path("town.gpkg")
    message = f"{out}: 3 stops; 1 without coordinates\n"
    before = town.names()
    ran = town.ran("gis", "--feed", town.feed, "--scenario", "cut", "--origin", "A", "--out", out, town.file)
    assert ran == ("", message, 0)
    assert town.names() == before | {"town.gpkg"}
    result = geopandas.read_file(out)
    assert (list(result.stop_id), [point.x for point in result.geometry]) == (["A", "B", "D"], [9, 8, 7])
    assert result.cut_access.fillna(-1).tolist() == [2, -1, 4]
    assert result.cut_seconds.fillna(-1).tolist() == [0, 360, -1]


def test_each_command_takes_the_matrix_of_the_program(town: Town, program: str) -> None:
    town.write("routes.txt", "route_id", [["R"], ["Q"]])
    town.write("calendar.txt", *CALENDAR)
    times = [["T", *[f"08:{number}0:00"] * 2, stop, number] for number, stop in enumerate("ABC")]
    times += [["U", *[f"08:{number}5:00"] * 2, stop, number] for number, stop in enumerate("CBAD")]
    town.write("stop_times.txt", STOP_TIMES, times)
    cut = town.write("cut.csv", "action,id,seconds", [["remove_route", "Q", ""]])
    arguments = (
        f"--feed {town.feed} --date 20260504 --from 08:00 --to 08:00 --trips 2 --walk 0 --workers 1 --tries 1 {cut}"
    )
    town.take(program, f"{arguments} --share 50 --within 1800")
    rows = read(town.ran("compare", town.file)[0])
    lost = [("A", "D"), ("B", "A"), ("B", "D"), ("C", "A"), ("C", "B"), ("C", "D")]
    assert [(row["origin"], row["destination"], row["what"]) for row in rows] == [(*ends, "cut off") for ends in lost]
    assert town.ran("long", "--reached", town.file)[0].count("\n") == 1 + 13 + 7
    out = ["--feed", town.feed, "--out", town.path("map.png"), town.file]
    for picture in (["times", "--origin", "A"], ["access"], ["difference"], ["difference", "--origin", "A"]):
        assert town.ran("map", *picture, *out) == ("", "", 0)
    town.take(program, f"{arguments} --share 25,50,100 --within 600,1800")
    message = f"{town.file}: it has rows for the percentiles 25, 50, 100: choose one with --share"
    town.refused(message, "compare", town.file)
    town.refused(message, "map", "times", "--origin", "A", *out)
    message = f"{town.file}: it has access within 600, 1800 seconds: choose one with --within"
    town.refused(message, "compare", "--by", "origin", "--share", "50", town.file)
    again = read(town.ran("compare", "--share", "50", town.file)[0])
    assert [(row["origin"], row["destination"]) for row in again] == lost
    options = (
        ["--reached"],
        ["--reached", "--share", "100"],
        ["--access"],
        ["--access", "--share", "25", "--within", "600"],
    )
    counts = [town.ran("long", *more, town.file)[0].count("\n") for more in options]
    assert counts == [1 + 3 * (13 + 7), 1 + 13 + 7, 1 + 2 * 3 * 8, 1 + 8]
    assert town.ran("map", "difference", "--share", "100", "--within", "600", *out) == ("", "", 0)


def test_a_picture_leaves_nothing_where_the_run_is_ended(town: Town) -> None:
    town.matrix(town_matrix(True))
    out = town.path("no/map.png")
    assert town.ran("map", "access", "--feed", town.feed, "--out", out, town.file)[2] == 1
    assert not any(".part." in name for name in town.names())


def test_new_lines_of_a_plan_are_drawn_as_added_and_others_as_changed(
    town: Town, monkeypatch: pytest.MonkeyPatch
) -> None:
    """The scenario `more` of a plan has a line L from A to D, and replaces trip T; `other` adds P."""
    town.matrix(town_matrix(True, {"base": TOWN["base"], "today": TOWN["base"], "more": TOWN["cut"]}))
    town.write(
        "trips.txt", "route_id,trip_id", [["R", "T"], ["Q", "U"], ["L", "L1"], ["R@more", "T@more"], ["P", "P1"]]
    )
    times = [["T", "", "", stop, number] for number, stop in enumerate("ABC")]
    times += [["T@more", "", "", stop, number] for number, stop in enumerate("AB")]
    for trip, way in (("L1", "AD"), ("P1", "DB"), ("U", "CA")):
        times += [[trip, "", "", stop, number] for number, stop in enumerate(way)]
    town.write("stop_times.txt", STOP_TIMES, times)
    (town.folder / "scenarios").mkdir()
    gone = [["remove_route", route, ""] for route in ("L", "R@more", "P")]
    town.write("scenarios/today.csv", "action,id,seconds", gone)
    town.write("scenarios/more.csv", "action,id,seconds", [["remove_trip", "T", ""], ["remove_route", "P", ""]])
    drawn: list[tuple[str, int]] = []
    monkeypatch.setattr(drawing, "draw_lines", lambda _, lines, __: drawn.append((lines.label, len(lines.pieces))))
    changes = [("changed trips", 1), ("removed trips", 1), ("added trips", 1)]
    for arguments, lines in (
        (["difference"], [("where vehicles run", 4), *changes]),  # A-B, B-C, A-C and A-D; A-B, B-C, A-D
        (["difference", "--base", "base", "--scenario", "more"], [("where vehicles run", 5)]),  # P's D-B too
        (["times", "--origin", "A", "--scenario", "more"], [("where vehicles run", 3), changes[-1]]),
        (["access"], [("where vehicles run", 3)]),
    ):
        drawn.clear()
        figure(town, monkeypatch, *arguments)
        assert drawn == lines
