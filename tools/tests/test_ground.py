"""The ground of maps: what of OpenStreetMap it has, its file, its size, and how pages draw it."""

from pathlib import Path
from typing import Any, Iterator

import numpy as np
import pytest
from matplotlib.collections import PolyCollection
from matplotlib.colors import to_rgba
from matplotlib.figure import Figure
from matplotlib.transforms import Bbox

from browser import Browser
from helpers import METRE, Room, Town, town_matrix
from streets import write_osm
from ttm_tools.ground.contents import UNIT, Ground, Shapes
from ttm_tools.ground.extract import read_ground
from ttm_tools.ground.fitting import fitted, in_page
from ttm_tools.ground.packing import as_bytes, as_numbers, packed, read_packed, signed, unpacked, unsigned
from ttm_tools.ground.tags import area_of, line_of, name_of
from ttm_tools.ground.thinning import lengths_of, signed_hectares, thinned
from ttm_tools.views.classes import NEAR, TOKENS
from ttm_tools.views.ground import freest
from ttm_tools.web.page.document import host_of, policy_of

SQUARE = {1: (0.0, 0.0), 2: (0.0, 400.0), 3: (400.0, 400.0), 4: (400.0, 0.0)}  # metres north and east
ROAD = {5: (-500.0, -500.0), 6: (-500.0, 0.0), 7: (-500.0, 900.0), 8: (-400.0, 900.0)}


def extract(room: Room, *ways: tuple[list[int], dict[str, str]]) -> str:
    return write_osm(room.folder / "region.osm", SQUARE | ROAD, ways)


def town_ground(town: Town) -> str:
    """A ground below the town, which lies from 9 to 9.01 east: a park to the north-west of C, and a main street."""
    left = 8 / METRE
    nodes = {1: (600.0, left + 100), 2: (600.0, left + 700), 3: (1600.0, left + 700), 4: (1600.0, left + 100)}
    nodes |= {5: (-200.0, left - 900), 6: (-200.0, left + 2000)}
    ways = [([1, 2, 3, 4, 1], {"leisure": "park", "name": "Lea Park"}), ([5, 6], {"highway": "primary"})]
    source = write_osm(town.folder / "region.osm", nodes, ways)
    assert town.ran("ground", "--out", town.path("ground.bin"), source)[2] == 0
    return town.path("ground.bin")


@pytest.mark.parametrize(
    "tags, line, area, name",
    [
        ({"highway": "motorway_link"}, "street1", None, None),
        ({"highway": "tertiary"}, "street2", None, None),
        ({"highway": "residential"}, "street3", None, None),
        ({"highway": "residential", "tunnel": "yes"}, None, None, None),
        ({"highway": "footway"}, None, None, None),
        ({"railway": "rail"}, "rail", None, None),
        ({"railway": "rail", "service": "siding"}, None, None, None),
        ({"waterway": "stream"}, "brook", None, None),
        ({"natural": "water"}, None, "water", None),
        ({"landuse": "basin"}, None, "water", None),
        ({"landuse": "forest"}, None, "park", None),
        ({"landuse": "industrial"}, None, None, None),
        ({"place": "neighbourhood", "name": "Lea"}, None, None, "quarter"),
        ({"place": "suburb"}, None, None, None),
        ({"railway": "halt", "name": "Lea Road"}, None, None, "station"),
    ],
)
def test_what_tags_mean(tags: dict[str, str], line: str | None, area: str | None, name: str | None) -> None:
    assert (line_of(tags), area_of(tags), name_of(tags)) == (line, area, name)


def test_an_extract_becomes_shapes_and_names_on_a_grid(room: Room) -> None:
    park = ([1, 2, 3, 4, 1], {"leisure": "park", "name": "Lea Park"})
    road = ([5, 6, 7, 8], {"highway": "primary"})
    found = read_ground(extract(room, park, road, ([1, 2], {"highway": "footway"})))
    assert {kind: len(shapes) for kind, shapes in found.shapes.items() if len(shapes)} == {"park": 1, "street1": 1}
    corner = np.rint(np.array([-500 * METRE, 1 - 500 * METRE]) * UNIT).astype(int)
    assert found.shapes["street1"].points[0].tolist() == corner.tolist()
    assert found.shapes["street1"].counts.tolist() == [3]  # node 6 lies between its neighbours
    (name,) = found.names
    assert (name.kind, name.text) == ("park", "Lea Park")
    assert (name.latitude, name.longitude) == pytest.approx((200 * METRE, 1 + 200 * METRE), abs=1e-7)
    assert name.weight == pytest.approx(16, rel=0.01)  # hectares


def test_areas_that_are_too_small_and_what_lies_outside_a_box_are_left_out(room: Room) -> None:
    source = extract(room, ([1, 2, 3, 4, 1], {"leisure": "park"}), ([5, 6], {"highway": "primary"}))
    north = (0.9, -100 * METRE, 1.1, 1.0)
    assert len(read_ground(source, north).shapes["street1"]) == 0
    tiny = write_osm(
        room.folder / "tiny.osm",
        {1: (0, 0), 2: (0, 9), 3: (9, 9), 5: (0, 0), 6: (0, 99)},
        [([1, 2, 3, 1], {"leisure": "park"}), ([5, 6], {"highway": "primary"})],
    )
    assert len(read_ground(tiny).shapes["park"]) == 0


def test_numbers_are_written_in_seven_bits_a_byte() -> None:
    numbers = np.array([0, 1, 127, 128, 300, 1 << 40])
    assert as_bytes(numbers[:5]) == bytes([0, 1, 127, 0x80, 1, 0xAC, 2])
    assert as_numbers(as_bytes(numbers)).tolist() == numbers.tolist()
    steps = np.array([0, -1, 1, -64, 64, -(1 << 30)])
    assert signed(steps).tolist()[:5] == [0, 1, 2, 127, 128]
    assert unsigned(signed(steps)).tolist() == steps.tolist()
    assert as_numbers(b"").tolist() == []


def test_points_are_left_out_where_a_line_moves_by_less_than_the_tolerance() -> None:
    bent = np.array([[0, 0], [1, 100], [0, 200], [50, 300], [0, 400]]) * METRE
    shapes = Shapes.of([bent, bent[:2]])
    assert thinned(shapes).counts.tolist() == [4, 2]
    assert thinned(shapes).points[1].tolist() == shapes.points[2].tolist()
    assert lengths_of(shapes)[1] == pytest.approx(100, abs=1)
    ring = np.array([[0, 0], [0, 100], [200, 100], [200, 0], [0, 0]]) * METRE
    assert signed_hectares(ring) == pytest.approx(2, rel=0.02)
    assert signed_hectares(ring[::-1]) == pytest.approx(-2, rel=0.02)


def streets(count: int) -> Ground:
    """Streets that lie about, each longer than the one before it, and a main street."""
    draw = np.random.default_rng(3)
    rows = [draw.uniform(0, 0.1, 2) + np.array([[0, 0], [0, step * 1e-5]]) for step in range(1, count + 1)]
    shapes = {"street1": Shapes.of(rows[-1:]), "street2": Shapes.of(rows[:5]), "street3": Shapes.of(rows)}
    return Ground((0, 0, 1, 1), shapes)


def test_the_shortest_minor_streets_go_first_where_a_page_has_no_room() -> None:
    ground = streets(400)
    whole = in_page(packed(ground))
    assert fitted(ground, whole).dropped == {}
    found = fitted(ground, whole // 2)
    assert in_page(found.data) <= whole // 2 and list(found.dropped) == ["street3"]
    kept = found.ground.shapes["street3"]
    assert len(kept) + found.dropped["street3"] == 400
    assert lengths_of(kept).min() > lengths_of(ground.shapes["street3"])[found.dropped["street3"] - 1]
    assert len(found.ground.shapes["street2"]) == 5
    assert list(fitted(ground, in_page(packed(streets(1))) - 8).dropped) == ["street3", "street2"]


def test_the_file_is_read_as_it_was_written_and_damage_is_reported(room: Room) -> None:
    source = extract(room, ([1, 2, 3, 4, 1], {"natural": "water", "name": "Étang"}), ([5, 7], {"highway": "primary"}))
    out = room.path("ground.bin")
    printed = room.ran("ground", "--out", out, source)
    assert printed[1].startswith(f"{out}: 1 street, 0 railways, 1 name; ") and printed[2] == 0
    first, ground = Path(out).read_bytes(), unpacked(out, read_packed(out))
    assert packed(ground) == read_packed(out)
    assert [(name.kind, name.text) for name in ground.names] == [("water", "Étang")]
    assert room.ran("ground", "--out", out, source)[2] == 0 and Path(out).read_bytes() == first
    Path(out).write_bytes(first[:-9])
    with pytest.raises(ValueError, match="damaged ground"):
        unpacked(out, read_packed(out))
    Path(out).write_bytes(b"PNG")
    with pytest.raises(ValueError, match="is not a ground: ttm-tools ground writes one"):
        read_packed(out)


def test_bad_input_is_reported_in_one_line(room: Room) -> None:
    def refused(message: str, *arguments: str) -> None:
        room.refused(message, "ground", "--out", room.path("ground.bin"), *arguments)

    none = extract(room, ([1, 2], {"highway": "footway"}))
    refused(f"{none}: no street, railway, water or park", none)
    assert room.ran("ground", "--margin", "5", none)[1].startswith("ttm-tools ground: --margin")
    room.write("stops.txt", "stop_id", [["A"]])
    refused(
        f"{room.folder}/stops.txt: no stop has stop_lat and stop_lon, so the ground has no place",
        "--feed",
        str(room.folder),
        none,
    )


@pytest.fixture(scope="module")
def browser() -> Iterator[Browser]:
    driver = Browser()
    yield driver
    driver.close()


def drawn(browser: Browser, canvas: str, latitude: float, longitude: float) -> str:
    """The colour that a canvas of the map has at a place."""
    script = """
const [name, latitude, longitude] = arguments, canvas = document.querySelector(`canvas.${name}`);
const at = page.map.latLngToContainerPoint([latitude, longitude]), box = canvas.getBoundingClientRect();
const map = document.getElementById("map").getBoundingClientRect(), fine = canvas.width / box.width;
const where = [(at.x + map.left - box.left) * fine, (at.y + map.top - box.top) * fine].map(Math.round);
const [red, green, blue] = canvas.getContext("2d").getImageData(...where, 1, 1).data;
return "#" + [red, green, blue].map((it) => it.toString(16).padStart(2, "0")).join("")"""
    return str(browser.run(script, canvas, latitude, longitude))


def page(town: Town, *arguments: str) -> Path:
    out = town.path("page.html")
    assert town.ran("page", "--feed", town.feed, "--out", out, *arguments, town.file)[2] == 0
    return Path(out)


def test_a_page_draws_the_ground_below_its_lines_and_names_the_source(town: Town, browser: Browser) -> None:
    town.matrix(town_matrix(True))
    browser.open(page(town, "--ground", town_ground(town)))
    assert drawn(browser, "lines", 800 * METRE, 9 + 300 * METRE) == TOKENS["park"]
    assert drawn(browser, "lines", -200 * METRE, 9 - 300 * METRE) == TOKENS["street1"]
    assert browser.text("lines-key").endswith("© OpenStreetMap contributors")
    assert browser.run("return page.ground.names.map((name) => name.text)") == ["Lea Park"]
    assert browser.complaints() == []


def test_areas_are_multiplied_with_the_ground_and_end_at_parks(town: Town, browser: Browser) -> None:
    """A cell of a kilometre around C is multiplied with the land, but not with the park; the mark in it is not."""
    town.matrix(town_matrix(True))
    stops = [["A", 0.0, 9.0, ""], ["B", 0.0, 9.01, ""], ["C", 0.01, 9.01, 1000], ["D", 0.02, 9.0, ""]]
    cells = town.write("cells.csv", "id,lat,lon,width", stops)
    beside, inside = (0.01, 9.01 + 400 * METRE), (0.01, 9.01 + 30 * METRE)
    browser.open(page(town, "--points", cells), "view=times&from=A")
    plain, mark = (channels(drawn(browser, "places", *place)) for place in (beside, inside))
    browser.open(page(town, "--ground", town_ground(town), "--points", cells), "view=times&from=A")
    assert drawn(browser, "places", 800 * METRE, 9 + 650 * METRE) == TOKENS["park"]
    multiplied = [cell * land / 255 for cell, land in zip(plain, channels(TOKENS["land"]))]
    assert channels(drawn(browser, "places", *beside)) == pytest.approx(multiplied, abs=1)
    assert channels(drawn(browser, "places", *inside)) == mark != plain
    assert multiplied != pytest.approx(plain, abs=1)


def channels(colour: str) -> list[int]:
    return [int(colour[at : at + 2], 16) for at in (1, 3, 5)]


def test_a_ground_of_elsewhere_is_refused(town: Town) -> None:
    town.matrix(town_matrix(True))
    far = write_osm(town.folder / "far.osm", {1: (0, 0), 2: (0, 999)}, [([1, 2], {"highway": "primary"})])
    ground = town.path("far.bin")
    assert town.ran("ground", "--out", ground, far)[2] == 0
    message = f"{ground}: none of the places lies on this ground, which is that of 0.000 to 0.000 north, "
    town.refused_with(message, "page", "--feed", town.feed, "--out", town.path("p.html"), "--ground", ground, town.file)


def test_tiles_come_from_one_host_alone() -> None:
    assert host_of("https://tiles.example:8/{z}/{x}/{y}.png?k=1") == "https://tiles.example:8"
    assert host_of("https://{s}.tile.example/{z}/{x}/{y}.png") == "https://*.tile.example"
    policy = policy_of([], [], "https://tiles.example/{z}/{x}/{y}.png")
    assert "img-src data: https://tiles.example;" in policy


def pictured(town: Town, monkeypatch: pytest.MonkeyPatch, *arguments: str) -> Any:
    """The figure that ttm-tools map would save."""
    figures = list[Any]()
    monkeypatch.setattr(Figure, "savefig", lambda figure, *_, **__: figures.append(figure))
    words = ["map", *arguments, "--ground", town_ground(town), "--feed", town.feed, "--out", town.path("map.png")]
    assert town.ran(*words, town.file)[1:] == ("", 0)
    return figures[0]


def orders(axes: Any, colour: str) -> list[float]:
    """The orders of drawing of what has a colour."""
    wanted = to_rgba(colour)
    found = [(it, it.get_facecolor() if it.get_fill() else it.get_edgecolor()) for it in axes.collections]
    return sorted(it.get_zorder() for it, colours in found if any(tuple(one) == wanted for one in colours))


def test_a_picture_has_the_ground_below_its_lines_and_names_its_source(
    town: Town, monkeypatch: pytest.MonkeyPatch
) -> None:
    town.matrix(town_matrix(True))
    figure = pictured(town, monkeypatch, "times", "--origin", "A")
    axes = figure.axes[0]
    (park,), (line,) = orders(axes, TOKENS["park"]), orders(axes, TOKENS["route"])
    (casing,), (street,) = orders(axes, TOKENS["street-edge"]), orders(axes, TOKENS["street1"])
    marks = [it.get_zorder() for it in axes.collections if it.get_zorder() > 2.9]
    assert park < casing < street < line < min(marks) and len(marks) == 4  # three classes and the origin's star
    assert "Lea Park" in [text.get_text() for text in axes.texts]
    assert "© OpenStreetMap contributors." in figure.texts[2].get_text().replace("\n", " ")


def test_cells_of_a_picture_end_at_parks(town: Town, monkeypatch: pytest.MonkeyPatch) -> None:
    town.matrix(town_matrix(True))
    rows = [["A", 0.0, 9.0, ""], ["B", 0.0, 9.01, ""], ["C", 0.01, 9.01, 2000], ["D", 0.02, 9.0, ""]]
    cells = town.write("cells.csv", "id,lat,lon,width", rows)
    axes = pictured(town, monkeypatch, "times", "--origin", "A", "--points", cells).axes[0]
    below, above = orders(axes, TOKENS["park"])
    (cell,) = [it.get_zorder() for it in axes.collections if isinstance(it, PolyCollection)]
    assert below < cell < above < orders(axes, TOKENS["street1"])[0]


def test_areas_of_a_picture_end_at_parks(town: Town, monkeypatch: pytest.MonkeyPatch) -> None:
    pytest.importorskip("shapely")
    town.matrix(town_matrix(True))
    axes = pictured(town, monkeypatch, "isochrones", "--origin", "A").axes[0]
    below, above = orders(axes, TOKENS["park"])
    (band,) = orders(axes, NEAR[0])
    assert below < band < above


def test_a_name_takes_the_freest_spot_and_none_where_others_are() -> None:
    stops = np.array([[100.0, 100.0], [104.0, 100.0]])
    found = freest(np.array([100.0, 100.0]), (40, 10), 1, False, [], stops)
    assert found is not None and found.bounds == (80, 109, 40, 10)
    everywhere = Bbox.from_bounds(0, 0, 300, 300)
    assert freest(np.array([100.0, 100.0]), (40, 10), 1, False, [everywhere], stops) is None


def test_explore_takes_tiles_with_their_attribution_alone(town: Town) -> None:
    words = ["explore", town.feed, "--date", "20260504", "--tiles"]
    assert town.ran(*words, "https://x") == ("", "ttm-tools explore: --tiles and --attribution go together\n", 2)
    message = "ttm-tools explore: --tiles begins with https:// or http://\n"
    assert town.ran(*words, "x", "--attribution", "y") == ("", message, 2)
