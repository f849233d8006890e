"""Walks along streets: by hand on a block with a river, and on drawn networks compared with networkx."""

import csv
import math
import random
from pathlib import Path
from typing import Any

import numpy as np
import pytest

from helpers import METRE, Room
from streets import Way, write_osm
from ttm_tools.core.walking import Walking
from ttm_tools.streets.osm import directions_of, is_walked, read_streets
from ttm_tools.streets.router import Endpoints, Router
from ttm_tools.streets.straight import points_of

pytest.importorskip("osmium")
pytest.importorskip("scipy")

STREET = {"highway": "residential"}
# Two streets along a river, 400 metres long, and one bridge at their eastern ends; a motorway crosses in the west.
NODES = {1: (0.0, 0.0), 2: (0.0, 400.0), 3: (100.0, 0.0), 4: (100.0, 400.0)}
SOUTH, NORTH, BRIDGE, MOTORWAY = [1, 2], [3, 4], [2, 4], [1, 3]


def walked(room: Room, *arguments: str, limit: int = 1000, detour: float = 1.0) -> dict[tuple[str, str], int]:
    """The footpaths that the command writes, at a metre a second."""
    pace = ["--limit", str(limit), "--speed", "1", "--detour", str(detour)]
    _, errors, status = room.ran("walks", *pace, *arguments, str(room.folder))
    assert status == 0, errors
    with open(room.folder / "footpaths.csv", newline="") as file:
        return {(row["from_stop_id"], row["to_stop_id"]): int(row["seconds"]) for row in csv.DictReader(file)}


def river(room: Room, bridge: dict[str, str], *more: Way) -> str:
    ways: list[Way] = [(SOUTH, STREET), (NORTH, STREET), (BRIDGE, bridge), (MOTORWAY, {"highway": "motorway"}), *more]
    return write_osm(room.folder / "river.osm", NODES, ways)


def test_a_river_is_crossed_by_its_bridge_alone(room: Room) -> None:
    room.stops(("A", -9.5, 50), ("B", 110, 50), ("C", 0, 300.3))
    assert walked(room)["A", "B"] == 120
    found = walked(room, "--streets", river(room, {"highway": "footway", "bridge": "yes"}))
    # A to B: 9.5 to the street, 350 along it, 100 over the bridge, 350 back, 10 to B; C lies on the street.
    assert found["A", "B"] == found["B", "A"] == 820
    assert found["A", "C"] == 260
    assert found["C", "B"] == math.ceil(99.7 + 100 + 350 + 10)
    assert ("A", "B") not in walked(room, "--streets", room.path("river.osm"), limit=819)
    assert ("A", "B") in walked(room, "--streets", room.path("river.osm"), limit=820)


def test_one_ways_for_feet_count_and_others_do_not(room: Room) -> None:
    room.stops(("A", -9.5, 50), ("B", 110, 50))
    found = walked(room, "--streets", river(room, {"highway": "steps", "oneway:foot": "yes", "oneway": "-1"}))
    assert found == {("A", "B"): 820}
    assert walked(room, "--streets", river(room, {"highway": "steps", "oneway:foot": "-1"})) == {("B", "A"): 820}
    assert len(walked(room, "--streets", river(room, {"highway": "steps", "oneway": "yes"}))) == 2


@pytest.mark.parametrize(
    "tags", [{"highway": "service", "access": "private"}, {"highway": "path", "foot": "no"}, {"highway": "cycleway"}]
)
def test_a_bridge_that_may_not_be_walked_is_none(room: Room, tags: dict[str, str]) -> None:
    room.stops(("A", -9.5, 50), ("B", 110, 50))
    assert walked(room, "--streets", river(room, tags)) == {}


def test_a_street_that_two_ways_have_is_walked_as_on_any_of_them(room: Room) -> None:
    room.stops(("A", -9.5, 50), ("B", 110, 50))
    again: Way = ([4, 2], STREET | {"oneway:foot": "yes"})
    found = walked(room, "--streets", river(room, {"highway": "steps", "oneway:foot": "yes"}, again))
    assert found == {("A", "B"): 820, ("B", "A"): 820}


def test_two_stops_at_one_street_are_as_far_apart_as_along_it(room: Room) -> None:
    room.stops(("A", -9.5, 50), ("B", -20, 80), ("C", 5, 50), ("D", 5, 50))
    found = walked(room, "--streets", river(room, STREET))
    assert (found["A", "B"], found["A", "C"], found["C", "D"]) == (60, 15, 10)


def test_what_is_far_from_a_street_is_told_and_joined_by_a_straight_line(room: Room) -> None:
    room.stops(("A", -9.5, 50), ("D", -250, 200), ("E", -3000, 0), ("F", None, None))
    streets = river(room, STREET)
    assert walked(room, "--streets", streets, detour=2)["A", "D"] == math.ceil(9.5 + 150 + 2 * 250)
    _, errors, _ = room.ran("walks", "--speed", "1", "--streets", streets, str(room.folder))
    here = "1 stop without coordinates; 1 more than 100 metres from a street, joined to it by a straight line"
    assert errors == f"{room.path('footpaths.csv')}: 2 footpaths; {here}; 1 without a street in reach\n"
    assert walked(room, "--streets", streets, "--near", "250.5", detour=2)["A", "D"] == math.ceil(9.5 + 150 + 250)


def test_a_station_is_entered_by_its_entrances(room: Room) -> None:
    station = (("S", 50, 200, 1), ("P", -60, 200, 0, "S"), ("Q", -60, 212, 0, "S"), ("E", -20.5, 200, 2, "S"))
    room.stops(("A", -9.5, 50), *station)
    found = walked(room, "--streets", river(room, STREET))
    assert found["A", "P"] == found["P", "A"] == math.ceil(9.5 + 150 + 20.5 + 39.5)
    assert found["P", "Q"] == 12


def test_a_way_that_is_cut_off_at_the_edge_of_the_file_ends_there(room: Room) -> None:
    room.stops(("A", -9.5, 50), ("B", -9.5, 350))
    ways: list[Way] = [([1, 77, 2], STREET), ([3, 4], STREET)]
    streets = write_osm(room.folder / "cut.osm", NODES, ways)
    # node 77 isn't in the file, so that both stops are put on the northern street
    assert walked(room, "--streets", streets, "--near", "200")["A", "B"] == 109 + 300 + 110


def test_which_ways_may_be_walked() -> None:
    none = dict.fromkeys(("highway", "foot", "access", "motorroad", "sidewalk", "railway", "public_transport"), "")
    none |= dict.fromkeys(("man_made", "oneway:foot", "foot:forward", "foot:backward"), "")
    yes: list[dict[str, str]] = [
        {"highway": "steps"},
        {"highway": "footway", "access": "no", "foot": "yes"},
        {"highway": "cycleway", "foot": "designated"},
        {"highway": "trunk", "sidewalk": "both"},
        {"railway": "platform"},
        {"man_made": "pier"},
    ]
    no: list[dict[str, str]] = [
        {"highway": "motorway", "foot": "yes"},
        {"highway": "motorway_link"},
        {"highway": "residential", "foot": "no"},
        {"highway": "residential", "foot": "use_sidepath"},
        {"highway": "service", "access": "private"},
        {"highway": "trunk"},
        {"highway": "trunk", "sidewalk": "separate"},
        {"highway": "primary", "motorroad": "yes"},
        {"highway": "construction"},
        {"railway": "rail"},
        {},
    ]
    assert [is_walked({**none, **tags}) for tags in yes] == [True] * len(yes)
    assert [is_walked({**none, **tags}) for tags in no] == [False] * len(no)
    assert directions_of(none) == (True, True)
    assert directions_of({**none, "foot:backward": "no"}) == (True, False)


def test_what_is_no_file_of_streets_is_told(room: Room) -> None:
    room.stops(("A", 0, 0))
    arguments = ["walks", str(room.folder), "--streets"]
    room.refused(f"{room.path('no.osm')}: No such file or directory", *arguments, room.path("no.osm"))
    rails = write_osm(room.folder / "rails.osm", NODES, [(SOUTH, {"railway": "rail"})])
    room.refused(f"{rails}: no way that may be walked", *arguments, rails)
    Path(room.path("bad.osm")).write_text("stop_id\nA\n")
    before = room.names()
    _, errors, status = room.ran(*arguments, room.path("bad.osm"))
    assert status == 1 and errors.startswith(f"ttm-tools walks: {room.path('bad.osm')}: not read as OpenStreetMap: ")
    assert len(errors.splitlines()) == 1 and room.names() == before
    table = ["--table", "walks.csv", "--streets", "x.osm", str(room.folder)]
    assert room.ran("walks", *table)[2] == 2


# Beside networkx.


def nearest(place: tuple[float, float], one: tuple[float, float], other: tuple[float, float]) -> tuple[float, float]:
    """How far along a line the nearest point to a place lies, 0 to 1, and how far from it."""
    way = (other[0] - one[0], other[1] - one[1])
    along = ((place[0] - one[0]) * way[0] + (place[1] - one[1]) * way[1]) / (way[0] ** 2 + way[1] ** 2)
    along = min(1.0, max(0.0, along))
    return along, math.dist(place, (one[0] + along * way[0], one[1] + along * way[1]))


def network(nx: Any, nodes: dict[int, tuple[float, float]], ways: list[Way], places: dict[str, Any]) -> Any:
    """The streets with each place joined to the nearest one, place after place, by a second program."""
    lines = [(a, b, tags) for refs, tags in ways for a, b in zip(refs, refs[1:])]
    on: dict[int, list[tuple[float, Any]]] = {number: [] for number in range(len(lines))}
    graph = nx.DiGraph()
    for name, place in places.items():
        found = [(nearest(place, nodes[a], nodes[b]), number) for number, (a, b, _) in enumerate(lines)]
        (along, metres), number = min(found, key=lambda item: item[0][1])
        on[number].append((along, ("put", name)))
        join(graph, ("place", name), ("put", name), metres if metres <= 100 else 1.3 * metres)
        for end in (0, 1):
            if along == end:
                join(graph, lines[number][end], ("put", name), 0)
    for number, (a, b, tags) in enumerate(lines):
        chain: list[tuple[float, Any]] = [(0.0, a), *sorted(on[number]), (1.0, b)]
        for (low, one), (high, other) in zip(chain, chain[1:]):
            length = (high - low) * math.dist(nodes[a], nodes[b])
            join(graph, one, other, length, one_way=tags.get("oneway:foot") == "yes")
    return graph


def join(graph: Any, one: Any, other: Any, metres: float, one_way: bool = False) -> None:
    """Adds a connection in one direction or in both, unless there is one as short."""
    for begin, end in [(one, other)] if one_way else [(one, other), (other, one)]:
        if not graph.has_edge(begin, end) or graph[begin][end]["weight"] > metres:
            graph.add_edge(begin, end, weight=metres)


@pytest.mark.parametrize("seed", range(6))
def test_drawn_networks_have_the_walks_of_networkx(room: Room, seed: int) -> None:
    nx = pytest.importorskip("networkx")
    draw = random.Random(seed)
    nodes = {node: (draw.uniform(0, 1200), draw.uniform(0, 1200)) for node in range(1, 40)}
    ways: list[Way] = []
    there = set[frozenset[int]]()
    for _ in range(30):
        tags = STREET | ({"oneway:foot": "yes"} if draw.random() < 0.3 else {})
        refs = draw.sample(sorted(nodes), draw.randint(2, 4))
        pairs = {frozenset(ends) for ends in zip(refs, refs[1:])}
        ways += [(refs, tags)] if there.isdisjoint(pairs) else []
        there |= pairs
    places = {f"p{number}": (draw.uniform(-200, 1400), draw.uniform(-200, 1400)) for number in range(40)}
    room.stops(*((name, *place) for name, place in places.items()))
    limit = draw.choice([300, 900, 2000])
    found = walked(room, "--streets", write_osm(room.folder / "drawn.osm", nodes, ways), limit=limit, detour=1.3)
    graph = network(nx, nodes, ways, places)
    expected = {}
    for name in places:
        for node, metres in nx.single_source_dijkstra_path_length(graph, ("place", name)).items():
            if isinstance(node, tuple) and node[0] == "place":
                expected[name, node[1]] = metres
    within = {ends: metres for ends, metres in expected.items() if metres <= limit - 0.1 and ends[0] != ends[1]}
    assert within.keys() <= found.keys(), f"seed {seed}"
    for ends, seconds in found.items():
        assert seconds - 1.05 <= expected[ends] <= seconds + 0.05, (seed, ends)


def drawn_router(room: Room, draw: np.random.Generator, places: int) -> Router:
    """Places on a grid of streets of 100 metres, some of them one-way for pedestrians."""
    nodes = {100 * row + column: (100.0 * row, 100.0 * column) for row in range(8) for column in range(8)}
    ways = list[Way]()
    for node in nodes:
        for other in (node + 1, node + 100):
            if other in nodes and draw.random() < 0.8:
                ways.append(([node, other], STREET | ({"oneway:foot": "yes"} if draw.random() < 0.4 else {})))
    streets = read_streets(write_osm(room.folder / "drawn.osm", nodes, ways))
    north, east = draw.uniform(0, 700, (2, places)) * METRE
    return Router(streets, points_of(north, 1 + east), Walking(4.68, 1.2, 500), 20)


@pytest.mark.parametrize("seed", range(4))
def test_the_methods_of_a_router_agree(room: Room, seed: int) -> None:
    draw = np.random.default_rng(seed)
    router, origins = drawn_router(room, draw, 30), int(draw.choice([5, 25]))  # with 25, searches begin at the ends
    seconds = router.seconds(origins)
    assert np.isfinite(seconds).any() and np.isnan(seconds).any()
    is_origin = np.arange(30) < origins
    metres = np.full((30, 30), np.inf)
    for begins, ends, lengths in router.walks(Endpoints(is_origin, ~is_origin)):
        metres[begins, ends] = lengths
    for origin in range(origins):
        left = np.full(30, -1.0)
        left[origin] = router.limit
        after = router.within(left)[router.first :] - router.approaches
        for end in range(origins, 30):
            line, length = router.path(origin, end)
            if np.isnan(seconds[origin, end - origins]):
                assert not length <= router.limit and after[end] < 0
                continue
            assert seconds[origin, end - origins] == router.walking.seconds(np.array(length))
            assert metres[origin, end] == pytest.approx(length) == pytest.approx(router.limit - after[end])
            steps = np.linalg.norm(np.diff(line, axis=0), axis=1)
            on_street = steps[1:-1].sum() + router.approaches[[origin, end]].sum()
            assert on_street == pytest.approx(length, abs=1e-3)


def test_scipy_searches_in_one_place() -> None:
    sources = Path(__file__).resolve().parents[1] / "src"
    assert [path.name for path in sources.rglob("*.py") if "dijkstra(" in path.read_text()] == ["router.py"]
