"""Changes of the lines of the map, compared with the lines of the feed that is written for them."""

import csv
import json
import random
from pathlib import Path
from typing import Sequence
from urllib.request import urlopen

import numpy as np
import numpy.typing as npt
import pytest

from drawn_plans import DrawnPlan
from exploring import canned, explored, village
from helpers import LONGEST_WAIT

from ttm_tools.core.toml_file import Entry, LineNumbers
from ttm_tools.gtfs.stops import read_stops
from ttm_tools.plans.base import Base, read_taken_base
from ttm_tools.plans.plan_text import scenario_text
from ttm_tools.web.lines import FeedLines
from ttm_tools.web.page.lines import page_lines
from ttm_tools.web.planning import written

pytest.importorskip("pandas")
KINDS = ("taken", "changed", "added")


def with_shapes(folder: Path, base: Base, seed: int) -> None:
    """Gives most trips with calls one of three shapes, one of which shapes.txt hasn't."""
    draw, called = random.Random(seed), {trip for trip, length in zip(base.trips, base.lengths.tolist()) if length}
    with open(folder / "trips.txt", newline="", encoding="utf-8") as file:
        header, *trips = csv.reader(file)
    own = header.index("trip_id")
    shaped = [[*trip, draw.choice("abc") if trip[own] in called and draw.random() < 0.8 else ""] for trip in trips]
    write(folder / "trips.txt", [[*header, "shape_id"], *shaped])
    places = [["a", 50.0, 8.0], ["a", 50.001, 8.004], ["a", 50.004, 8.002], ["b", 50.001, 8.004], ["b", 50.004, 8.002]]
    points = [[*place, number] for number, place in enumerate(places)]
    draw.shuffle(points)
    write(folder / "shapes.txt", [["shape_id", "shape_pt_lat", "shape_pt_lon", "shape_pt_sequence"], *points])


def write(path: Path, rows: Sequence[Sequence[object]]) -> None:
    with open(path, "w", newline="", encoding="utf-8") as file:
        csv.writer(file, lineterminator="\n").writerows(rows)


def rows_of(pieces: npt.NDArray[np.int32]) -> list[tuple[int, ...]]:
    return sorted(map(tuple, pieces.tolist()))


@pytest.mark.parametrize("shaped", [False, True])
@pytest.mark.parametrize("seed", range(15))
def test_lines_are_those_of_the_feed_that_is_written(tmp_path: Path, seed: int, shaped: bool) -> None:
    drawn = DrawnPlan(seed, tmp_path / "feed")
    if not drawn.scenarios:
        pytest.skip("the plan that is drawn changes nothing")
    if shaped:
        with_shapes(drawn.folder, drawn.base, seed)
    base = read_taken_base(str(drawn.folder), [Entry("plan", stop, LineNumbers(1)) for stop in drawn.stops])
    text = "\n".join(scenario_text(name, actions) for name, actions in drawn.scenarios)
    first = written(base, FeedLines(str(drawn.folder), read_stops(str(drawn.folder))), text, tmp_path, 600, [])
    stops = read_stops(first.folder)  # whose middle new stops may have moved
    plan = written(base, FeedLines(str(drawn.folder), stops), text, tmp_path, 600, [])
    files = {Path(path).name.removesuffix(".csv"): path for path in plan.files}
    expected = page_lines(plan.folder, stops, plan.scenarios, files).changes
    assert [[rows_of(getattr(change, kind)) for kind in KINDS] for change in plan.changes] == [
        [rows_of(getattr(change, kind)) for kind in KINDS] for change in expected
    ]
    own, whole = FeedLines(str(drawn.folder), stops), page_lines(str(drawn.folder), stops, ["base"], {})
    straight = own.from_stop_to_stop(base)
    assert (straight is None) == shaped
    running = rows_of(own.whole.running if straight is None else straight)
    if shaped or len(base.row) == base.records:
        assert running == rows_of(whole.running)
    else:  # trips that are set aside don't run
        assert set(running) <= set(rows_of(whole.running))


def test_routes_are_told_beside_a_stop_of_the_plan_that_no_scenario_uses(tmp_path: Path) -> None:
    pytest.importorskip("flask")
    stop = '[[stop]]\nid = "X"\nlat = 47.01\nlon = 8.01\n'
    (tmp_path / "plan.toml").write_text(
        stop + '[[scenario]]\nname = "less"\n[[scenario.action]]\ndo = "remove_route"\nroute = "Q"\n'
    )
    with explored(village(tmp_path), canned(tmp_path), "--plan", str(tmp_path / "plan.toml")) as served:
        with urlopen(served.address + "routes", timeout=LONGEST_WAIT) as answer:
            printed = json.load(answer)
    assert [item["id"] for item in printed["routes"]] == ["R", "Q"]
    assert len(printed["running"]) == 3 * 4  # from A to B, to C, to D
