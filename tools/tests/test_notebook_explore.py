"""`Network.explore`: the page that this process serves, of stops, of places, and of scenarios; and its end."""

import json
import urllib.error
import urllib.request
import warnings
from collections.abc import Iterator
from pathlib import Path
from typing import Any

import numpy as np
import pytest

from exploring import canned, village

for package in ("geopandas", "flask", "jinja2"):
    pytest.importorskip(package)
import geopandas  # noqa: E402
from shapely.geometry import Point  # noqa: E402

from ttm_tools.api.network import Network  # noqa: E402
from ttm_tools.api.opening import open_network  # noqa: E402
from ttm_tools.api.pages import ServedPage  # noqa: E402
from ttm_tools.api.scenario import Scenario  # noqa: E402
from ttm_tools.core.errors import ArgumentError  # noqa: E402
from ttm_tools.core.notes import TtmWarning  # noqa: E402
from ttm_tools.core.question import Question  # noqa: E402
from ttm_tools.core.settings import settings  # noqa: E402

QUESTION = Question("2026-05-04", "08:00", "08:09", max_walk="5 min", walking_kmh=3.6, detour=1.0)


@pytest.fixture
def network(tmp_path: Path, monkeypatch: pytest.MonkeyPatch) -> Iterator[Network]:
    """The village, with a program that says that the stop with the number n is n times 300 seconds away."""
    monkeypatch.setenv("TTM_CACHE", str(tmp_path / "cache"))
    monkeypatch.setattr(settings, "engine", Path(canned(tmp_path)))
    monkeypatch.chdir(tmp_path)
    with open_network(village(tmp_path)) as found:
        yield found


def places(**columns: Any) -> Any:
    """A home 99.5 metres north of A, and one at C."""
    points = [Point(8.0, 47.0 + 99.5 / 111_195), Point(8.04, 47.0)]
    return geopandas.GeoDataFrame({"id": ["A", "home"], **columns}, geometry=points, crs=4326).to_crs(2056)


def fetched(page: ServedPage, path: str = "") -> bytes:
    with urllib.request.urlopen(page.address + path, timeout=60) as answer:
        found: bytes = answer.read()
    return found


def head_of(page: ServedPage) -> Any:
    text = fetched(page).decode()
    begin = text.index('{"title"')
    return json.JSONDecoder().raw_decode(text[begin:])[0]


def test_a_page_is_served_until_it_is_closed(network: Network) -> None:
    page = network.explore(QUESTION, open_browser=False)
    head = head_of(page)
    assert (head["title"], sorted(head["identifiers"])) == ("Explore: village", ["A", "B", "C", "D"])
    assert (head["walk"], head["pace"], head["shares"]) == (600, 1.0, [10, 25, 50, 75, 90])
    seconds = np.frombuffer(
        fetched(page, "times?version=1&tab=t&turn=1&origin=0&first=08:00&last=08:09&trips=4"), "<i4"
    )
    assert len(seconds) == 5 * 4
    assert page.address in page._repr_html_() and page.is_open
    page.close()
    page.close()
    assert not page.is_open and page.address not in page._repr_html_()
    with pytest.raises(urllib.error.URLError):
        fetched(page)


def test_places_are_stops_of_the_page_with_their_walks_and_numbers(network: Network, tmp_path: Path) -> None:
    with network.explore(QUESTION, places(people=[2.5, 4.0]), open_browser=False) as page:
        head = head_of(page)
        assert sorted(head["identifiers"]) == ["A", "B", "C", "D", "places:A", "places:home"]
        assert head["counts"] == ["people"]
        body = {"version": "1", "tab": "t", "first": "08:00", "last": "08:09", "trips": 2, "origin": -1}
        own = {"Content-Type": "application/json", "Origin": "/".join(page.address.split("/")[:3])}
        asked = urllib.request.Request(page.address + "study", json.dumps(body).encode(), own)
        with urllib.request.urlopen(asked, timeout=60) as answer:
            study = Path(json.loads(answer.read())["path"])
    folder = tmp_path / study.parent  # it has all that went with the page
    assert sorted(path.name for path in folder.iterdir()) == ["counts.csv", "feed", "footpaths.csv", "study.toml"]
    assert (folder / "counts.csv").read_text().split() == ["stop_id,people", "places:A,2.5", "places:home,4.0"]
    # at a metre a second, rounded up
    assert "places:A,A,100" in (folder / "footpaths.csv").read_text()
    text = (folder / "study.toml").read_text()
    assert 'files = ["counts.csv"]' in text and 'files = ["feed"]' in text


def test_a_planned_network_shows_its_scenarios(network: Network) -> None:
    planned = network.with_scenarios(Scenario("no Q").remove_routes("Q"))
    with planned.explore(QUESTION.replace(percentiles=(50, 80)), open_browser=False) as page:
        head = head_of(page)
        assert head["scenarios"] == ["today", "no Q"] and head["shares"] == [50, 80]


def test_columns_that_no_page_can_sum_are_left_out_with_a_warning(network: Network) -> None:
    with warnings.catch_warnings(record=True) as caught:
        warnings.simplefilter("always")
        frame = places(people=[1, 2], change=[-1.0, 2.0], income=[np.nan, 3.0], kind=["a", "b"])
        with network.explore(QUESTION, frame, open_browser=False) as page:
            assert head_of(page)["counts"] == ["people"]
    texts = [str(one.message) for one in caught if one.category is TtmWarning]
    assert [text.split(" is ")[0] for text in texts] == ["places: the column change", "places: the column income"]
    assert {one.filename for one in caught if one.category is TtmWarning} == {__file__}


def test_what_the_page_has_no_control_for_is_refused(network: Network) -> None:
    with pytest.raises(ArgumentError, match="max_rides is 0; explore shows journeys of 1 to 8 rides"):
        network.explore(QUESTION.replace(max_rides=0), open_browser=False)
    with pytest.raises(ArgumentError, match="max_travel is not for explore"):
        network.explore(QUESTION.replace(max_travel="1 h"), open_browser=False)
    with pytest.raises(ArgumentError, match="question is '08:00'; allowed: a Question"):
        network.explore("08:00", open_browser=False)  # type: ignore[arg-type]
