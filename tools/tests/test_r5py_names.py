"""The names of r5py, argument by argument, from memory of version 1.0 (`breakdown` is of 0.1), not compared with it."""

import datetime
import inspect
from typing import Any

import pytest

for package in ("geopandas", "osmium", "scipy", "pyproj"):
    pytest.importorskip(package)

from ttm_tools import r5py  # noqa: E402

NEEDED, NOW = "needed", "now"  # instead of a default
HOURS, MINUTES = datetime.timedelta(hours=2), datetime.timedelta(minutes=10)
ENDS = {"transport_network": NEEDED, "origins": None, "destinations": None, "snap_to_network": False}
SIGNATURES: dict[str, dict[str, Any]] = {
    "TransportNetwork": {
        "osm_pbf": NEEDED,
        "gtfs": [],
        "elevation_model": None,
        "elevation_cost_function": r5py.ElevationCostFunction.TOBLER,
        "allow_errors": False,
    },
    "TransportNetwork.from_directory": {"path": NEEDED},
    "TransportNetwork.snap_to_network": {
        "self": NEEDED,
        "points": NEEDED,
        "radius": 1600,
        "street_mode": r5py.TransportMode.WALK,
    },
    "TravelTimeMatrix": {**ENDS, "kwargs": NEEDED},
    "TravelTimeMatrixComputer": {**ENDS, "kwargs": NEEDED},
    "TravelTimeMatrixComputer.compute_travel_times": {"self": NEEDED},
    "DetailedItineraries": {**ENDS, "force_all_to_all": False, "kwargs": NEEDED},
    "DetailedItinerariesComputer": {**ENDS, "force_all_to_all": False, "kwargs": NEEDED},
    "DetailedItinerariesComputer.compute_travel_details": {"self": NEEDED},
    "Isochrones": {
        "transport_network": NEEDED,
        "origins": NEEDED,
        "isochrones": [datetime.timedelta(minutes=minutes) for minutes in (0, 15, 30, 45, 60)],
        "point_grid_resolution": 100,
        "point_grid_sample_ratio": 1.0,
        "kwargs": NEEDED,
    },
    "RegionalTask": {
        "transport_network": NEEDED,
        "origin": None,
        "destinations": None,
        "departure": NOW,
        "departure_time_window": MINUTES,
        "percentiles": [50],
        "transport_modes": [r5py.TransportMode.TRANSIT],
        "access_modes": [r5py.TransportMode.WALK],
        "egress_modes": None,
        "max_time": HOURS,
        "max_time_walking": HOURS,
        "max_time_cycling": HOURS,
        "max_time_driving": HOURS,
        "speed_cycling": 12.0,
        "speed_walking": 3.6,
        "max_public_transport_rides": 8,
        "max_bicycle_traffic_stress": 3,
        "breakdown": False,
    },
}
MODES = "AIR TRAM SUBWAY RAIL BUS FERRY CABLE_CAR GONDOLA FUNICULAR TRANSIT WALK BICYCLE CAR BICYCLE_RENT CAR_PARK"


def plain(value: Any) -> Any:
    """A default as a list or a plain value."""
    if value is inspect.Parameter.empty:
        return NEEDED
    is_several = hasattr(value, "__iter__") and not isinstance(value, (str, type))
    return list(value) if is_several else value


@pytest.mark.parametrize("name", SIGNATURES)
def test_arguments_have_their_names_order_and_defaults(name: str) -> None:
    owner: Any = r5py
    for part in name.split("."):
        owner = getattr(owner, part)
    found = inspect.signature(owner).parameters
    own = {
        item: plain(value.default) for item, value in found.items() if value.kind is not inspect.Parameter.KEYWORD_ONLY
    }
    expected = dict(SIGNATURES[name])
    if inspect.isclass(owner) or name.endswith("from_directory"):
        expected.pop("self", None)
    if expected.get("departure") == NOW:  # r5py takes the time of its import
        assert own.pop("departure") is None and expected.pop("departure")
        assert list(found)[3] == "departure"
        window = datetime.timedelta(minutes=1)
        before = datetime.datetime.now() - window
        result = r5py.RegionalTask(None, departure_time_window=window).times.at(0)
        assert before <= result <= datetime.datetime.now()
    assert list(own.items()) == list(expected.items())


def test_what_it_has_beside_is_said_by_name_alone() -> None:
    found = inspect.signature(r5py.TransportNetwork).parameters.values()
    beside = {item.name: item.default for item in found if item.kind is inspect.Parameter.KEYWORD_ONLY}
    assert beside == {"repair": True, "program": None}


def test_modes_have_their_names() -> None:
    assert [mode.name for mode in r5py.TransportMode] == MODES.split()
    assert all(mode.value == mode.name for mode in r5py.TransportMode)


@pytest.mark.parametrize(
    "route_type, mode",
    [(0, "TRAM"), (1, "SUBWAY"), (2, "RAIL"), (3, "BUS"), (4, "FERRY"), (7, "FUNICULAR"), (11, "BUS"), (12, "RAIL")]
    + [(100, "RAIL"), (199, "RAIL"), (200, "BUS"), (401, "RAIL"), (500, "SUBWAY"), (700, "BUS"), (900, "TRAM")]
    + [(1000, "FERRY"), (1100, "AIR"), (1300, "GONDOLA"), (1400, "FUNICULAR"), (1700, None), (8, None), (-1, None)],
)
def test_a_route_type_is_of_a_mode(route_type: int, mode: str | None) -> None:
    from ttm_tools.compat.r5py.modes import mode_of

    assert mode_of(route_type) == (None if mode is None else r5py.TransportMode(mode))


def test_all_public_names_are_there() -> None:
    assert set(r5py.__all__) >= {item.partition(".")[0] for item in SIGNATURES} | {"TransportMode", "NotAvailable"}
