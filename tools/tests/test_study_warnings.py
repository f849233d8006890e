"""What `prepare --check` reports of a feed is among the warnings of a study's report."""

from pathlib import Path

import pytest

from test_study import NO_MAPS, STOPS, Place, place  # noqa: F401

OF_DAYS = ("runs from ", "runs on ")  # the report has what ttm says of the days


def with_oddities(room: Place, study: str) -> str:
    """A feed with one of each oddity that is no error."""
    path = room.lay_out(study)
    rows = [[stop, f"Stop {stop}", 50 + 0.004 * number, 7, ""] for number, stop in enumerate(STOPS)]
    rows += [["FAR", "Far away", -30, 100, ""], ["NONE", "No place", "", "", ""], ["SUM", "=SUM(A1)", 50, 7.001, ""]]
    room.write("published/stops.txt", "stop_id,stop_name,stop_lat,stop_lon,locaton_type", rows)
    trips = [["R", "M", "T"], ["Q", "M", "U"], ["R", "M", "ONE"], ["R", "M", "FAST"]]
    room.write("published/trips.txt", "route_id,service_id,trip_id", trips)
    times = (room.folder / "published/stop_times.txt").read_text().splitlines()
    more = ["ONE,09:00:00,09:00:00,S0,1", "FAST,09:00:00,09:00:00,S0,1", "FAST,10:00:00,10:00:00,FAR,2"]
    (room.folder / "published/stop_times.txt").write_text("\n".join([*times, *more]) + "\n")
    header = "from_stop_id,to_stop_id,transfer_type,min_transfer_time"
    room.write("published/transfers.txt", header, [["S0", "S1", 3, ""]])
    return path


@pytest.mark.parametrize("ready", [False, True])
def test_what_check_knows_is_in_the_warnings(place: Place, ready: bool) -> None:  # noqa: F811
    path = with_oddities(place, NO_MAPS)
    if ready:
        feed = place.path("ready")
        assert place.ran("prepare", "--repair", "--out", feed, place.path("published"))[2] == 0
        text = Path(path).read_text().replace('files = ["published"]', 'files = ["ready"]\nready = true')
        place.say(text)
    checked, _, _ = place.ran("prepare", "--check", place.path("ready" if ready else "published"))
    known = [line for line in checked.splitlines() if line.startswith(("stops.txt: ", "stop_times", "transfers"))]
    assert len(known) == 7, checked
    _, errors, status = place.ran("study", path)
    assert status == 0, errors
    report = (place.folder / "nine/report.md").read_text().replace("\\", "")
    (warnings,) = [line for line in report.splitlines() if line.startswith("Warnings: ")]
    assert [line for line in known if f"warning: {line}" not in warnings] == []
