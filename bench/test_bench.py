"""Tests of the benchmark: feeds, figures, and the pages that are written from them."""

from dataclasses import replace
from pathlib import Path

import pytest

import feeds
import growth
import result_pages as pages
import run
import shared
from goals import CELLS, MANY_CELLS, Goal
from parts.search import in_turns, milliseconds
from record import Recorder, Row, read_results
from setting import Setting, figures_in
from summaries import Results, Summary, ratio, shown, summary_of

ROW = Row(
    "2026-05-04T08:00:00Z", "0a1b2c3d", "kit", "CPU", 4, 16, 0.5, "search", "city", "ttm", "120 minutes", 1, 5, "ms"
)


def setting_in(folder: Path, turns: int = 1) -> Setting:
    """A setting whose programs are never asked for."""
    recorder = Recorder(folder / "results.csv")
    return Setting(feeds.Feeds(folder / "feeds"), recorder, folder / "ttm", folder / "measure", turns, False, folder)


def printing(*lines: str) -> list[str]:
    """A command that prints these lines, whatever its further arguments are."""
    return ["printf", "%b", "\\n".join(lines) + "\\n%.0s"]


# Figures.


def test_programs_take_turns_and_each_mean_is_recorded(tmp_path: Path) -> None:
    times = ["ttm, origin 1, us: 1500", "ttm, origin 2, us: 2500", "ttm, checksum: 7"]
    programs = [
        ("range RAPTOR", printing("range, origin 1, us: 8000", "range, checksum: 7")),
        ("ttm", printing(*times)),
    ]
    in_turns(setting_in(tmp_path, turns=2), "search", "city", "120 minutes", programs, [])
    rows = read_results(tmp_path / "results.csv")
    found = [(row.program, row.turn, row.figure) for row in rows]
    assert found == [(name, turn, figure) for turn in (1, 2) for name, figure in (("range RAPTOR", 8.0), ("ttm", 2.0))]
    assert {(row.part, row.feed, row.measure, row.unit) for row in rows} == {("search", "city", "120 minutes", "ms")}


def test_a_changed_checksum_fails(tmp_path: Path) -> None:
    programs = [(name, printing(f"x, origin 1, us: 1\\nx, checksum: {total}")) for name, total in (("a", 7), ("b", 8))]
    with pytest.raises(SystemExit, match="the durations differ.*'a': 7.*b now 8|the durations differ.*'b': 8"):
        in_turns(setting_in(tmp_path), "search", "city", "120 minutes", programs, [])


def test_a_checksum_that_changes_from_turn_to_turn_fails(tmp_path: Path) -> None:
    counter = tmp_path / "counter"
    script = f'echo >> {counter}; echo "x, origin 1, us: 1"; echo "x, checksum: $(wc -l < {counter})"'
    with pytest.raises(SystemExit, match="the durations differ"):
        in_turns(setting_in(tmp_path, turns=2), "search", "city", "1 minutes", [("a", ["sh", "-c", script])], [])


def test_figures_are_read_by_their_words() -> None:
    figures = figures_in("read_feed, ms: 12\nno figure: x\nx, origin 1, us: 3000\nx, origin 2, us: 1000\n")
    assert figures == {"read_feed, ms": 12, "x, origin 1, us": 3000, "x, origin 2, us": 1000}
    assert milliseconds(figures) == 2.0


def test_a_row_is_read_as_it_was_recorded(tmp_path: Path) -> None:
    recorder = Recorder(tmp_path / "results.csv")
    recorder.add("jobs", "city, every third trip", "ttm", "1 origins", 1234.567, "s", turn=3)
    recorder.add("search", "city", "ttm", "120 minutes", 0.123456, "ms")
    first, second = read_results(tmp_path / "results.csv")
    assert (first.feed, first.turn, first.figure, second.figure) == ("city, every third trip", 3, 1235, 0.1235)
    assert (tmp_path / "results.csv").read_text().startswith("date,commit,toolchain,processor,cores,memory_gb,load,")
    assert first.cores >= 1 and first.commit and first.build == second.build


def test_only_the_last_build_of_a_part_is_shown() -> None:
    older = [replace(ROW, commit="old", figure=9), replace(ROW, part="jobs", commit="old", measure="a job")]
    results = Results([*older, ROW, replace(ROW, turn=2, figure=7)])
    assert results.summary("search", "city", "ttm", "120 minutes") == Summary(6, 5, 7, 2)
    assert results.median("jobs", "city", "ttm", "a job") == 5
    assert results.summary("search", "town", "ttm", "120 minutes") is None


def test_ratios_are_of_the_same_turns() -> None:
    assert ratio({("d", 1): 6, ("d", 2): 8, ("d", 3): 1}, {("d", 1): 2, ("d", 2): 4}) == Summary(2.5, 2, 3, 2)
    assert ratio({("d", 1): 6}, {}) is None


def test_figures_have_three_digits_and_a_range_where_they_vary() -> None:
    assert " ".join(map(shown, (0.2812, 5.234, 51.26, 826.4, 12345.6, 0))) == "0.281 5.23 51.3 826 12,346 0"
    assert str(summary_of([3, 1, 2])) == "2.00 (1.00 to 3.00)"
    assert str(summary_of([5.001, 5.002])) == "5.00"


def test_a_goal_is_met_at_its_bound() -> None:
    def measured(results: Results) -> Summary | None:
        return summary_of([1.8])

    found = Summary(1.8, 1.0, 2.0, 3)
    assert Goal("x", measured, 1.8, at_least=True).is_met(found) and not Goal("x", measured, 1.81, True).is_met(found)
    assert Goal("x", measured, 1.8).is_met(found) and not Goal("x", measured, 1.79).is_met(found)


# The pages.


def rows_of(part: str, feed: str, program: str, measure: str, *figures: float) -> list[Row]:
    """Figures of turns 1, 2, .."""
    row = replace(ROW, part=part, feed=feed, program=program, measure=measure)
    return [replace(row, turn=turn, figure=figure) for turn, figure in enumerate(figures, 1)]


def measured_rows() -> list[Row]:
    """A search in four networks: `ttm` takes 5 ms, range RAPTOR 15 to 20 ms, textbook RAPTOR 100 ms."""
    rows = rows_of("windows", "region", "ttm", "1 minutes", 1) + rows_of(
        "windows", "region", "range RAPTOR", "1 minutes", 0.8
    )
    for feed in pages.OF_README:
        rows += rows_of("search", feed, "feed", "stops", 4936) + rows_of("search", feed, "feed", "stop times", 993_164)
        rows += rows_of("search", feed, "ttm", "120 minutes", 5, 5, 5)
        rows += rows_of("search", feed, "range RAPTOR", "120 minutes", 15, 20, 18)
        rows += rows_of("search", feed, "textbook RAPTOR", "120 minutes", 100, 100, 100)
    return rows


README = f"# x\n\n{pages.BEGIN}\nold\n{pages.END}\n\nrest\n"


def test_results_and_readme_are_those_of_the_recorded_figures() -> None:
    results = Results(read_results())
    readme = pages.README.read_text()
    assert pages.PAGE.read_text() == pages.page_of(results), "run bench/run.py --tables"
    assert readme == pages.with_speed(readme, results), "run bench/run.py --tables"
    assert growth.description(results) in growth.PICTURE.read_text(), "run bench/run.py --tables"


def test_readme_gets_the_medians_and_the_least_and_greatest_ratios() -> None:
    readme = pages.with_speed(README, Results(measured_rows()))
    assert "| city | 4,936 | 993,164 | 5.00 | 3.60 | 3.00 to 4.00 |\n" in readme
    assert "takes 20.0 times as long as `ttm`. For a single minute range RAPTOR is faster: `ttm` is 0.800" in readme
    assert readme.startswith("# x\n") and readme.endswith("\n\nrest\n") and "old" not in readme
    assert pages.with_speed(readme, Results(measured_rows())) == readme
    with pytest.raises(ValueError, match="exactly one part"):
        pages.with_speed("# x\n", Results(measured_rows()))


def test_results_name_the_build_and_the_goals_that_were_missed() -> None:
    page = pages.page_of(Results(measured_rows()))
    assert "All figures: commit 0a1b2c3d, toolchain `kit`, 2026-05-04, on 4 processors (CPU), 16 GB of memory" in page
    assert "| city | 4,936 | 993,164 | 5.00 | 18.0 (15.0 to 20.0) | 3.60 (3.00 to 4.00) | 100 | 20.0 |\n" in page
    assert "Of 7 goals that were measured, the medians miss 1.\n" in page
    assert "| region: times as fast as range RAPTOR for 1 minute: at least 1 | 0.800 |" in page


def measured_cells(feed: str, search: float, one: float, many: float) -> list[Row]:
    """The rows of a feed: the search, and cells and access of one percentile and of eight."""
    figures = {"search": search, CELLS: one, MANY_CELLS: many, "text": 0.1}
    return [row for what, figure in figures.items() for row in rows_of("rows", feed, "ttm", f"{what}, one day", figure)]


def test_cells_are_compared_with_the_search_in_each_network() -> None:
    page = pages.page_of(Results([*measured_cells("city", 10, 0.5, 2.5), *measured_cells("region", 2, 0.5, 0.5)]))
    assert "| Network | One and one | Eight and three |\n|---|---:|---:|\n| city | 0.0500 | 0.250 |\n" in page
    assert "| region | 0.250 | 0.250 |\n" in page
    assert "| region: cells and access, over the search: at most 0.08 | 0.250 |" in page
    assert "| city: cells and access of eight percentiles, over the search: at most 0.22 | 0.250 |" in page
    assert "| city: cells and access, over the search" not in page


def test_a_build_that_was_asked_for_one_percentile_has_no_table_of_eight() -> None:
    rows = [row for row in measured_cells("city", 10, 0.5, 2.5) if MANY_CELLS not in row.measure]
    page = pages.page_of(Results(rows))
    assert "| city | one | 10.0 | 0.500 | 0.100 | 0.0600 |\n" in page and "Eight and three" not in page


def test_what_was_not_measured_is_left_out() -> None:
    page = pages.page_of(Results([]))
    assert "not measured yet" in page and "How long does a search take" not in page
    assert pages.with_speed(README, Results([])) == README


def test_the_picture_says_what_it_shows(tmp_path: Path) -> None:
    pytest.importorskip("matplotlib")
    growth.draw_growth(Results(measured_rows()), tmp_path / "growth.svg")
    assert "ttm by stops: 4,936: 5.00 ms, 4,936: 5.00 ms" in (tmp_path / "growth.svg").read_text()


def test_unknown_parts_are_refused(capsys: pytest.CaptureFixture[str]) -> None:
    with pytest.raises(SystemExit, match="no such part: serach; the parts are search, "):
        run.main(["serach"])


# Feeds.


def write_stops(folder: Path, name: str, *stops: str) -> None:
    shared.write_lines(str(folder), name, "stop_id,location_type", stops)


def test_feeds_are_generated_once(tmp_path: Path) -> None:
    made = feeds.Feeds(tmp_path)
    folder = made.folder("town, every third trip")
    assert folder.name == "town_every_third_trip" and (tmp_path / "town" / "stop_times.txt").is_file()
    assert made.counts("town") == {"stops": 482, "stop times": 61617}
    assert made.counts("town, every third trip")["stop times"] < 61617 / 2.9
    before = folder.stat().st_mtime_ns
    assert made.folder("town, every third trip").stat().st_mtime_ns == before
    assert sorted(path.name for path in tmp_path.iterdir()) == ["town", "town_every_third_trip"]


def test_origins_are_the_folders_own_or_its_first_stops(tmp_path: Path) -> None:
    write_stops(tmp_path, "stops.txt", "G,1", "A,0", "B,", "C,0")
    assert shared.first_origins(str(tmp_path), 2) == ["A", "B"]
    write_stops(tmp_path, "origins.csv", "C,")
    assert shared.first_origins(str(tmp_path), 1) == ["C"] and shared.first_origins(str(tmp_path), 2) == ["A", "B"]


def test_every_third_trip_keeps_its_stop_times(tmp_path: Path) -> None:
    feed = tmp_path / "feed"
    feed.mkdir()
    shared.write_lines(str(feed), "trips.txt", "route_id,service_id,trip_id", [f"R,S,T{number}" for number in range(5)])
    times = [f"T{trip},08:00:00" for trip in range(5) for _ in range(2)]
    shared.write_lines(str(feed), "stop_times.txt", "trip_id,arrival_time", times)
    folder = tmp_path / "thirds"
    feeds.every_third_trip(feed, folder)
    assert (folder / "trips.txt").read_text().splitlines()[1:] == ["R,S,T0", "R,S,T3"]
    assert [line[:2] for line in (folder / "stop_times.txt").read_text().splitlines()[1:]] == ["T0", "T0", "T3", "T3"]


def test_a_drawn_order_has_the_same_stops(tmp_path: Path) -> None:
    feed = tmp_path / "feed"
    feed.mkdir()
    write_stops(feed, "stops.txt", *(f"S{number},0" for number in range(20)))
    for name in ("one", "two"):
        feeds.with_drawn_order(feed, tmp_path / name)
    header, *stops = (tmp_path / "one" / "stops.txt").read_text().splitlines()
    assert header == "stop_id,location_type"
    assert (tmp_path / "one" / "stops.txt").read_bytes() == (tmp_path / "two" / "stops.txt").read_bytes()
    assert sorted(stops) == sorted(f"S{number},0" for number in range(20)) and stops[:3] != ["S0,0", "S1,0", "S2,0"]


def test_the_words_of_a_study_name_footpaths_that_are_there(tmp_path: Path) -> None:
    folder = str(tmp_path)
    arguments = shared.Study(minutes=61, shares=(50, 90)).arguments(folder, "origins.csv", 2)
    assert arguments[arguments.index("--to") + 1] == "08:00" and arguments[arguments.index("--share") + 1] == "50,90"
    assert "--footpaths" not in arguments
    write_stops(tmp_path, "footpaths.csv")
    assert shared.Study().arguments(folder, "origins.csv", 2)[-2:] == ["--footpaths", folder + "/footpaths.csv"]
