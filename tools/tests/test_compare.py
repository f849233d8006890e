"""Losers and winners: by hand, and compared with plain loops on drawn matrices."""

import random

import pytest

from helpers import TOWN, Cell, Town, read, town_matrix

HEAD = "origin,destination,what,before,after,change\n"
BY_ORIGIN = "origin,access_before,access_after,change,percent,cut_off,slower,new,faster\n"
ORDER = ["cut off", "slower", "new", "faster"]


def compared(town: Town, *arguments: str) -> str:
    out, _, status = town.ran("compare", *arguments, town.file)
    assert status == 0
    return out


@pytest.mark.parametrize("second_form", [False, True])
def test_losers_come_first_and_what_has_no_difference_is_told(town: Town, second_form: bool) -> None:
    town.matrix(town_matrix(second_form))
    expected = HEAD + "A,D,cut off,2400,,\nA,C,slower,900,1900,1000\nD,B,new,,1700,\nD,A,faster,1500,1400,-100\n"
    message = "cut compared with base: of 8 pairs 1 cut off, 1 slower, 1 new, 1 faster (by more than 60 seconds)\n"
    assert town.ran("compare", town.file) == (expected, message, 0)


def test_the_limit_is_in_seconds_and_counts_for_neither_cut_off_nor_new(town: Town) -> None:
    town.matrix(town_matrix(True))
    for limit, kinds in (
        (0, ["cut off", "slower", "slower", "new", "faster"]),
        (59, ["cut off", "slower", "slower", "new", "faster"]),
        (60, ["cut off", "slower", "new", "faster"]),
        (100, ["cut off", "slower", "new"]),
        (1000, ["cut off", "new"]),
    ):
        assert [row["what"] for row in read(compared(town, "--limit", str(limit)))] == kinds


@pytest.mark.parametrize("second_form", [False, True])
def test_by_origin_the_greatest_loss_of_access_comes_first(town: Town, second_form: bool) -> None:
    town.matrix(town_matrix(second_form))
    out, errors, _ = town.ran("compare", "--by", "origin", town.file)
    assert out == BY_ORIGIN + "A,3,2,-1,-33.3,1,1,0,0\nD,3,4,1,33.3,0,0,1,1\n"
    of = "access within 30 minutes, percentile 50" if second_form else "access"  # the first form states neither
    assert errors.splitlines()[1] == f"{of}: of 2 origins 1 loses, 1 gains; in all +0"


def test_winners_come_by_the_size_of_their_gain_too(town: Town) -> None:
    far, near = 5000, 60
    base = {name: [near if place < count else far for place in range(4)] for name, count in zip("ABCD", (2, 1, 3, 4))}
    cut = {name: [near if place < count else far for place in range(4)] for name, count in zip("ABCD", (3, 4, 2, 0))}
    town.matrix(town_matrix(True, {"base": base, "cut": cut}))
    rows = read(compared(town, "--by", "origin"))
    assert [(row["origin"], row["change"]) for row in rows] == [("D", "-4"), ("C", "-1"), ("B", "3"), ("A", "1")]


def test_a_share_and_a_limit_are_chosen(town: Town) -> None:
    town.matrix(town_matrix(True, shares=(25, 50), limits=(900, 1800)))
    town.refused(f"{town.file}: it has rows for the percentiles 25, 50: choose one with --share", "compare", town.file)
    message = f"{town.file}: it has access within 900, 1800 seconds: choose one with --within"
    town.refused(message, "compare", "--by", "origin", "--share", "25", town.file)
    rows = read(compared(town, "--by", "origin", "--share", "50", "--within", "900"))
    access = [(row["origin"], row["access_before"], row["access_after"]) for row in rows]
    assert access == [("A", "3", "2"), ("D", "2", "2")]


def test_names_and_the_way_back(town: Town) -> None:
    town.matrix(town_matrix(True))
    rows = read(compared(town, "--base", "cut", "--scenario", "base", "--feed", town.feed))
    assert list(rows[0])[:4] == ["origin", "origin_name", "destination", "destination_name"]
    first = [rows[0][name] for name in ("what", "origin_name", "destination_name")]
    assert first == ["cut off", "Delta", 'Béta, "the" square']
    assert [row["what"] for row in rows] == ORDER
    rows = read(compared(town, "--by", "origin", "--feed", town.feed))
    assert [row["origin_name"] for row in rows] == ["Alpha", "Delta"]


def test_scenarios_that_are_alike_give_the_header_alone(town: Town) -> None:
    town.matrix(town_matrix(True, {"base": TOWN["base"], "cut": TOWN["base"]}))
    assert (compared(town), compared(town, "--by", "origin")) == (HEAD, BY_ORIGIN)


def test_a_matrix_that_ends_too_early_is_told(town: Town) -> None:
    text = town_matrix(True)
    town.matrix(text[: text.index("cut,D")])
    lost = "1 of 2 origins of base aren't in cut: D"
    out = town.path("pairs.csv")
    town.refused(f"{town.file}: {lost} (--partial compares the others)", "compare", "--out", out, town.file)
    table, errors, status = town.ran("compare", "--partial", town.file)
    assert (table, status) == (HEAD + "A,D,cut off,2400,,\nA,C,slower,900,1900,1000\n", 0)
    assert errors.splitlines()[0] == f"{lost}: left out"
    town.matrix(text[: text.index("cut,A")])
    town.refused(f"{town.file}: no scenario other than base; it has base", "compare", town.file)


def test_an_open_matrix_file_compares_as_the_matrix(town: Town) -> None:
    pytest.importorskip("h5py")
    town.matrix(town_matrix(True))
    assert town.ran("omx", "--out", town.path("town.omx"), town.file)[2] == 0
    for by in ("pair", "origin"):
        assert town.ran("compare", "--by", by, town.path("town.omx"))[0] == compared(town, "--by", by)


def plain(before: list[Cell], after: list[Cell], limit: int) -> list[tuple[int, int, str, Cell, Cell, Cell]]:
    """The changed pairs of one origin, with their rank and size, by a loop."""
    found: list[tuple[int, int, str, Cell, Cell, Cell]] = []
    for place, (one, other) in enumerate(zip(before, after)):
        if isinstance(one, int) and isinstance(other, int):
            if abs(other - one) > limit:
                what = "slower" if other > one else "faster"
                found.append((place, abs(other - one), what, one, other, other - one))
        elif one != other:
            found.append((place, 0, "new" if one == "" else "cut off", one, other, ""))
    return found


def test_drawn_matrices_differ_as_plain_loops_say(town: Town) -> None:
    draw = random.Random(5)
    for _ in range(30):
        stops = [f"s{number}" for number in range(draw.randrange(1, 12))]
        times: list[Cell] = ["", 0, 60, 61, 600, draw.randrange(1 << 24)]
        base: dict[str, list[Cell]] = {name: [draw.choice(times) for _ in stops] for name in stops}
        cut: dict[str, list[Cell]] = {name: [draw.choice(times) for _ in stops] for name in stops}
        town.matrix(town_matrix(True, {"base": base, "cut": cut}, stops=stops))
        limit = draw.choice([0, 60, 1000])
        found = [(row, *change) for row, name in enumerate(stops) for change in plain(base[name], cut[name], limit)]
        found.sort(key=lambda item: (ORDER.index(item[3]), -item[2], item[0], item[1]))
        expected = [f"s{a},s{b},{what},{one},{other},{change}" for a, b, _, what, one, other, change in found]
        assert compared(town, "--limit", str(limit)).splitlines()[1:] == expected
