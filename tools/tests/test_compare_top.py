"""The greatest changes first, and thresholds of travel times and of access apart; by hand."""

from helpers import Cell, Town, read, town_matrix

FAR = 5000
BASE: dict[str, list[Cell]] = {
    "A": [0, 1000, 1000, 1000],  # loses two of four within 1,800 s
    "B": [0, 1000, FAR, FAR],  # gains two: twice as many
    "C": [0, 1000, 1000, 1790],  # loses one, by 20 seconds
    "D": [0, FAR, FAR, ""],  # as many as before
}
CUT: dict[str, list[Cell]] = {
    "A": [0, 1000, 2000, ""],
    "B": [0, 1000, 500, 600],
    "C": [0, 1000, 1000, 1810],
    "D": [0, FAR, FAR + 90, 4000],
}


def compared(town: Town, *arguments: str) -> list[dict[str, str]]:
    town.matrix(town_matrix(True, {"base": BASE, "cut": CUT}))
    out, _, status = town.ran("compare", *arguments, town.file)
    assert status == 0
    return read(out)


def origins(town: Town, *arguments: str) -> str:
    return "".join(row["origin"] for row in compared(town, "--by", "origin", *arguments))


def pairs(town: Town, *arguments: str) -> list[str]:
    return [row["origin"] + row["destination"] for row in compared(town, *arguments)]


def test_origins_by_loss_gain_and_percent(town: Town) -> None:
    # changes of access: A 4 to 2, B 2 to 4, C 4 to 3, D 1 to 1
    assert origins(town) == origins(town, "--sort", "relative") == "ACBD"
    assert origins(town, "--sort", "loss") == "ACDB"
    assert origins(town, "--sort", "gain") == "BDCA"
    assert origins(town, "--sort", "gain", "--top", "1") == "B"
    assert origins(town, "--top", "2") == "AC"


def test_percent_and_size_are_not_the_same(town: Town) -> None:
    base: dict[str, list[Cell]] = {"A": [0, 9, 9, 9], "B": [0, 9, FAR, FAR], "C": [FAR] * 4}
    cut: dict[str, list[Cell]] = {"A": [0, 9, FAR, FAR], "B": [FAR] * 4, "C": [0, FAR, FAR, FAR]}
    base["D"], cut["D"] = [0, FAR, FAR, FAR], [0, 9, 9, FAR]
    town.matrix(town_matrix(True, {"base": base, "cut": cut}))
    rows = read(town.ran("compare", "--by", "origin", "--sort", "relative", town.file)[0])
    # B loses all of 2, A two of 4; C gains from nothing, D two more than 1
    assert [row["origin"] for row in rows] == ["B", "A", "C", "D"]
    rows = read(town.ran("compare", "--by", "origin", "--sort", "gain", town.file)[0])
    assert [row["origin"] for row in rows] == ["D", "C", "A", "B"]


def test_pairs_by_loss_gain_and_part(town: Town) -> None:
    # cut off A to D; slower A to C by 1,000 and D to C by 90; new D to D; faster B to D by 4,400 and B to C by 4,500
    assert pairs(town) == ["AD", "AC", "DC", "DD", "BC", "BD"]
    assert pairs(town, "--sort", "loss") == ["AD", "AC", "DC", "BD", "BC", "DD"]
    assert pairs(town, "--sort", "gain") == ["DD", "BC", "BD", "DC", "AC", "AD"]
    assert pairs(town, "--sort", "relative", "--top", "2") == ["AD", "AC"]
    assert pairs(town, "--limit", "10", "--sort", "relative")[:4] == ["AD", "AC", "DC", "CD"]  # 90 of 5000, 20 of 1790


def test_an_origin_that_only_crossed_a_limit_is_told_by_its_access_alone(town: Town) -> None:
    assert origins(town, "--listed", "times") == "ABD"
    assert origins(town, "--listed", "access") == "ACB"
    assert origins(town, "--listed", "access", "--least", "2") == "AB"
    assert origins(town, "--least", "2") == "ABD"
    out, errors, _ = town.ran("compare", "--by", "origin", "--least", "2", town.file)
    said = "access within 30 minutes, percentile 50: of 4 origins 1 loses, 1 gains (by 2 or more); in all -1"
    assert errors.splitlines()[1] == said and "(by more than 60 seconds)" in errors
    assert town.ran("compare", "--least", "2", town.file)[2] == 2
