"""Access with decimals in an Open Matrix file: each command that reads it prints the same sums."""

import json
from pathlib import Path

import numpy as np
import pytest

for _package in ("h5py", "matplotlib"):
    pytest.importorskip(_package)

from helpers import Town, read, town_matrix  # noqa: E402
from test_maps import figure  # noqa: E402
from ttm_tools.matrices import Matrix, Share, Sums, open_matrix, write_open_matrix  # noqa: E402
from ttm_tools.matrices.csv_matrix import CsvMatrix  # noqa: E402
from ttm_tools.views.classes import count_labels  # noqa: E402
from ttm_tools.views.map_content import breaks_of  # noqa: E402


class Tenths(CsvMatrix):
    """A matrix whose access counts a tenth for each stop."""

    def access(self, scenario: str, share: Share) -> Sums:
        return super().access(scenario, share) / 10


@pytest.fixture
def tenths(town: Town) -> Town:
    """The town, whose matrix is an Open Matrix file: in base 0.3 from A and D, in cut 0.2 from A and 0.4 from D."""
    whole: Matrix = Tenths(town.matrix(town_matrix(True)))
    write_open_matrix(whole, town.path("town.omx"))
    town.file = town.path("town.omx")
    return town


def test_an_open_matrix_file_keeps_decimals(tenths: Town) -> None:
    matrix = open_matrix(tenths.file)
    assert [matrix.access(name, 50).tolist() for name in matrix.scenarios] == [[[0.3], [0.3]], [[0.2], [0.4]]]
    out = tenths.path("access.csv")
    assert tenths.ran("long", "--access", "--out", out, tenths.file)[2] == 0
    assert [row["access"] for row in read(Path(out).read_text())] == ["0.3", "0.3", "0.2", "0.4"]


def test_the_type_of_decimals_is_real(tenths: Town) -> None:
    words = ["long", "--access", "--csvt", "--out", tenths.path("access.csv")]
    assert tenths.ran(*words, tenths.file)[2] == 0
    assert Path(tenths.path("access.csvt")).read_text() == '"String","Integer","String","Integer","Real"\n'
    assert tenths.ran(*words, tenths.path("matrix.csv"))[2] == 0
    assert Path(tenths.path("access.csvt")).read_text() == '"String","Integer","String","Integer","Integer"\n'


def test_compare_lists_and_sums_decimals(tenths: Town) -> None:
    out, errors, status = tenths.ran("compare", "--by", "origin", "--listed", "access", tenths.file)
    assert status == 0
    columns = ("origin", "access_before", "access_after", "change", "percent")
    assert [tuple(row[name] for name in columns) for row in read(out)] == [
        ("A", "0.3", "0.2", "-0.1", "-33.3"),
        ("D", "0.3", "0.4", "0.1", "33.3"),
    ]
    of = "access within 30 minutes, percentile 50: of 2 origins"
    assert errors.splitlines()[1] == f"{of} 1 loses, 1 gains; in all +0"
    errors = tenths.ran("compare", "--by", "origin", "--least", "1", tenths.file)[1]
    assert errors.splitlines()[1] == f"{of} 0 lose, 0 gain (by 1 or more); in all +0"


def test_maps_show_decimals(tenths: Town, monkeypatch: pytest.MonkeyPatch) -> None:
    texts, _, key = figure(tenths, monkeypatch, "access", "--unit", "jobs", "--scenario", "cut")
    assert texts[1] == "Half of 2 stops reach at least 0.3 jobs; the most is 0.4"
    assert key[:2] == ["less than 0.25  (1)", "0.35 or more  (1)"]
    texts, _, key = figure(tenths, monkeypatch, "difference", "--unit", "jobs")
    assert texts[1] == "Of 2 stops 1 loses, 1 gains; the greatest loss: 33 % (0.1 jobs) at Alpha (A)"
    assert key[:2] == ["25 % or more lost  (1)", "25 % or more gained  (1)"]


def test_classes_of_decimals_share_their_breaks() -> None:
    breaks = breaks_of(np.array([0.0, 19.5, 45.5]))
    assert breaks == (10, 20, 30, 40)
    assert count_labels(breaks, False) == ["less than 10", "10 to 20", "20 to 30", "30 to 40", "40 or more"]
    assert breaks_of(np.array([0.0, 0.0])) == (1,)


def test_files_for_a_geographic_information_system_have_decimals(tenths: Town) -> None:
    out = tenths.path("town.geojson")
    assert tenths.ran("gis", "--feed", tenths.feed, "--origin", "A", "--out", out, tenths.file)[2] == 0
    properties = [feature["properties"] for feature in json.loads(Path(out).read_text())["features"]]
    assert [own["cut_50_access_1800"] for own in properties] == [0.2, None, None, 0.4]
    assert [own["cut_50_seconds"] for own in properties] == [0, 360, 1900, None]
    geopandas = pytest.importorskip("geopandas")
    out = tenths.path("town.gpkg")
    assert tenths.ran("gis", "--feed", tenths.feed, "--origin", "A", "--out", out, tenths.file)[2] == 0
    assert geopandas.read_file(out).cut_50_access_1800.fillna(-1).tolist() == [0.2, -1, -1, 0.4]
