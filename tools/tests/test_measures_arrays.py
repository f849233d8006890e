"""Measures as functions of arrays: by hand, and by blocks of rows as in one piece."""

from typing import Iterable

import numpy as np
import pytest

from ttm_tools.core.arrays import Floats, Seconds
from ttm_tools.matrices.array_matrix import ArrayMatrix
from ttm_tools.measures.access import Decay, access, completing, nearest
from ttm_tools.measures.comparison import CUT_OFF, FASTER, NEW, SLOWER, compare
from ttm_tools.measures.competition import Market, competition

NEVER = np.nan
SECONDS: Seconds = np.array([[0, 600, 1800, NEVER], [600, 0, 600, 601], [NEVER, NEVER, NEVER, 0]], dtype=np.float32)
NUMBERS = np.array([[2.0, 0.0], [1.0, 0.0], [4.0, 0.0], [8.0, 0.5]])  # by destination: two kinds


def test_access_sums_what_is_within_each_limit() -> None:
    found = access(SECONDS, NUMBERS, Decay("step"), [10, 30])
    assert found.tolist() == [[[3, 7], [0, 0]], [[7, 15], [0, 0.5]], [[8, 8], [0.5, 0.5]]]


def test_the_nearest_destinations_complete_a_count() -> None:
    assert nearest(SECONDS, NUMBERS, [1, 3])[:, 0].tolist() == [[0, 600], [0, 600], [0, 0]]
    assert np.isnan(nearest(SECONDS, NUMBERS, [16])[:, 0]).all()  # all together have 15
    assert nearest(SECONDS, NUMBERS, [0.5])[:, 1, 0].tolist()[1:] == [601, 0]


def test_of_destinations_at_the_same_time_the_first_comes_first() -> None:
    places, seconds, ties = completing(SECONDS, NUMBERS, [1, 2, 4])
    assert places[:, 0].tolist() == [[0, 0, 2], [1, 0, 2], [3, 3, 3]]  # from 1 both 0 and 2 are 600 seconds away
    assert seconds[1, 0].tolist() == [0, 600, 600] and ties[:, 0].tolist() == [[0, 0, 0], [0, 1, 1], [0, 0, 0]]
    assert places[:, 1].tolist() == [[-1, -1, -1]] * 3


def test_only_destinations_with_the_same_kind_tie() -> None:
    """Of three destinations at the same time the first two have a school, the last a park."""
    kinds = np.array([[1.0, 0.0], [1.0, 0.0], [0.0, 1.0]])
    _, _, ties = completing(np.full((1, 3), 600, np.float32), kinds, [1, 2])
    assert ties.tolist() == [[[1, 1], [0, 0]]]


@pytest.mark.parametrize("method", ["floating", "balanced", "availability"])
def test_competition_is_the_same_by_blocks(method: str) -> None:
    market = Market(method, NUMBERS, np.array([100.0, 200.0, 0.0]), Decay("step"))

    def rows() -> Iterable[Seconds]:
        return (SECONDS[row : row + 1] for row in range(3))

    found = competition(lambda: [SECONDS], market, [10, 30])
    assert found == pytest.approx(competition(rows, market, [10, 30]), abs=1e-12)
    if method == "floating":  # within 10 minutes from 0: 2 and 1 for 300 people
        assert found[0, 0, 0] == pytest.approx(2 / 300 + 1 / 300, abs=1e-12)


def test_a_comparison_counts_from_the_first_origin_of_each_block() -> None:
    after = np.array([[0, NEVER, 1700, NEVER], [600, 0, 661, 601], [NEVER, 5, NEVER, 0]], dtype=np.float32)
    found = compare([(0, SECONDS[:2], after[:2]), (2, SECONDS[2:], after[2:])], 60, with_pairs=True)
    changes = found.changes
    listed = list(zip(changes.origin.tolist(), changes.destination.tolist(), changes.kind.tolist()))
    assert listed == [(0, 1, CUT_OFF), (0, 2, FASTER), (1, 2, SLOWER), (2, 1, NEW)]
    assert found.counts.tolist() == [[1, 0, 0, 1], [0, 1, 0, 0], [0, 0, 1, 0]]


def test_a_matrix_is_measured_by_blocks_of_rows(monkeypatch: pytest.MonkeyPatch) -> None:
    matrix = ArrayMatrix(["A", "B", "C"], ["A", "B", "C", "D"], {("base", 50): SECONDS})
    monkeypatch.setattr("ttm_tools.matrices.base.CELLS_AT_ONCE", 8)
    sizes = list[int]()

    def count(seconds: Seconds) -> Floats:
        sizes.append(len(seconds))
        return np.asarray(np.count_nonzero(~np.isnan(seconds), axis=1)[:, None], dtype=np.float64)

    assert matrix.measure("base", 50, count).tolist() == [[3], [4], [1]]
    assert sizes == [2, 1]
