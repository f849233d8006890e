"""Who loses and who gains: numbers by hand, titles that are true of all that is drawn, and the report's opening."""

from typing import Any

import numpy as np
import pytest

from ttm_tools.measures.person_changes import PersonChanges

pytest.importorskip("matplotlib")

from ttm_tools.study.opening import change_of, sentence_of, table_of  # noqa: E402
from ttm_tools.study.results.changes import StudyChanges  # noqa: E402
from ttm_tools.views import charts  # noqa: E402
from ttm_tools.views.charts import SHADES  # noqa: E402
from ttm_tools.views.people_chart import (  # noqa: E402
    ChartWords,
    figure_by_group,
    figure_in_order,
    title_in_order,
    title_of_groups,
)

BEFORE = np.array([100.0, 100, 100, 100, 0, 0])
AFTER = np.array([0.0, 70, 95, 112, 5, 0])  # percent: -100, -30, -5, +12, more than none, none still
PEOPLE = np.array([10.0, 20, 300, 40, 5, 7])
CHANGES = PersonChanges(BEFORE, AFTER, PEOPLE)
LOSSES = PersonChanges(BEFORE, np.minimum(BEFORE, AFTER), PEOPLE)
SAME = PersonChanges(BEFORE, BEFORE, PEOPLE)
WORDS = ChartWords("jobs within 30 min")


def texts(figure: Any) -> list[str]:
    drawn = [text.get_text() for axes in figure.axes for text in axes.texts]
    return [text.get_text() for text in figure.texts] + drawn


def test_losses_and_gains_by_hand() -> None:
    assert CHANGES.percent.tolist() == pytest.approx([-100, -30, -5, 12, np.inf, 0])
    assert [CHANGES.lose(percent) for percent in (2, 10, 25, 100)] == [330, 30, 30, 10]
    assert [CHANGES.gain(percent) for percent in (2, 10, 25)] == [45, 45, 5]
    assert CHANGES.classes((2, 10, 25)).tolist() == [-3, -3, -1, 2, 3, 0]
    percent, ends = CHANGES.ordered()
    assert percent.tolist() == pytest.approx([-100, -30, -5, 0, 12, np.inf])
    assert ends.tolist() == [10, 30, 330, 337, 377, 382]
    before, after = CHANGES.means()
    assert (before, after) == pytest.approx((37000 / 382, (1400 + 28500 + 4480 + 25) / 382))


def test_numbers_are_rounded_as_reports_have_them() -> None:
    assert list(map(charts.people_shown, (7, 99.6, 104, 994, 1049, 31_449))) == [
        "7",
        "100",
        "100",
        "990",
        "1,000",
        "31,400",
    ]
    assert [charts.percent_of(part, 1000) for part in (0, 4, 996, 1000, 157)] == [
        "0\u202f%",
        "less than 1\u202f%",
        "more than 99\u202f%",
        "100\u202f%",
        "16\u202f%",
    ]
    assert [charts.signed_percent(number) for number in (-27.4, 3.6, -0.4)] == ["−27\u202f%", "+4\u202f%", "0\u202f%"]
    assert [charts.on_axis(number) for number in (0, 5000, 50000)] == ["0", "5,000", "50k"]
    assert [charts.grouped_short(number) for number in (38_649.0, 7.123, np.nan)] == ["38,600", "7.12", "none"]


def test_a_title_is_true_of_all_that_is_drawn() -> None:
    assert title_in_order({"a": CHANGES}, "people") == "30 people lose a quarter or more, 5 gain"
    assert title_in_order({"a": SAME}, "people") == "No change reaches 2\u202f%"
    several = {"a": CHANGES, "b": SAME}
    assert title_in_order(several, "people") == "a: 30 lose, 5 gain a quarter or more; b: nobody"
    slight = PersonChanges(BEFORE, BEFORE * 1.15, PEOPLE)
    assert title_in_order({"a": slight}, "places") == "370 places gain a tenth or more"


def test_a_chart_of_each_person_has_a_bar_for_each_place_in_the_colour_of_its_class() -> None:
    figure = figure_in_order({"cut": CHANGES}, WORDS)
    (axes,) = figure.axes
    bars = sorted((bar.get_x(), bar.get_width(), bar.get_height()) for bar in axes.patches)
    assert bars == pytest.approx([(0, 10, -100), (10, 20, -30), (30, 300, -5), (337, 40, 12), (377, 5, 100)])
    assert [label.get_text() for label in axes.get_yticklabels()][0] == "−100\u202f%"
    assert [label.get_text() for label in axes.get_yticklabels()][-1] == "+100 or more"
    assert "30 people lose 25\u202f% or more" in texts(figure)
    assert texts(figure)[1] == "Change of jobs within 30 min, people with the greatest loss first"


def test_a_chart_of_groups_has_the_share_of_each_class_and_the_mean_change() -> None:
    groups = {"low": CHANGES, "high": SAME}
    figure = figure_by_group(groups, WORDS)
    axes = figure.axes[0]
    wide = {bar.get_facecolor()[:3]: bar.get_width() for bar in axes.patches if bar.get_y() < 0 and bar.get_width()}
    from matplotlib.colors import to_rgb

    shares = {-1: -300, -3: -30, 2: 40, 3: 5}
    assert wide == {to_rgb(SHADES[grade]): pytest.approx(100 * people / 382) for grade, people in shares.items()}
    assert "−7\u202f%" in texts(figure) and "0\u202f%" in texts(figure)
    assert title_of_groups(groups) == "8\u202f% of low lose a tenth or more, of others at most 0\u202f%"
    assert title_of_groups({"low": CHANGES, "high": CHANGES}) == "Who loses and who gains, by group"


def changes_of(after: Any, who: str = "people") -> StudyChanges:
    words = ChartWords("jobs within 30 min", who)
    groups: dict[str, Any] = {"all": PEOPLE, "none": 0 * PEOPLE}
    return StudyChanges(words, "30", "jobs", BEFORE, {"cut": after}, groups)


@pytest.mark.parametrize(
    "after, sentence",
    [
        (
            AFTER,
            "45 of 380 people (12\u202f%) could reach at least a tenth more jobs within 30 minutes, and 30 at least a "
            "tenth fewer. The mean person could reach 7\u202f% fewer (96.9 → 90.1).",
        ),
        (
            LOSSES.after,
            "30 of 380 people (8\u202f%) could reach at least a tenth fewer jobs within 30 minutes, no one at "
            "least a tenth more. The mean person could reach 8\u202f% fewer (96.9 → 88.7).",
        ),
        (BEFORE, "Nothing changes: each of 380 people could reach as many jobs within 30 minutes as today."),
        (
            BEFORE * 1.05,
            "No one could reach at least a tenth more or fewer jobs within 30 minutes. The mean person could "
            "reach 5\u202f% more (96.9 → 102).",
        ),
    ],
)
def test_the_sentence_of_the_opening(after: Any, sentence: str) -> None:
    found = changes_of(after)
    parts = sentence_of(found.of("cut"), found, "")
    assert "".join(part.text for part in parts) == sentence
    tones = [(part.text.split(" ")[0], part.tone) for part in parts if part.tone]
    expected = {"45": [("45", "gain"), ("30", "loss")], "30": [("30", "loss")]}
    assert tones == expected.get(sentence[:2], [])


def test_a_mean_that_hardly_changes_is_about_the_same() -> None:
    assert change_of(1000, 1004) == "about as many as today (1,000 → 1,000)"
    assert change_of(0, 3) == "3, and none today"


def test_the_table_has_a_row_for_each_group() -> None:
    header, rows = table_of(changes_of(AFTER))
    assert header[:3] == ["Group", "Scenario", "People"]
    assert rows[0] == ["all", "cut", "380", "96.9", "90.1", "−7\u202f%", "30", "45", "30"]
    assert rows[1] == ["none", "cut", "0", "none", "none", "", "0", "0", "0"]


def test_all_people_are_the_first_group_only_if_it_is_a_total() -> None:
    low, high = np.array([10.0, 0, 0, 0, 0, 0]), np.array([0.0, 20, 0, 0, 0, 0])
    words = ChartWords("jobs within 30 min")

    def total(**groups: Any) -> float:
        return StudyChanges(words, "30", "jobs", BEFORE, {"cut": AFTER}, groups).of("cut").total

    assert (total(all=low + high, low=low, high=high), total(low=low, high=high)) == (30, 30)
