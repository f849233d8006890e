"""Classes of maps and pages: scripts have the labels and colours of Python, and all people can distinguish them."""

import itertools
import json
import shutil
import subprocess
from typing import Any, Sequence

import pytest

from colour_vision import SIGHTS, contrast, distance, lab
from ttm_tools.views import classes
from ttm_tools.web.bundling import MODULES

LEAST_TEXT, LEAST_SHAPE = 4.5, 3.0  # contrast after WCAG 2.1
LEAST_STEP, LEAST_DISTANCE = 8.5, 10.0  # of lightness between neighbours, and of any two classes
DARK = classes.TOKENS | classes.TABLE["dark"]
DIFFERENCE = [*classes.LOSS, classes.TOKENS["none"], *classes.GAIN]
MARKS = [classes.TABLE["marks"][name]["colour"] for name in ("cut", "new")]


def in_scripts(expression: str) -> Any:
    """What an expression gives with the functions of the scripts' classes."""
    if shutil.which("node") is None:
        pytest.skip("without node")
    core = (MODULES / "core").as_uri()
    script = f'import * as classes from "{core}/classes.js"; import * as table from "{core}/table.js";'
    script += f"table.useTable({json.dumps(classes.TABLE)}); console.log(JSON.stringify({expression}));"
    ran = subprocess.run(["node", "--input-type=module", "-"], input=script, capture_output=True, text=True)
    assert ran.returncode == 0, ran.stderr
    return json.loads(ran.stdout)


def fields(marks: Sequence[classes.Mark]) -> list[dict[str, Any]]:
    return [{"label": mark.label, "colour": mark.colour, "shape": mark.shape, "size": mark.size} for mark in marks]


def test_labels_say_which_numbers_a_class_has() -> None:
    assert classes.time_labels((10, 20, 45)) == ["up to 10 min", "11 to 20 min", "21 to 45 min", "more than 45 min"]
    assert classes.time_labels((5, 6)) == ["up to 5 min", "6 min", "more than 6 min"]
    assert classes.time_labels((2.5, 5.0)) == ["up to 2.5 min", "2.5 to 5 min", "more than 5 min"]
    assert classes.count_labels((10, 20, 1000)) == ["less than 10", "10 to 19", "20 to 999", "1,000 or more"]
    assert classes.count_labels((0.5, 1, 2)) == ["less than 0.5", "0.5 to 1", "1", "2 or more"]
    assert classes.count_labels((1, 2), False) == ["less than 1", "1 to 2", "2 or more"]
    assert [mark.label for mark in classes.change_marks("minutes", (2, 5))] == [
        "cut off",
        "5 min or more slower",
        "2 to 4 min slower",
        "less than 2 min either way",
        "2 to 4 min faster",
        "5 min or more faster",
        "newly reached",
    ]


@pytest.mark.parametrize("breaks", [(10, 20, 30, 45, 60, 90), (5, 6), (2.5, 5, 1000000), (7,)])
def test_scripts_name_and_colour_times_and_counts_as_pictures_do(breaks: tuple[float, ...]) -> None:
    listed = json.dumps(breaks)
    assert in_scripts(f"classes.timeLabels({listed})") == classes.time_labels(breaks)
    assert in_scripts(f"classes.countLabels({listed}, true)") == classes.count_labels(breaks)
    assert in_scripts(f"classes.countLabels({listed}, false)") == classes.count_labels(breaks, False)
    assert in_scripts(f"classes.colours({len(breaks) + 1})") == classes.from_near(len(breaks) + 1)


@pytest.mark.parametrize("breaks", [(2, 5, 15), (1, 5, 10, 25), (10,), (1, 2.5)])
@pytest.mark.parametrize("kind", ["minutes", "percent"])
def test_scripts_have_the_marks_of_differences_that_pictures_have(kind: str, breaks: tuple[float, ...]) -> None:
    found = in_scripts(f'classes.differenceMarks("{kind}", {json.dumps(breaks)})')
    keys = ("label", "colour", "shape", "size")
    assert [{key: mark[key] for key in keys} for mark in found] == fields(classes.change_marks(kind, breaks))


def test_scripts_and_pictures_begin_with_the_same_breaks() -> None:
    found = in_scripts("[table.classEnds, classes.changeClasses().marks, classes.timeClasses().marks]")
    ends, changes, times = found
    assert ends == list(classes.MINUTES)
    assert [mark["label"] for mark in times] == [mark.label for mark in classes.time_marks(classes.MINUTES)]
    expected = [mark.label for mark in classes.change_marks("minutes", classes.MINUTES_OF_CHANGE)]
    assert [mark["label"] for mark in changes] == [*expected, "not reached in either"]


def test_contrast_is_that_of_the_guidelines() -> None:
    assert contrast("#000000", "#ffffff") == pytest.approx(21)
    assert contrast("#777777", "#ffffff") == pytest.approx(4.48, abs=0.01)
    assert lab("#ffffff")[0] == pytest.approx(100, abs=0.01)
    assert distance("#ffffff", "#000000") == pytest.approx(100, abs=0.1)


@pytest.mark.parametrize("tokens", [classes.TOKENS, DARK], ids=["light", "dark"])
def test_text_has_contrast(tokens: dict[str, str]) -> None:
    for text, ground in itertools.product(("ink", "soft", "action"), ("panel", "paper", "sunk", "action-tint")):
        assert contrast(tokens[text], tokens[ground]) >= LEAST_TEXT, (text, ground)
    assert contrast(tokens["error"], tokens["error-tint"]) >= LEAST_TEXT
    assert contrast(tokens["panel"], tokens["action"]) >= LEAST_TEXT  # the text on a button
    for ground in ("panel", "paper", "sunk"):
        assert contrast(tokens["edge-strong"], tokens[ground]) >= LEAST_SHAPE, ground


def test_names_and_shapes_on_the_map_have_contrast() -> None:
    for name, ground in itertools.product(("place", "water-name", "green-name"), ("land", "street3")):
        assert contrast(classes.TOKENS[name], classes.TOKENS[ground]) >= LEAST_TEXT, (name, ground)
    for edge, ground in itertools.product(("mark-edge", "hollow-edge"), ("land", "water", "park", "street3")):
        assert contrast(classes.TOKENS[edge], classes.TOKENS[ground]) >= LEAST_SHAPE, (edge, ground)
    for name in ("taken", "changed", "added", "journey", "running"):
        assert contrast(classes.TABLE["lines"][name]["colour"], classes.TOKENS["land"]) >= LEAST_SHAPE, name


@pytest.mark.parametrize("name", classes.TABLE["ground"]["names"], ids=lambda name: str(name["kind"]))
def test_each_name_of_the_ground_has_contrast_on_its_surfaces(name: dict[str, Any]) -> None:
    for ground in ("land", "water", "park", "street1", "street2", "street3"):  # "land" is the colour of its halo, too
        assert contrast(classes.TOKENS[name["colour"]], classes.TOKENS[ground]) >= LEAST_TEXT, ground


@pytest.mark.parametrize("sight", SIGHTS)
def test_each_class_is_lighter_than_the_one_before_it(sight: str) -> None:
    lightness = [float(lab(colour, sight)[0]) for colour in classes.NEAR]
    assert min(after - before for before, after in itertools.pairwise(lightness)) >= LEAST_STEP
    for scale in (classes.LOSS, classes.GAIN):  # from little to much
        steps = [float(lab(colour, sight)[0]) for colour in scale]
        assert min(before - after for before, after in itertools.pairwise(steps)) >= LEAST_STEP


@pytest.mark.parametrize("sight", SIGHTS)
@pytest.mark.parametrize("colours", [classes.NEAR, [*DIFFERENCE, *MARKS]], ids=["times", "differences"])
def test_colours_of_classes_can_be_told_apart(colours: list[str], sight: str) -> None:
    for one, other in itertools.combinations(colours, 2):
        assert distance(one, other, sight) >= LEAST_DISTANCE, (one, other)
