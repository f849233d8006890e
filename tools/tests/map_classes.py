"""The classes of a map's key: which of them a place is in, by what the key says of them."""

import math
import re
from typing import Callable, Sequence

COUNT = re.compile(r"(.+?)  \(([\d,]+)\)")  # a class, with how many are in it


def number_in(text: str) -> float:
    return float(text.replace(",", ""))


def check_key(key: Sequence[str], holds: Callable[[str, str], bool], places: Sequence[str]) -> None:
    """Each class of a map's key has as many places as it says, and all classes have all of them."""
    counts = {found[1]: int(number_in(found[2])) for text in key if (found := COUNT.fullmatch(text))}
    assert counts == {label: sum(holds(label, stop) for stop in places) for label in counts}, key
    assert sum(counts.values()) == len(places), key
    assert {text for text in key if not COUNT.fullmatch(text)} <= {"origin", "where vehicles run", "removed trips"}


def is_in_range(label: str, value: float) -> bool:
    """Whether a number is in a class, by its name: of minutes above the first number, of whole jobs from it on."""
    numbers = [number_in(text) for text in re.findall(r"[\d,.]+", label)]
    if label.startswith(("less than", "up to")):
        return value < numbers[0] if label.startswith("less") else value <= numbers[0]
    if label.startswith("more than") or label.endswith("or more"):
        return value > numbers[0] if label.startswith("more") else value >= numbers[0]
    return numbers[0] <= value <= numbers[-1]


def is_time_in(label: str, seconds: float) -> bool:
    if math.isnan(seconds) or label == "not reached":
        return math.isnan(seconds) and label == "not reached"
    return is_in_range(label, math.ceil(seconds / 60))


def is_change_in(label: str, part: float, lost: str, gained: str) -> bool:
    """Whether a loss, or a gain below 0, is in a class such as `5 to 14 min slower`, which has 14.9 minutes."""
    if label.startswith("less than"):
        return abs(part) < number_in(label.split()[2])
    numbers = [number_in(text) for text in re.findall(r"\d+", label)]
    is_inside = numbers[0] <= abs(part) < (numbers[1] + 1 if len(numbers) > 1 else math.inf)
    return is_inside and label.endswith(lost if part > 0 else gained)


def is_time_change_in(label: str, before: float, after: float) -> bool:
    gone, new = math.isnan(after), math.isnan(before)
    named = {(True, True): "not reached in either", (True, False): "cut off", (False, True): "newly reached"}
    if gone or new or label in named.values():
        return label == named.get((gone, new))
    return is_change_in(label, (after - before) / 60, "slower", "faster")
