"""Ranges of numbers that settings and options take."""

import math
from dataclasses import dataclass


class NotInRange(ValueError):
    """A text is not what a range takes.

    Attributes
    ----------
    value
        The text.
    allowed
        What is allowed, as the message says it after "is not".
    """

    def __init__(self, value: str, allowed: str) -> None:
        self.value, self.allowed = value, allowed
        super().__init__(f"{value!r} is not {allowed}")


@dataclass(frozen=True)
class Range:
    """The numbers from `least` to `most`, in a unit."""

    unit: str
    least: float
    most: float
    whole: bool = True

    def __str__(self) -> str:
        return f"{self.least:g} to {self.most:,.10g}{' ' + self.unit if self.unit else ''}"

    def __contains__(self, value: float) -> bool:
        """Return whether a number is in the range; whole numbers may be given with a decimal point."""
        return self.least <= value <= self.most and not (self.whole and value % 1)

    def read(self, text: str) -> float:
        """Return the number that a text represents; raises a `NotInRange` for any other text."""
        try:
            value = int(text) if self.whole else float(text)
        except ValueError:
            value = math.nan
        if not self.least <= value <= self.most:
            raise NotInRange(text, str(self))
        return value

    def read_several(self, text: str) -> list[float]:
        """Return the numbers between commas, each greater than the one before it; raises a `NotInRange` otherwise."""
        values = [self.read(part) for part in text.split(",")]
        if any(low >= high for low, high in zip(values, values[1:])):
            raise NotInRange(text, "ascending")
        return values
