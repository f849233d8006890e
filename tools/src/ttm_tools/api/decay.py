"""How an opportunity's weight falls with its travel time."""

from dataclasses import dataclass
from typing import Literal

from ..core.errors import ArgumentError
from ..measures.access import Decay as Weighting
from ..measures.registry import DECAYS


@dataclass(frozen=True)
class Decay:
    """Weight of an opportunity by its travel time, given a limit: names and formulas of R5 and r5r.

    Parameters
    ----------
    kind
        step, linear, exponential or logistic.
    value
        Minutes: the width of a linear decay, the standard deviation of a logistic one.

    Raises
    ------
    ArgumentError
        The kind is none of these, or has no value, or none that is needed.

    Examples
    --------
    >>> Decay.logistic(sd=10)
    Decay(kind='logistic', value=10)
    >>> Decay() == Decay.step()
    True
    """

    kind: Literal["step", "linear", "exponential", "logistic"] = "step"
    value: float | None = None

    def __post_init__(self) -> None:
        if self.kind not in DECAYS:
            raise ArgumentError(f"kind is {self.kind!r}; allowed: {', '.join(DECAYS)}")
        needs_value = bool(DECAYS[self.kind].value)
        if needs_value and not (self.value is not None and self.value > 0):
            raise ArgumentError(f"value is {self.value!r}; allowed for {self.kind}: minutes above 0")
        if not needs_value and self.value is not None:
            raise ArgumentError(f"value is {self.value!r}; allowed for {self.kind}: none")

    @classmethod
    def step(cls) -> "Decay":
        """1 up to the limit."""
        return cls()

    @classmethod
    def linear(cls, width: float) -> "Decay":
        """From 1 to 0 within `width` minutes around the limit."""
        return cls("linear", width)

    @classmethod
    def exponential(cls) -> "Decay":
        """Half at the limit."""
        return cls("exponential")

    @classmethod
    def logistic(cls, sd: float) -> "Decay":
        """S-shaped, half at the limit; `sd` in minutes."""
        return cls("logistic", sd)


def weighting_of(decay: Decay) -> Weighting:
    """Return the weights of a decay, as the measures take them."""
    return Weighting(decay.kind, decay.value)
