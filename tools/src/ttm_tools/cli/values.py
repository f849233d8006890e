"""The error of an option's value, in parts."""

import argparse


class WrongValue(argparse.ArgumentTypeError):
    """A text is no value that an option takes.

    Attributes
    ----------
    value
        The text.
    allowed
        What is allowed, as the message says it after "is not".
    """

    def __init__(self, value: str, allowed: str) -> None:
        self.value, self.allowed = value, allowed
        super().__init__(f"{value!r} is not {allowed}")
