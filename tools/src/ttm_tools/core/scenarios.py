"""Names of scenarios that have a meaning of their own."""

import os
from collections.abc import Container
from pathlib import Path

BASE = "base"  # what `ttm` calls the feed as it is
TODAY = "today"  # what a plan begins from


def scenario_name(path: str | os.PathLike[str]) -> str:
    """Return the scenario of a scenario file: the name of the file without `.csv`."""
    return Path(path).name.removesuffix(".csv")


def base_of(scenarios: Container[str]) -> str:
    """Return the scenario that others are compared with if none is named: `TODAY` if it is one of them."""
    return TODAY if TODAY in scenarios else BASE
