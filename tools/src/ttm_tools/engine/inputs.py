"""Input files of `ttm`, written from Python's lists and dictionaries."""

import os
from pathlib import Path
from typing import Any

import numpy as np

from ..core.scaling import scale_of, times
from ..core.stop_lists import FOOTPATH_COLUMNS
from ..core.tables import RoundingCounter, number_of, write_rows
from .arguments import Pathlike

COLUMNS = {  # of the files, by option
    "origins": ["stop_id"],
    "destinations": ["stop_id"],
    "opportunities": ["stop_id", "opportunities"],
    "footpaths": list(FOOTPATH_COLUMNS),
}


def write_input(folder: Path, option: str, given: Any, rounded: RoundingCounter) -> Pathlike:
    """Return the file for an option, after writing it to a folder unless a path is given.

    Parameters
    ----------
    given
        A path; or identifiers of stops; or a number for each stop, times a power of ten if there are decimals; or walks
        of two stops and seconds, rounded up.
    """
    if isinstance(given, (str, os.PathLike)):
        return given
    header, path = COLUMNS[option], folder / f"{option}.csv"
    if len(header) == 1:
        rows = [[stop] for stop in given]
    elif option == "opportunities":
        counts = {stop: str(number) for stop, number in given.items()}
        scale = rounded.scale = scale_of(np.array([number_of(text) for text in counts.values()]))
        rows = [
            [stop, rounded.to_int(times(text, scale), option, record, header[-1], up=False)]
            for record, (stop, text) in enumerate(counts.items(), 2)
        ]
    else:
        rows = [
            [*ends, rounded.to_int(str(number), option, record, header[-1], up=True)]
            for record, (*ends, number) in enumerate(given, 2)
        ]
    with open(path, "wb") as file:
        write_rows(file, header, rows)
    return path


def write_inputs(folder: Path, rounded: RoundingCounter, **given: Any) -> dict[str, Pathlike]:
    """Write the files of all options that are not None; returns their paths by option."""
    return {option: write_input(folder, option, value, rounded) for option, value in given.items() if value is not None}
