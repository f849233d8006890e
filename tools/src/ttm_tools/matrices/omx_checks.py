"""Checks of Open Matrix files: types and shapes when a file is opened, cells when they are read."""

from typing import Any

import numpy as np
import numpy.typing as npt

from ..core.errors import InputError
from ..core.limits import MOST_LIMITS, MOST_NUMBER, MOST_SECONDS, MOST_STOPS

LONGEST_NAME = 10_000  # bytes of an identifier
SHARES, LIMITS = range(1, 101), range(0, MOST_NUMBER + 1)


def refuse_shapes(file: Any, path: str) -> None:
    """Raise an `InputError` if lookups, matrices or access have other types or shapes than `ttm-tools omx` writes."""
    for group in ("data", "lookup", "access"):
        if group not in file:
            raise InputError(path, f"no group {group}: is it an Open Matrix file that ttm-tools omx wrote?")
        own = file.get(group, getclass=True, getlink=False)
        refuse_link(file, group, path)
        if not hasattr(own, "keys"):
            raise InputError(path, f"{group} is not a group")
    counts = [length_of(file["lookup"], name, path) for name in ("origin", "destination")]
    limits = limits_of(file, path)
    more = next((name for name in file["access"] if name not in file["data"]), None)
    if more is not None:
        raise InputError(path, f"access of {more} belongs to no matrix")
    for name in file["data"]:
        data = own_data(file["data"], name, path)
        if data.shape != tuple(counts) or data.dtype.kind != "f":
            raise InputError(path, f"matrix {name} isn't of {counts[0]:,} by {counts[1]:,} numbers, as the lookups are")
        if name not in file["access"] or data.attrs.get("scenario") is None:
            raise InputError(path, f"matrix {name} names no scenario, or has no access: ttm-tools omx didn't write it")
        sums = own_data(file["access"], name, path)
        if sums.shape != (counts[0], len(limits)) or sums.dtype.kind not in "iuf":
            raise InputError(path, f"access of {name} isn't of {counts[0]:,} by {len(limits)} numbers")


def limits_of(file: Any, path: str) -> tuple[int | None, ...]:
    """Return the cutoffs of access in seconds, ascending, or (None,) if the file has none."""
    limits = file.attrs.get("limits")
    if limits is None:
        return (None,)
    values = np.asarray(limits)
    if (
        values.ndim != 1
        or values.dtype.kind not in "iu"
        or not 1 <= len(values) <= MOST_LIMITS
        or (np.diff(values) <= 0).any()
    ):
        raise InputError(path, f"limits aren't 1 to {MOST_LIMITS} whole numbers, ascending")
    if not all(int(value) in LIMITS for value in values):
        raise InputError(path, "limits aren't seconds")
    return tuple(map(int, values))


def refuse_link(group: Any, name: str, path: str) -> None:
    """Raise an `InputError` for a link to another file or another name."""
    import h5py

    if not isinstance(group.get(name, getlink=True), h5py.HardLink):
        raise InputError(path, f"{name} is a link out of the file")


def own_data(group: Any, name: str, path: str) -> Any:
    """Return a dataset that is stored in the file itself."""
    refuse_link(group, name, path)
    found = group[name]
    if not hasattr(found, "shape") or found.shape is None:
        raise InputError(path, f"{found.name} is not a matrix")
    if found.external or found.is_virtual:
        raise InputError(path, f"{found.name} is a link out of the file")
    return found


def length_of(lookups: Any, name: str, path: str) -> int:
    """Return the length of a lookup after checking its type, so that reading it takes bounded memory."""
    if name not in lookups:
        raise InputError(path, f"no lookup {name}: is it an Open Matrix file that ttm-tools omx wrote?")
    found = own_data(lookups, name, path)
    if found.ndim != 1 or found.dtype.kind not in "SO" or found.dtype.itemsize > LONGEST_NAME:
        raise InputError(path, f"lookup {name} is not a list of identifiers")
    if len(found) > MOST_STOPS:
        raise InputError(path, f"lookup {name} has {len(found):,} identifiers, and ttm takes {MOST_STOPS:,}")
    return len(found)


def refuse_twice(names: list[str], what: str, path: str) -> None:
    """Raise an `InputError` for an empty or repeated identifier."""
    seen = set[str]()
    for place, name in enumerate(names, 1):
        if not name or name in seen:
            raise InputError(path, f"{what} {place} is {'repeated' if name else 'empty'}", value=name or None)
        seen.add(name)


def checked_cells(cells: npt.NDArray[np.float32], path: str, name: str) -> npt.NDArray[np.float32]:
    """Return cells after checking that they are whole seconds or NaN."""
    with np.errstate(invalid="ignore"):
        bad = ~((cells >= 0) & (cells <= MOST_SECONDS) & (cells == np.floor(cells)) | np.isnan(cells))
    if bad.any():
        row, column = np.argwhere(bad)[0]
        message = f"matrix {name} has {cells[row, column]!s}, which is not a travel time"
        raise InputError(path, message, allowed=f"whole seconds up to {MOST_SECONDS:,}, or NaN")
    return cells
