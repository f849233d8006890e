"""Feeds and streets, read once and kept in the cache."""

import os
from collections.abc import Sequence
from pathlib import Path

import numpy as np

from ..core.cache import cached_entry, key_of, sum_of_source
from ..core.errors import ArgumentError, needs
from ..core.folders import scratch
from ..core.notes import Note, warn_of
from ..core.settings import Progress
from ..core.tables import rows
from ..places.doors import PreparedFeed
from ..prepare.clip import Clip
from ..prepare.make import PREPARED, PrepareOptions, make as prepare
from ..streets.osm import Streets, read_streets
from .network import LINES, Network, PathLikeStr

FEED = "feed"


def open_network(
    gtfs: PathLikeStr | Sequence[PathLikeStr],
    streets: PathLikeStr | None = None,
    *,
    repair: bool = True,
    allow_loss: bool = False,
    progress: Progress = None,
) -> "Network":
    """Read feeds and streets, or take them from the cache if they were read before.

    Parameters
    ----------
    gtfs
        Zip files or folders; several are merged. A folder that holds the scenarios of a plan is refused.
    streets
        A file of OpenStreetMap. Without one, walks are straight lines, made longer by `Question.detour`.
    repair
        Repair what the engine would refuse, with a `RepairWarning`; False raises `InputError` instead.
    allow_loss
        Go on even if a repair removes more than a tenth of a file.
    progress
        Whether, or by which function, progress is reported.

    Returns
    -------
    Network
        A network of the timetable as it is.

    Raises
    ------
    InputError
        A feed or the streets cannot be read, or have errors that are not repaired.

    Examples
    --------
    >>> import ttm_tools as ttm
    >>> town = ttm.sample()
    >>> with ttm.open_network(town.gtfs, town.streets) as net:
    ...     net.scenarios
    ('today',)
    """
    paths = [os.fspath(gtfs)] if isinstance(gtfs, (str, os.PathLike)) else [os.fspath(path) for path in gtfs]
    if not paths:
        raise ArgumentError("gtfs is empty; allowed: a zip file or folder, or several")
    for path in paths:
        if path.endswith((".pbf", ".osm", ".osm.bz2")):
            raise ArgumentError(
                f"gtfs is {path!r}, a file of streets; the feed comes first: open_network(gtfs, streets)"
            )
    feed, note = prepared_feed(paths, repair, allow_loss)
    walked = None if streets is None else read_cached_streets(os.fspath(streets))
    notes = [note] if note else []
    for one in notes:
        warn_of(one)
    return Network(feed, walked, tuple(notes))


def prepared_feed(
    paths: Sequence[str], repair: bool, allow_loss: bool, *, routes: Sequence[str] = ()
) -> tuple[PreparedFeed, Note | None]:
    """Return the feeds, or some of their routes, as one that the engine reads; and what was repaired."""
    key = key_of("prepared", repair, allow_loss, *map(sum_of_source, paths), *routes)

    def write(folder: Path) -> None:
        with scratch("feed") as room:
            options = PrepareOptions(paths, str(folder / FEED), repair, Clip(routes=list(routes)), allow_loss)
            lines = prepare(options, room)
        (folder / LINES).write_text("".join(f"{line}\n" for line in lines[:-1]), encoding="utf-8")

    entry = cached_entry("prepared", key, write)
    repairs = sum(1 for _ in rows(entry / FEED / PREPARED, ["file"]))
    text = (entry / LINES).read_text(encoding="utf-8").strip()
    note = Note("repaired", f"{', '.join(paths)}: {text}", repairs) if repairs else None
    return PreparedFeed(key, entry / FEED, name=", ".join(Path(path).stem for path in paths)), note


def read_cached_streets(path: str) -> tuple[Streets, str]:
    """Return the streets of a file, and the checksum of all that they depend on."""
    needs("osmium", "scipy")
    key = key_of("streets", sum_of_source(path))

    def write(folder: Path) -> None:
        found = read_streets(path)
        np.savez(
            folder / "streets.npz",
            **{name: getattr(found, name) for name in Streets.__dataclass_fields__ if name != "path"},
        )

    with np.load(cached_entry("streets", key, write) / "streets.npz") as stored:
        return Streets(path, **{name: stored[name] for name in stored.files}), key
