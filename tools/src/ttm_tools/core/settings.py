"""Defaults of this process."""

import os
from collections.abc import Callable
from pathlib import Path

Progress = bool | Callable[[int, int], None] | None  # None: a bar on a terminal, after a second


def default_cache() -> Path:
    """Return the folder that TTM_CACHE names, else the user's own."""
    named = os.environ.get("TTM_CACHE")
    home = os.environ.get("XDG_CACHE_HOME") or os.path.join(os.path.expanduser("~"), ".cache")
    return Path(named) if named else Path(home) / "ttm-tools"


class Settings:
    """Defaults of this process.

    Parameters
    ----------
    threads
        Threads of the engine; None takes all processors.
    progress
        True or False shows or hides progress bars; None shows them on a terminal; a callback gets both numbers.
    cache
        The folder of prepared feeds, streets and walks. Until it is set, that of TTM_CACHE, else the user's own.
    engine
        The program `ttm`; None looks for it.
    """

    def __init__(
        self,
        threads: int | None = None,
        progress: Progress = None,
        cache: Path | None = None,
        engine: Path | None = None,
    ) -> None:
        self.threads, self.progress, self.engine = threads, progress, engine
        self._cache = cache

    @property
    def cache(self) -> Path:
        """The folder of prepared feeds, streets and walks."""
        return self._cache or default_cache()

    @cache.setter
    def cache(self, folder: Path) -> None:
        self._cache = Path(folder)


settings = Settings()
