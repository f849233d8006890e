"""How the time of the search grows with the minutes of the window."""

from parts.search import RANGE, TTM, in_turns, programs_of
from setting import Setting

WINDOWS = {1: "07:00:00", 4: "07:00:00", 16: "07:00:00", 120: "07:00:00", 1440: "00:00:00"}


def measure(setting: Setting) -> None:
    """One minute to a whole day, next to range RAPTOR."""
    programs = programs_of(setting, (RANGE, TTM))
    for feed in ("region",) if setting.quick else ("city", "region"):
        origins = setting.origins(feed, setting.choose(4, 24))
        for minutes, first in WINDOWS.items():
            words = setting.words(feed, origins, minutes, first)
            in_turns(setting, "windows", feed, f"{minutes} minutes", programs, words)
