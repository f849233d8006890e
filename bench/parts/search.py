"""How long the search takes from one origin, next to textbook RAPTOR and range RAPTOR."""

from collections.abc import Mapping, Sequence

from feeds import CHANGES, DENSE, DRAWN, THIRDS
from setting import Setting, printed, stop

Program = tuple[str, list[str]]  # its name in the results, and the words before those that all programs share
TEXTBOOK, RANGE, TTM = "textbook RAPTOR", "range RAPTOR", "ttm"


def programs_of(setting: Setting, names: Sequence[str]) -> list[Program]:
    """The programs of these names."""
    words = {TEXTBOOK: "textbook", RANGE: "range", TTM: "durations"}
    return [(name, [setting.measure if name == TTM else setting.raptor, words[name]]) for name in names]


def milliseconds(figures: Mapping[str, int]) -> float:
    """The mean time of an origin."""
    times = [number for what, number in figures.items() if what.endswith(", us") and ", origin " in what]
    return sum(times) / 1000 / max(1, len(times))


def checksum(figures: Mapping[str, int]) -> int:
    """The checksum of all durations."""
    return next(number for what, number in figures.items() if what.endswith(", checksum"))


def in_turns(setting: Setting, part: str, feed: str, measure: str, programs: list[Program], words: list[str]) -> None:
    """Runs each program once in each turn, and records the mean time of an origin.

    Ends the benchmark if the checksums of all durations differ, between programs or from turn to turn.
    """
    sums: dict[str, int] = {}
    for turn in setting.each_turn:
        for name, command in programs:
            figures = printed([*command, *words])
            setting.recorder.add(part, feed, name, measure, milliseconds(figures), "ms", turn=turn)
            sums.setdefault(name, checksum(figures))
            if {checksum(figures), *sums.values()} != {sums[name]}:
                stop(f"{feed}, {measure}: the durations differ; checksums: {sums}, {name} now {checksum(figures)}")


def measure(setting: Setting) -> None:
    """Two hours, minute by minute."""
    feeds = (*DENSE, "region") if setting.quick else (*DENSE, *THIRDS, "region", *DRAWN, CHANGES)
    programs = programs_of(setting, (TEXTBOOK, RANGE, TTM))
    for feed in feeds:
        for what, count in setting.feeds.counts(feed).items():
            setting.recorder.add("search", feed, "feed", what, count, what)
        origins = setting.origins(feed, setting.choose(4, 24))
        in_turns(setting, "search", feed, "120 minutes", programs, setting.words(feed, origins))
