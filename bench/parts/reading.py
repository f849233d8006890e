"""How long a feed takes to read, next to the `csv` crate's pass over the same bytes."""

from setting import Setting, printed


def measure(setting: Setting) -> None:
    """`gtfs_tables::read_feed`, which checks every rule, and the records of all files by the `csv` crate alone."""
    for feed in ("city",) if setting.quick else ("city", "metropolis"):
        folder = str(setting.feeds.folder(feed))
        for turn in setting.each_turn:
            figures = printed([setting.measure, folder])
            for name, what in {"csv crate": "csv alone, ms", "ttm": "read_feed, ms"}.items():
                setting.recorder.add("reading", feed, name, "reading", figures[what], "ms", turn=turn)
