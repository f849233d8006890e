"""Time and memory of a study with few destinations, or with access alone."""

from setting import Setting
from shared import Study, stops_of, write_origins

FEW = 10


def measure(setting: Setting) -> None:
    """The same origins to all stops, to ten of them, and to none: access alone."""
    for feed in ("city",) if setting.quick else ("city", "metropolis"):
        stops = stops_of(str(setting.feeds.folder(feed) / "stops.txt"))
        origins = setting.origins(feed, setting.choose(10, 40))
        for turn in setting.each_turn:
            for name, columns in {"all stops": None, f"{FEW} stops": stops[:FEW], "access alone": stops[:0]}.items():
                more: list[str] = []
                if columns is not None:
                    path = str(setting.room / "destinations.csv")
                    write_origins(path, columns)
                    more = ["--destinations", path]
                ran, matrix = setting.run(Study(more=more), feed, origins)
                setting.record_run("destinations", feed, "ttm", name, ran, turn)
                size = matrix.stat().st_size / 1e6
                setting.recorder.add("destinations", feed, "ttm", f"{name}, matrix", size, "MB", turn=turn)
