"""The time that percentiles, access and text take in addition to the search, and that more service days take."""

from feeds import DENSE, DRAWN, THIRDS
from goals import CELLS, MANY_CELLS
from setting import Setting, printed

FIGURES = {  # what is recorded, and the words of the program of crates/measure
    "search": "rows' search, us",
    CELLS: "rows' cells and access, us",
    MANY_CELLS: "rows' cells and access of eight percentiles, us",
}


def measure(setting: Setting) -> None:
    """Rows to all stops, over one service day or three: one percentile and one limit of access, or eight and three."""
    for feed in ("city", "region") if setting.quick else (*DENSE, *THIRDS, "region", *DRAWN):
        words = setting.words(feed, setting.origins(feed, setting.choose(10, 40)))
        for turn in setting.each_turn:
            record(setting, feed, "rows", words, turn)
            if feed == "city":
                record(setting, feed, "days", words, turn)


def record(setting: Setting, feed: str, kind: str, words: list[str], turn: int) -> None:
    """Records what each part of an origin's rows takes."""
    figures, days = printed([setting.measure, kind, *words]), "one day" if kind == "rows" else "three days"
    micros = {what: figures[printed_as] for what, printed_as in FIGURES.items()}
    for what, time in {**micros, "text": 1000 * figures["text, ms"]}.items():
        millis = time / 1000 / figures["rows"]
        setting.recorder.add("rows", feed, "ttm", f"{what}, {days}", millis, "ms", turn=turn)
