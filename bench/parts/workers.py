"""How rows gain by more threads, and what memory each thread takes."""

from setting import Setting, stop
from shared import Study, sha256_of_file


def measure(setting: Setting) -> None:
    """The same study by one, two and four workers; the matrices must have the same bytes."""
    feed, count = ("city", 24) if setting.quick else ("metropolis", 24)
    some, none, sums = setting.origins(feed, count), setting.origins(feed, 0), set[str]()
    for turn in setting.each_turn:
        for workers in (1, 2, 4):
            ran, matrix = setting.run(Study(), feed, some, workers)
            sums.add(sha256_of_file(str(matrix)))
            rest, _ = setting.run(Study(), feed, none, workers)
            name = f"{workers} threads"
            setting.record_run("workers", feed, "ttm", name, ran, turn)
            setting.recorder.add("workers", feed, "ttm", f"{name}, rows", ran.seconds - rest.seconds, "s", turn=turn)
    if len(sums) != 1:
        stop(f"{feed}: the matrices of one, two and four workers differ")
