"""Questions to a process that keeps the network: `ttm --ask`, and `Network` of the Python package."""

import contextlib
import random
import subprocess
import sys
import time
from collections.abc import Callable
from contextlib import AbstractContextManager

from record import ROOT
from setting import Setting, printed, stop
from shared import DATE, Study, kilobytes, stops_of, there, write_origins

sys.path.insert(0, str(ROOT / "tools" / "src"))
from ttm_tools.compat.network import Network  # noqa: E402
from ttm_tools.engine.conversation import Conversation  # noqa: E402

ONE_MINUTE = ["--from", "07:00", "--to", "07:00"]
FIRST = 100  # questions before the memory is first measured


def drawn_origins(setting: Setting, feed: str, count: int) -> list[str]:
    """Files of one origin each, drawn by a seed from all stops."""
    stops = stops_of(str(setting.feeds.folder(feed) / "stops.txt"))
    paths = []
    for stop_id in random.Random(1).choices(stops, k=count):
        paths.append(str(setting.room / f"origin_{stop_id}.csv"))
        write_origins(paths[-1], [stop_id])
    return paths


def conversation_of(setting: Setting, feed: str, origins: str) -> AbstractContextManager[Conversation]:
    """A process that keeps the network of a feed."""
    arguments = Study().arguments(str(setting.feeds.folder(feed)), origins, 1)
    return contextlib.closing(Conversation([setting.ttm, *arguments, "--ask"]))


def ask(conversation: Conversation, origins: str, *more: str) -> None:
    answer = conversation.ask(["--origins", origins, *more])
    if answer.status != 0:
        stop(f"an answer has status {answer.status}: {answer.body.decode().strip()}")


def seconds(call: Callable[[], object]) -> float:
    begin = time.monotonic()
    call()
    return time.monotonic() - begin


def answers(setting: Setting, feed: str) -> None:
    """An answer of 120 departures to all stops, next to the search and the cells of the same origins."""
    paths = drawn_origins(setting, feed, setting.choose(5, 20))
    listed = str(setting.room / "listed.csv")
    write_origins(listed, [stop_id for path in paths for stop_id in stops_of(path)])
    with conversation_of(setting, feed, paths[0]) as conversation:
        ask(conversation, paths[0])
        for turn in setting.each_turn:
            figures = printed([setting.measure, "rows", *setting.words(feed, listed)])
            row = (figures["rows' search, us"] + figures["rows' cells and access, us"]) / 1000 / len(paths)
            spent = 1000 * sum(seconds(lambda: ask(conversation, path)) for path in paths) / len(paths)
            for name, figure in {"search and cells": row, "an answer": spent}.items():
                setting.recorder.add("conversation", feed, "ttm", name, figure, "ms", turn=turn)


def first_answer(setting: Setting, feed: str) -> None:
    """From the start of the process to its first answer, next to a run with the same question."""
    path = drawn_origins(setting, feed, 1)[0]

    def begin_and_ask() -> None:
        with conversation_of(setting, feed, path) as conversation:
            ask(conversation, path)

    arguments = [setting.ttm, *Study().arguments(str(setting.feeds.folder(feed)), path, 1)]
    for turn in setting.each_turn:
        run = seconds(lambda: subprocess.run(arguments, stdout=subprocess.PIPE, check=True))
        for name, figure in {"a run": run, "the first answer": seconds(begin_and_ask)}.items():
            setting.recorder.add("conversation", feed, "ttm", name, figure, "s", turn=turn)


def many(setting: Setting, feed: str) -> None:
    """Questions of one departure: answers per second, and how the memory grows."""
    paths = drawn_origins(setting, feed, 1000)
    with conversation_of(setting, feed, paths[0]) as conversation:
        ask(conversation, paths[0], *ONE_MINUTE)
        for turn in setting.each_turn:
            rate = len(paths) / sum(seconds(lambda: ask(conversation, path, *ONE_MINUTE)) for path in paths)
            what = "answers of one departure"
            setting.recorder.add("conversation", feed, "ttm", what, rate, "per second", turn=turn)
    count = setting.choose(2000, 100_000)
    with conversation_of(setting, feed, paths[0]) as conversation:
        for number in range(1, count + 1):
            ask(conversation, paths[number % len(paths)], *ONE_MINUTE)
            if number in (FIRST, count):
                memory = kilobytes(conversation.process.pid, "VmRSS") / 1000
                setting.recorder.add("conversation", feed, "ttm", f"memory after {number:,} questions", memory, "MB")


def in_python(setting: Setting, feed: str) -> None:
    """Questions of `compat.network.Network`, whose answers are pandas frames; the first one starts the process."""
    folder = str(setting.feeds.folder(feed))
    stops = [stop_id for path in drawn_origins(setting, feed, 10) for stop_id in stops_of(path)]
    walks = next(iter(there(folder, "footpaths.csv")), None)
    with Network(folder, DATE, footpaths=walks, back=0, ahead=0, program=setting.ttm) as network:
        for number, stop_id in enumerate(stops):
            spent = seconds(lambda: network.matrix(("07:00", "08:59"), origins=[stop_id]).times("base"))
            name = "a later question in Python" if number else "the first question in Python"
            setting.recorder.add("conversation", feed, "ttm", name, spent, "s", turn=max(1, number))


def measure(setting: Setting) -> None:
    """One thread and one service day; questions ask for 120 departures if nothing else is said."""
    for feed in ("city",) if setting.quick else ("city", "metropolis"):
        answers(setting, feed)
        first_answer(setting, feed)
        in_python(setting, feed)
    many(setting, "city")
