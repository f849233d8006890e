"""The journeys of single departures, compared with the travel times of `ttm`.

`explain` compares the travel time of a percentile. If all journeys of a window are shown, each is the journey of a
departure of its own, and `ttm --ask` answers a question for each of these departures.
"""

import contextlib
from dataclasses import replace
from pathlib import Path
from collections.abc import Iterator

from ..core.folders import scratch
from ..core.tables import RoundingCounter
from ..core.times import as_minute
from ..engine.arguments import EngineArguments, Pathlike, program_at
from ..engine.conversation import Conversation
from ..engine.inputs import write_inputs
from ..engine.pool import ask_command
from ..engine.refusals import EngineError
from ..gtfs.timetable import DAY
from ..journeys.found import ExplainOptions, Found, refuse_difference
from ..matrices import Matrix, open_matrix
from .explain import Pairs, cells_of

EVERY = 100  # the percentile of a window of one departure


def checked_options(
    task: EngineArguments,
    pairs: Pairs,
    every: Iterator[tuple[ExplainOptions, list[Found]]],
    program: Pathlike | None,
) -> Iterator[tuple[ExplainOptions, list[Found]]]:
    """Yield what was found for each pair, after comparing the duration of each of its journeys with that of `ttm`.

    Raises
    ------
    InputError
        A duration differs.
    EngineError
        `ttm` refused a question.
    """
    with scratch("options") as folder, contextlib.ExitStack() as ends:
        names = [list(dict.fromkeys(pair[place] for pair in pairs)) for place in (0, 1)]
        own = write_inputs(folder, RoundingCounter(), origins=names[0], destinations=names[1])
        arguments = replace(task, files={**task.files, **own}).arguments()
        conversation = Conversation(ask_command(program_at(program), arguments))
        ends.callback(conversation.close)
        matrices = dict[str, Matrix]()
        for (options, every_found), pair in zip(every, pairs):
            for found in every_found:
                for option in found.options:
                    at = as_minute((option.departure - DAY * options.back) // 60)
                    if at not in matrices:
                        matrices[at] = matrix_at(conversation, at, folder)
                    cells = cells_of(matrices[at], [found.name], EVERY, [pair])
                    refuse_difference(found.name, option.seconds, cells[pair][found.name], *pair, f" at {at}")
            yield options, every_found


def matrix_at(conversation: Conversation, at: str, folder: Path) -> Matrix:
    """Ask `ttm` for the travel times of one departure."""
    answer = conversation.ask(["--from", at, "--to", at, "--share", str(EVERY)])
    if answer.status:
        raise EngineError(answer.body.decode("utf-8", "replace"), answer.status)
    path = folder / f"{at.replace(':', '')}.csv"
    path.write_bytes(answer.body)
    return open_matrix(str(path))
