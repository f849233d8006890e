"""The parts of a study's origins: how many, from what a run of few origins takes, and what each of them depends on."""

import contextlib
import math
import re
import resource
from dataclasses import asdict, dataclass, replace
from pathlib import Path
from typing import Collection, Sequence

from ..core.files import is_running, output, remove, sha256_of_file, this_machine
from ..core.stop_lists import write_stops
from ..matrices.parts import parts_of
from .counted import ORIGINS
from .inputs import Inputs
from .settings import PartSettings
from .stages import as_text, facts_in, fsync, key_of, room, write_durably
from .ttm import Report, report_of, with_origins

PARTS = "parts"
CUT = "stages/cut.json"
FEW = 8  # origins of the longer trial
MOST_PARTS = 1000  # of those that are cut by time: as many as arrays of clusters have
OF_THE_FREE = 0.8  # of the machine's memory
MB = 1_000_000
FIRST = ""  # window, whose parts have no folder of their own
OWN_FOLDER, OF_A_WINDOW = re.compile("[0-9]{4}"), re.compile("[0-9]{8}_.+")
ASIDE = r"\.part\.(?:lock|[0-9]+(?:-[0-9a-f]{8})?)\..*"
OF_A_PART = re.compile(rf"key|matrix\.csv|origins\.csv|told\.txt|{ASIDE}")
OF_ALL = re.compile(rf"run\.json|one_part\.sh|job|log|hosts\.txt|slurm_[0-9]+\.txt|{ASIDE}")


@dataclass(frozen=True)
class Costs:
    """What a run takes."""

    setup: float  # seconds of a processor, before the first origin
    each: float  # and of an origin
    network: int  # bytes, without rows
    row: int  # bytes of an origin's rows
    free: int  # bytes that the machine has


@dataclass(frozen=True)
class PartLayout:
    """How the run is cut, and how many parts may run at once on this machine."""

    parts: int
    at_once: int
    threads: int  # of each


@dataclass(frozen=True)
class Part:
    """Some of the origins, in a folder of their own."""

    number: int
    origins: Sequence[str]
    key: str  # the sum of all that the matrix depends on
    window: str = FIRST
    study: Path = Path()  # the study's folder

    @property
    def folder(self) -> Path:
        return self.study / PARTS / self.window / f"{self.number:04}"

    @property
    def matrix(self) -> Path:
        return self.folder / "matrix.csv"

    @property
    def origins_name(self) -> str:
        """The file of its origins from the study's folder on, as a run there names it."""
        return str(self.folder.relative_to(self.study) / "origins.csv")

    @property
    def errors_file(self) -> Path:
        """Why it failed where another machine ran it."""
        return self.folder / "told.txt"

    def begin(self) -> None:
        """Makes the folder of a part that isn't done, with its origins and nothing else."""
        self.folder.mkdir(parents=True, exist_ok=True)
        for path in (self.folder / "key", self.errors_file, self.matrix):
            remove(path)
        for path in self.folder.glob(f".part.*-{this_machine()}.*"):
            if not is_running(int(path.name.split(".")[2].split("-")[0])):
                remove(path)
        with output(str(self.study / self.origins_name)) as file:
            write_stops(file, self.origins)

    def finish(self) -> None:
        """Notes that the matrix is whole."""
        facts = {"key": self.key, "bytes": self.matrix.stat().st_size, "sum": sha256_of_file(self.matrix)}
        write_durably(self.folder / "key", as_text(facts))
        fsync(self.folder)

    def is_done(self) -> bool:
        """Whether the matrix is there, and is that of this part."""
        noted = facts_in(self.folder / "key")
        try:
            return noted.get("key") == self.key and noted.get("bytes") == self.matrix.stat().st_size
        except OSError:
            return False

    def is_whole(self) -> bool:
        """Whether it is done, and its bytes have the sum that was noted."""
        return self.is_done() and facts_in(self.folder / "key").get("sum") == sha256_of_file(self.matrix)


def study_key(inputs: Inputs, version: Sequence[str]) -> str:
    """The sum of all that rows depend on but their origins."""
    run = replace(inputs.run, workers=1, files={**inputs.run.files, "origins": ""})
    sums = {name: was for name, was in inputs.sums.items() if name != ORIGINS}
    return key_of({"words": run.arguments(), "inputs": sums, "ttm": list(version)})


def parts_for(origins: Sequence[str], count: int, key: str, window: str = FIRST, study: Path = Path()) -> list[Part]:
    """So many parts of the origins, in a study's folder."""
    keys = [(some, key_of({"study": key, "origins": list(some)})) for some in parts_of(origins, count)]
    return [Part(number, some, own, window, study) for number, (some, own) in enumerate(keys, 1)]


def processor_time() -> float:
    """Seconds of processors that all processes took which were begun here and have ended."""
    used = resource.getrusage(resource.RUSAGE_CHILDREN)
    return used.ru_utime + used.ru_stime


def trial(inputs: Inputs, origins: Sequence[str], room: Path) -> tuple[float, Report]:
    """The processor time of a run of some origins, which other work on the machine hardly changes; and its report."""
    path = (room / "origins.csv").absolute()
    with open(path, "wb") as file:
        write_stops(file, origins)
    begin = processor_time()
    report = report_of(with_origins(inputs.run, str(path), 1), inputs.folder)
    return processor_time() - begin, report


def costs_of(inputs: Inputs, origins: Sequence[str], room: Path) -> Costs:
    """What an origin takes, from runs of one and of some, spread over all."""
    some = origins[:: max(1, len(origins) // (FEW + 1))][: FEW + 1]
    short, first = trial(inputs, some[:1], room)
    long, report = trial(inputs, some, room) if len(some) > 1 else (short, first)
    each = max(0.0, long - short) / max(1, len(some) - 1)
    size = "bytes of the matrix and its text, about"
    row = max(0, report.number(size) - first.number(size)) // max(1, len(some) - 1) or first.number(size)
    free = report.number("bytes that the machine has free")
    return Costs(max(0.0, short - each), each, first.number("bytes taken at most"), row, free)


def fitting(memory: int, costs: Costs, rows: int, workers: int) -> int:
    """The number of parts of this many origins that run at once in some memory; 0 bytes if it isn't known."""
    each = costs.network + rows * costs.row
    return max(1, min(workers, memory // each if memory and each else workers))


def layout_of(settings: PartSettings, costs: Costs, origins: int, workers: int, known: int | None = None) -> PartLayout:
    """Parts of about this many minutes, of which as many run at once as memory allows: where fewer do than there are
    processors, each takes several. Parts that are known, or counted by hand, keep their number.
    """
    memory = settings.memory * MB if settings.memory else int(OF_THE_FREE * costs.free)
    count = known or settings.count
    if count is not None:
        at_once = fitting(memory, costs, math.ceil(origins / count), workers)
        return PartLayout(min(count, origins), at_once, max(1, workers // at_once))
    at_once = fitting(memory, costs, 1, workers)
    threads = max(1, workers // at_once)
    by_memory = (memory // at_once - costs.network) // max(1, costs.row) if memory else origins
    by_time = threads * (60 * settings.minutes - costs.setup) / costs.each if costs.each else origins
    largest = max(1, min(int(min(by_time, origins)), int(min(by_memory, origins))))
    parts = max(math.ceil(origins / largest), min(at_once, origins))
    if parts > at_once:
        parts = math.ceil(parts / at_once) * at_once
    parts = min(parts, origins, max(MOST_PARTS, math.ceil(origins / max(1, int(min(by_memory, origins))))))
    return PartLayout(parts, at_once, threads)


def choose_parts(settings: PartSettings, inputs: Inputs, key: str, workers: int) -> PartLayout:
    """How the origins were cut before, or are cut now."""
    origins, noted = inputs.origins(), facts_in(inputs.folder / CUT)
    facts = key_of([key, origins, asdict(settings) | {"keep": False}])
    layout = noted_layout(inputs.folder) if noted.get("key") == facts else None
    if layout is None or noted.get("workers") != workers:
        with room(inputs.folder) as folder:
            costs = costs_of(inputs, origins, folder)
        layout = layout_of(settings, costs, len(origins), workers, layout.parts if layout else None)
        noted = {"key": facts, "workers": workers, "shape": asdict(layout), "costs": asdict(costs)}
        write_durably(inputs.folder / CUT, as_text(noted))
    return layout


def noted_layout(study: Path) -> PartLayout | None:
    try:
        return PartLayout(**facts_in(study / CUT)["shape"])
    except (KeyError, TypeError):
        return None


def remove_others(study: Path, window: str, names: Collection[str] = ()) -> None:
    """Removes the folders of a window's parts but for some."""
    folder = study / PARTS / window
    for path in folder.iterdir() if folder.is_dir() else ():
        if path.is_dir() and OWN_FOLDER.fullmatch(path.name) and path.name not in names:
            remove_own(path, OF_A_PART)
    if window != FIRST:
        with contextlib.suppress(OSError):  # it isn't there, or isn't empty
            folder.rmdir()


def remove_windows(study: Path, names: Collection[str] = ()) -> None:
    """Removes the parts of all windows but some, and of the first."""
    for path in (study / PARTS).iterdir() if (study / PARTS).is_dir() else ():
        if path.is_dir() and OF_A_WINDOW.fullmatch(path.name) and path.name not in names:
            remove_others(study, path.name)


def remove_parts(study: Path) -> None:
    """Removes all parts, and what was noted of them, but nothing else."""
    if (study / PARTS).is_dir():
        remove_others(study, FIRST)
        remove_windows(study)
        remove_own(study / PARTS, OF_ALL)


def remove_own(folder: Path, names: re.Pattern[str]) -> None:
    """Removes the files of a folder that the study wrote, and the folder where nothing else is in it."""
    for path in folder.iterdir():
        if names.fullmatch(path.name):
            remove(path)
    with contextlib.suppress(OSError):
        folder.rmdir()
