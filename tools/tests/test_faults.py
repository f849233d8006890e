"""Errors reach other processes, importing the package changes nothing else, and numbers agree with their nouns."""

import pickle
import subprocess
import sys
from pathlib import Path

import pytest

from helpers import LAUNCHER
from ttm_tools.compat.r5py.refusals import NotAvailable
from ttm_tools.core.errors import ArgumentError, InputError, MissingDependencyError
from ttm_tools.core.signals import Interrupted
from ttm_tools.core.text import counted, singular
from ttm_tools.engine.refusals import EngineError
from ttm_tools.places.folder import TooManyPlaces
from ttm_tools.streets.counting import TooManyWalks

FAULTS = [
    InputError("stops.txt", "is no number", record=3, column="stop_lat", value="x", allowed="-90 to 90"),
    InputError("stops.txt", "is empty"),
    EngineError("ttm: stops.txt: record 5: bad number\nttm: column stop_lat: 'x'", 2),
    MissingDependencyError("no program"),
    ArgumentError("--to is before --from"),
    NotAvailable("transport_modes", "cars", "leave them out"),
    TooManyPlaces("points.csv", "too many"),
    TooManyWalks("points.csv", "too many"),
    Interrupted(15),
]


@pytest.mark.parametrize("fault", FAULTS, ids=lambda fault: type(fault).__name__)
def test_an_error_is_the_same_behind_a_pipe(fault: BaseException) -> None:
    again = pickle.loads(pickle.dumps(fault))
    assert (type(again), str(again), again.args, vars(again)) == (type(fault), str(fault), fault.args, vars(fault))
    if isinstance(fault, InputError):
        assert again.file == fault.file and again.record == fault.record and again.exit_status == 1


def test_importing_changes_no_limit_of_the_process(tmp_path: Path) -> None:
    """A field of a megabyte less two bytes is read; other readers of the process keep the limit that they have."""
    (tmp_path / "a.csv").write_text(f"stop_id,name\nA,{'x' * ((1 << 20) - 2)}\n")
    program = (
        "import csv, sys; sys.path.insert(0, sys.argv[1])\n"
        "import ttm_tools.matrices, ttm_tools.cli, ttm_tools.gtfs.feeds, ttm_tools.core.tables as tables\n"
        "print(csv.field_size_limit(), [len(fields[1]) for _, fields in tables.records(sys.argv[2])])\n"
        "print(csv.field_size_limit(77), len(list(tables.records(sys.argv[2]))), csv.field_size_limit())\n"
    )
    words = [sys.executable, "-c", program, str(Path(LAUNCHER).parent / "src"), str(tmp_path / "a.csv")]
    ran = subprocess.run(words, capture_output=True, text=True)
    assert ran.stdout == "131072 [4, 1048574]\n131072 2 77\n", ran.stderr


@pytest.mark.parametrize(
    "several, one",
    [
        *[("jobs", "job"), ("buses", "bus"), ("campuses", "campus"), ("viruses", "virus"), ("houses", "house")],
        *[("warehouses", "warehouse"), ("causes", "cause"), ("uses", "use"), ("churches", "church"), ("boxes", "box")],
        *[("cities", "city"), ("classes", "class"), ("movies", "movie"), ("people", "people"), ("bus", "bus")],
    ],
)
def test_one_of_several(several: str, one: str) -> None:
    assert singular(several) == one
    assert (counted(1, several), counted(2, several)) == (f"1 {one}", f"2 {several}")
