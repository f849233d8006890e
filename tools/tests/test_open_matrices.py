"""Open Matrix files of other programs, and damaged ones: each is refused in one line, or read as it is."""

import random
import shutil
from pathlib import Path
from typing import Any, Callable

import numpy as np
import pytest

from helpers import TOWN, Town, town_matrix
from ttm_tools.core.errors import InputError
from ttm_tools.matrices import open_matrix, write_open_matrix

h5py = pytest.importorskip("h5py")


def replaced(name: str, **how: Any) -> Callable[[Any], None]:
    """Puts another set of data in the place of one."""

    def damage(file: Any) -> None:
        attributes = dict(file[name].attrs)
        del file[name]
        data = file.create_dataset(name, **how)
        for key, value in attributes.items():
            data.attrs[key] = value

    return damage


def without(name: str) -> Callable[[Any], None]:
    def damage(file: Any) -> None:
        del file[name]

    return damage


def with_attribute(name: str, key: str, value: Any) -> Callable[[Any], None]:
    def damage(file: Any) -> None:
        file[name].attrs[key] = value

    return damage


def with_cell(value: float) -> Callable[[Any], None]:
    def damage(file: Any) -> None:
        file["data/base_50"][0, 1] = value

    return damage


def linked(make: Callable[[Any], Any], name: str) -> Callable[[Any], None]:
    def damage(file: Any) -> None:
        del file[name]
        file[name] = make(file)

    return damage


DATA, ACCESS, ORIGIN, TARGET = "data/base_50", "access/base_50", "lookup/origin", "lookup/destination"
SHAPES = [(2,), (2, 3), (3, 4), (2, 4, 1), (0, 0), ()]
DAMAGES: dict[str, Callable[[Any], None]] = {
    **{f"no {name}": without(name) for name in ("data", "access", "lookup", DATA, ACCESS, ORIGIN, TARGET)},
    **{f"data of {shape}": replaced(DATA, shape=shape, dtype="<f4") for shape in SHAPES},
    **{f"access of {shape}": replaced(ACCESS, shape=shape, dtype="<i8") for shape in [(2,), (2, 2), (3, 1), ()]},
    **{f"data of kind {kind}": replaced(DATA, shape=(2, 4), dtype=kind) for kind in ("<i4", "S3", "bool")},
    **{f"access of kind {kind}": replaced(ACCESS, shape=(2, 1), dtype=kind) for kind in ("<c16", "S3")},
    **{f"a group in place of {name}": linked(lambda file: file.create_group("g"), name) for name in (DATA, ORIGIN)},
    "a set in place of data": linked(lambda file: file.create_dataset("d", data=[1]), "data"),
    **{f"a cell of {cell}": with_cell(cell) for cell in (-1, -np.inf, np.inf, 1.5, 2.0**24)},
    "access below 0": replaced(ACCESS, data=np.array([[-1], [2]])),
    **{f"access {number}": replaced(ACCESS, data=np.array([[number], [2.5]])) for number in (-0.5, np.nan, np.inf)},
    "an origin twice": replaced(ORIGIN, data=np.array([b"A", b"A"])),
    "an empty origin": replaced(ORIGIN, data=np.array([b"A", b""])),
    "a stop twice": replaced(TARGET, data=np.array([b"A", b"B", b"A", b"D"])),
    "numbers for origins": replaced(ORIGIN, data=np.array([1, 2])),
    "many origins": replaced(ORIGIN, shape=(1 << 40,), dtype="S8", chunks=(1 << 16,)),
    "long names": replaced(ORIGIN, shape=(2,), dtype="S20000"),
    "a share of 0": with_attribute(DATA, "share", 0),
    "a share of text": with_attribute(DATA, "share", "half"),
    "a scenario twice": with_attribute("data/cut_50", "scenario", np.bytes_(b"base")),
    "a scenario of numbers": with_attribute(DATA, "scenario", 1 << 40),
    "no scenario": with_attribute(DATA, "scenario", np.bytes_(b"")),
    "a place of text": with_attribute(DATA, "place", "first"),
    "limits that fall": with_attribute("/", "limits", np.array([900, 600])),
    "limits of text": with_attribute("/", "limits", "900"),
    "limits below 0": with_attribute("/", "limits", np.array([-1])),
    "no limits": with_attribute("/", "limits", np.array([], dtype=np.int64)),
    "a link to another file": linked(lambda _: h5py.ExternalLink("/etc/passwd", "/data"), DATA),
    "a link to another name": linked(lambda _: h5py.SoftLink("/data/cut_50"), DATA),
    "bytes of another file": replaced(DATA, shape=(2, 4), dtype="<f4", external=[("/etc/passwd", 0, 32)]),
}


@pytest.fixture
def whole(town: Town) -> Path:
    path = town.folder / "whole.omx"
    write_open_matrix(open_matrix(town.matrix(town_matrix(True))), str(path))
    return path


@pytest.mark.parametrize("name", DAMAGES)
def test_a_damaged_file_is_told(town: Town, whole: Path, name: str) -> None:
    path = town.path("damaged.omx")
    shutil.copyfile(whole, path)
    with h5py.File(path, "r+") as file:
        DAMAGES[name](file)
    _, said, status = town.ran("long", "--out", town.path("out.csv"), path)
    assert status == 1 and said.count("\n") == 1 and said.startswith(f"ttm-tools long: {path}: "), said
    assert "out.csv" not in town.names()
    _, said, status = town.ran("long", "--access", "--out", town.path("out.csv"), path)
    assert status == (0 if name.startswith("a cell of") else 1)


def test_scenarios_that_differ_by_a_stroke_alone_have_matrices_of_their_own(town: Town) -> None:
    rows = {"base": TOWN["base"], "a/b": TOWN["cut"], "a_b": TOWN["base"]}
    matrix = open_matrix(town.matrix(town_matrix(True, rows)))
    write_open_matrix(matrix, town.path("made.omx"))
    result = open_matrix(town.path("made.omx"))
    assert result.scenarios == ["base", "a/b", "a_b"]
    for name in result.scenarios:
        assert result.rows(name, 50, 0, 2).tobytes() == matrix.rows(name, 50, 0, 2).tobytes()


def test_bytes_that_are_damaged_are_told(town: Town, whole: Path) -> None:
    draw, found = random.Random(9), whole.read_bytes()
    for _ in range(60):
        some = bytearray(found[: draw.choice([len(found), draw.randrange(8, len(found))])])
        for _ in range(draw.randrange(1, 9)):
            some[draw.randrange(8, len(some))] = draw.randrange(256)
        Path(town.path("damaged.omx")).write_bytes(some)
        try:
            result = open_matrix(town.path("damaged.omx"))
            for name in result.scenarios:
                result.rows(name, 50, 0, 2)
                result.access(name, 50)
        except InputError as fault:
            assert str(fault).startswith(town.path("damaged.omx"))
