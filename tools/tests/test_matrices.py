"""Matrices: their forms, what is chosen of them, their faults, and Open Matrix files."""

import random
from importlib import import_module
from pathlib import Path
from typing import Any, Callable

import numpy as np
import pytest

from helpers import TOWN, Cell, Town, town_matrix
from ttm_tools.core.errors import InputError
from ttm_tools.core.limits import MOST_SECONDS
from ttm_tools.core.threads import map_in_order
from ttm_tools.matrices import Matrix, layout_of, open_matrix, pair_of, write_open_matrix
from ttm_tools.matrices.layout import MatrixLayout
from ttm_tools.matrices.lines import head_of, seconds_of

BOTH_FORMS = pytest.mark.parametrize("second_form", [False, True])


def whole(matrix: Matrix) -> list[Any]:
    """All that a matrix says, with None for NaN."""
    said: list[Any] = []
    for scenario in matrix.scenarios:
        for share in matrix.shares:
            for block in matrix.blocks(scenario, share):
                cells = [[None if np.isnan(cell) else int(cell) for cell in row] for row in block.seconds]
                said.append((scenario, share, block.origins, cells, matrix.access(scenario, share).tolist()))
    return said


def refused(town: Town, text: str, message: str, use: Callable[[Matrix], Any] = whole) -> None:
    with pytest.raises(InputError) as seen:
        use(open_matrix(town.matrix(text)))
    assert str(seen.value) == f"{town.file}: {message}"


def test_the_header_alone_tells_the_form() -> None:
    assert layout_of("scenario,origin,access,A,B".split(",")) == MatrixLayout(False, (None,), ["A", "B"])
    second = layout_of("scenario,origin,share,access_900,access_1800,A".split(","))
    assert second == MatrixLayout(True, (900, 1800), ["A"])
    assert layout_of(["scenario", "origin", "access"]) == MatrixLayout(False, (None,), [])
    for header in (
        "",
        "scenario,origin",
        "scenario,origin,A",
        "scenario,origin,share,A",
        "scenario,origin,share,access_060",
        "origin,scenario,access",
    ):
        assert layout_of(header.split(",")) is None


def test_stops_may_be_called_as_other_columns_are() -> None:
    for header, stops in (
        ("scenario,origin,access,share,access_60,origin", ["share", "access_60", "origin"]),
        ("scenario,origin,share,access_60,share,access,access_90", ["share", "access", "access_90"]),
        ("scenario,origin,share,access_60,access_60", ["access_60"]),
    ):
        found = layout_of(header.split(","))
        assert found is not None and found.stops == stops


@BOTH_FORMS
def test_both_forms_give_the_same_rows(town: Town, second_form: bool) -> None:
    matrix = open_matrix(town.matrix(town_matrix(second_form)))
    share = 50 if second_form else None
    base = [[0, 300, 900, 2400], [1500, None, 600, 0]]
    cut = [[0, 360, 1900, None], [1400, 1700, 600, 0]]
    expected = [("base", share, ["A", "D"], base, [[3], [3]]), ("cut", share, ["A", "D"], cut, [[2], [4]])]
    assert whole(matrix) == expected


def test_of_several_shares_and_limits_one_must_be_named(town: Town) -> None:
    text = town_matrix(True, shares=(25, 50), limits=(900, 1800))
    refused(
        town, text, "it has rows for the percentiles 25, 50: choose one with --share", lambda item: item.share(None)
    )
    refused(town, text, "no rows for the percentile 90; it has 25, 50", lambda item: item.share(90))
    message = "it has access within 900, 1800 seconds: choose one with --within"
    refused(town, text, message, lambda item: item.limit(None))
    refused(town, text, "no access within 60 seconds, but within 900, 1800", lambda item: item.limit(60))
    refused(town, town_matrix(False), "it has no percentiles: leave out --share", lambda item: item.share(50))
    matrix = open_matrix(town.matrix(text))
    place = matrix.limit(900)[0]
    assert [matrix.access(name, 25)[:, place].tolist() for name in matrix.scenarios] == [[3, 3], [2, 4]]
    assert open_matrix(town.matrix(town_matrix(True))).share(None) == 50


def test_two_scenarios_of_several(town: Town) -> None:
    three = {**TOWN, "late": TOWN["cut"]}
    message = "it has the scenarios cut and late besides base: choose one with --scenario"
    refused(town, town_matrix(True, three), message, lambda item: pair_of(item, "base", None, None))
    message = "no scenario late; it has base, cut"
    refused(town, town_matrix(True), message, lambda item: pair_of(item, "base", "late", None))
    alone = town_matrix(True, {"base": TOWN["base"]})
    refused(town, alone, "no scenario other than base; it has base", lambda item: pair_of(item, "base", None, None))
    pair = pair_of(open_matrix(town.matrix(town_matrix(False, three))), "cut", "late", None)
    ((begin, before, after),) = pair.blocks()
    assert (pair.other, begin, pair.origins, pair.lacking) == ("late", 0, ["A", "D"], None)
    assert np.array_equal(before, after, equal_nan=True)


def test_origins_in_another_order_are_put_together(town: Town) -> None:
    cut: dict[str, list[Cell]] = {"Z": [1, 2, 3, 4], "D": TOWN["cut"]["D"], "A": TOWN["cut"]["A"]}
    turned = {"base": TOWN["base"], "cut": cut}
    pair = pair_of(open_matrix(town.matrix(town_matrix(True, turned))), "base", None, None)
    ((_, _, after),) = pair.blocks()
    assert (pair.origins, after[:, 0].tolist()) == (["A", "D"], [0, 1400])
    assert pair.lacking == "1 of 3 origins of cut aren't in base: Z"


@BOTH_FORMS
def test_what_is_no_matrix_is_told_by_its_record(town: Town, second_form: bool) -> None:
    text = town_matrix(second_form)
    message = f"record 4: {6 + second_form} fields, and the header has {7 + second_form}"
    refused(town, text.replace("1900,\n", "1900\n"), message)
    allowed = f"is not a travel time; allowed: whole seconds up to {MOST_SECONDS}, or nothing"
    for bad in ("3oo", "-3", "3.5", " 3", "16777216", "4294967297", "12345678901234567890"):
        refused(town, text.replace(",300,", f",{bad},"), f"record 2: B {bad!r} {allowed}")
    refused(town, text[:-1], "truncated: the last line has no end")
    access = "access_1800" if second_form else "access"
    refused(town, text.replace("A,50,3" if second_form else "A,3", "A,50,x" if second_form else "A,x"),
            f"record 2: {access} 'x' is not a number; allowed: whole numbers")  # fmt: skip
    refused(town, text.replace("base,D,", "base,A,"), "record 3: A occurs twice in base")


def test_what_is_no_matrix_at_all_is_told(town: Town) -> None:
    message = "not a matrix: it begins neither with scenario,origin,access nor with scenario,origin,share,access_.."
    refused(town, "", f"record 1: {message}")
    refused(town, "stop_id\nA\n", f"record 1: {message}")
    refused(town, "scenario,origin,access,A\n", "no rows")
    with pytest.raises(InputError, match="none.csv: No such file or directory"):
        open_matrix(town.path("none.csv"))


def test_heads_are_parted_from_cells() -> None:
    assert head_of(b"base,A,50,3,0,,7", 4) == (["base", "A", "50", "3"], 12)
    assert head_of(b'"b,""a""",A,50,3,0', 4) == (['b,"a"', "A", "50", "3"], 17)
    assert head_of(b"base,A", 4) == (["base", "A"], 7)
    assert head_of(b"base,A,3", 3) == (["base", "A", "3"], 9)


def test_drawn_cells_are_the_numbers_that_python_reads() -> None:
    draw = random.Random(7)
    for _ in range(300):
        count = draw.randrange(1, 40)
        numbers = [
            draw.choice([None, 0, draw.randrange(10 ** draw.randrange(1, 8)), MOST_SECONDS]) for _ in range(count)
        ]
        text = ",".join("" if number is None else str(number) for number in numbers)
        found = seconds_of(text.encode(), count)
        assert found is not None
        assert [None if np.isnan(cell) else int(cell) for cell in found] == numbers
        assert seconds_of(text.encode(), count + 1) is None
        letter = draw.choice(["x", "-", ".", " ", '"', "\n", "\0", "/", ":"])
        place = draw.randrange(len(text) + 1)
        assert seconds_of((text[:place] + letter + text[place:]).encode(), count) is None
    assert seconds_of(b"", 0) is not None and seconds_of(b"0016777215", 1) is None


@BOTH_FORMS
def test_an_open_matrix_file_says_the_same(town: Town, second_form: bool) -> None:
    pytest.importorskip("h5py")
    shares, limits = ((25, 50), (900, 1800)) if second_form else ((50,), (1800,))
    town.matrix(town_matrix(second_form, shares=shares, limits=limits, stops=["A", "B", 'é, "x"', "D"]))
    out = town.path("town.omx")
    assert town.ran("omx", "--out", out, town.file) == ("", "", 0)
    one, other = open_matrix(town.file), open_matrix(out)
    assert (whole(other), other.layout) == (whole(one), one.layout)


def test_an_open_matrix_file_has_the_form_of_its_format(town: Town) -> None:
    h5py = pytest.importorskip("h5py")
    town.matrix(town_matrix(True, shares=(25, 50), limits=(900, 1800)))
    assert town.ran("omx", "--out", town.path("town.omx"), town.file)[2] == 0
    with h5py.File(town.path("town.omx")) as file:
        assert (file.attrs["OMX_VERSION"], file.attrs["SHAPE"].tolist()) == (b"0.2", [2, 4])
        assert sorted(file["data"]) == ["base_25", "base_50", "cut_25", "cut_50"]
        assert {data.shape for data in file["data"].values()} == {(2, 4)}
        assert file["lookup/origin"][:].tolist() == [b"A", b"D"]
        assert file["lookup/destination"][:].tolist() == [b"A", b"B", b"C", b"D"]
        assert file["lookup/origin_number"][:].tolist() == [1, 2]
        lookups = [(name, int(item.attrs["DIM"])) for name, item in file["lookup"].items()]
        assert lookups == [("origin_number", 0), ("destination_number", 1), ("origin", 0), ("destination", 1)]
        assert all(np.isnan(item.attrs["NA"]) for item in file["data"].values())
        assert file["access/cut_50"][:].tolist() == [[2, 2], [2, 4]]


def test_the_library_that_open_matrix_programs_stand_on_reads_it(town: Town) -> None:
    tables = pytest.importorskip("tables")
    pytest.importorskip("h5py")
    town.matrix(town_matrix(True, shares=(25, 50)))
    assert town.ran("omx", "--out", town.path("town.omx"), town.file)[2] == 0
    with tables.open_file(town.path("town.omx")) as file:
        matrices = {node.name: node[:] for node in file.list_nodes(file.root.data, "CArray")}
        assert sorted(matrices) == ["base_25", "base_50", "cut_25", "cut_50"]
        assert matrices["base_50"][1].tolist()[::2] == [1500, 600] and np.isnan(matrices["base_50"][1, 1])
        lookups = {node.name: node[:].tolist() for node in file.list_nodes(file.root.lookup)}
        assert (lookups["origin"], lookups["destination_number"]) == ([b"A", b"D"], [1, 2, 3, 4])


def test_a_matrix_that_lacks_origins_of_the_study_is_told(town: Town) -> None:
    pytest.importorskip("h5py")
    origins = town.write("origins.csv", "stop_id", [["A"], ["B"], ["D"]])
    town.matrix(town_matrix(True))
    arguments = ["omx", "--origins", origins, "--out", town.path("town.omx"), town.file]
    town.refused(f"{town.file}: scenario base, share 50: lacks 1 of 3 origins of {origins}: B", *arguments)
    town.write("origins.csv", "stop_id", [["D"], ["A"]])
    town.refused(f"{town.file}: scenario base, share 50: other origins than {origins}", *arguments)
    town.write("origins.csv", "stop_id", [["A"], ["D"]])
    assert town.ran(*arguments) == ("", "", 0)


def test_an_open_matrix_file_wants_one_list_of_origins(town: Town) -> None:
    pytest.importorskip("h5py")
    town.matrix(town_matrix(True, {"base": TOWN["base"], "cut": {"A": TOWN["cut"]["A"]}}))
    message = "an Open Matrix file has one list of origins: 1 of 2 origins of base aren't in cut, percentile 50: D"
    town.refused(f"{town.file}: {message}", "omx", "--out", town.path("town.omx"), town.file)
    Path(town.path("town.omx")).write_bytes(b"\x89HDF\r\n\x1a\n" + bytes(100))
    with pytest.raises(InputError, match="town.omx: not a complete HDF5 file"):
        open_matrix(town.path("town.omx"))


def test_chunks_are_those_of_the_library_whichever_threads_make_them(
    town: Town, monkeypatch: pytest.MonkeyPatch
) -> None:
    h5py = pytest.importorskip("h5py")
    monkeypatch.setattr(import_module("ttm_tools.matrices.omx"), "CELLS_OF_A_CHUNK", 8)  # two rows
    monkeypatch.setattr(import_module("ttm_tools.matrices.base"), "CELLS_AT_ONCE", 4)  # one row
    three: dict[str, list[Cell]] = {**TOWN["base"], "B": [700, 0, "", 60]}
    matrix = open_matrix(town.matrix(town_matrix(True, {"base": three}, shares=(50, 100))))
    files = []
    for threads in (1, 3, None):
        out = Path(town.path(f"{threads}.omx"))
        write_open_matrix(matrix, str(out), threads)
        files.append(out.read_bytes())
        assert whole(open_matrix(str(out))) == whole(matrix)
    assert files[0] == files[1] == files[2]
    with h5py.File(town.path("1.omx")) as file, h5py.File(town.path("own.omx"), "w") as own:
        data = file["data/base_50"]
        how = {"chunks": data.chunks, "compression": "gzip", "compression_opts": 1, "shuffle": True}
        again = own.create_dataset("same", data=data[:], **how)
        assert (data.chunks, data.shape) == ((2, 4), (3, 4))  # the last chunk has room for one more
        for number in range(data.id.get_num_chunks()):
            place = data.id.get_chunk_info(number).chunk_offset
            assert data.id.read_direct_chunk(place) == again.id.read_direct_chunk(place)


def test_work_of_threads_comes_in_order_and_ends_with_the_first_fault() -> None:
    begun = list[int]()

    def work(number: int) -> int:
        begun.append(number)
        if number == 30:
            raise InputError("parts", "thirty is lost")
        return number

    assert list(map_in_order(work, range(30), 3)) == list(range(30))
    with pytest.raises(InputError, match="thirty is lost"):
        list(map_in_order(work, range(1000), 3))
    assert max(begun) < 40  # few are ahead


def test_a_chunk_that_is_damaged_is_told_and_other_forms_of_data_are_read(town: Town) -> None:
    h5py = pytest.importorskip("h5py")
    matrix = open_matrix(town.matrix(town_matrix(True)))
    for name in ("plain.omx", "damaged.omx"):
        write_open_matrix(matrix, town.path(name))
    with h5py.File(town.path("plain.omx"), "r+") as file:
        old = file["data/base_50"]
        cells, facts = old[:], dict(old.attrs)
        del file["data/base_50"]
        file["data"].create_dataset("base_50", data=cells).attrs.update(facts)
    assert whole(open_matrix(town.path("plain.omx"))) == whole(matrix)
    with h5py.File(town.path("damaged.omx"), "r+") as file:
        file["data/cut_50"].id.write_direct_chunk((0, 0), b"no chunk")
    with pytest.raises(InputError, match="damaged.omx: /data/cut_50: the chunk that begins with row 1 can't be read"):
        whole(open_matrix(town.path("damaged.omx")))


def test_two_columns_of_one_name_are_refused(town: Town) -> None:
    town.matrix(town_matrix(True).replace("A,B,C,D", "A,B,B,D"))
    jobs = town.write("jobs.csv", "stop_id,jobs", [["B", 1]])
    town.refused(f"{town.file}: record 1: two columns B", "access", "--opportunities", jobs, town.file)
