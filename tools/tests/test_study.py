"""A study in one file: what it makes, what it refuses, and that a kill at any moment changes nothing of it."""

import contextlib
import json
import os
import random
import signal
import subprocess
import time
from pathlib import Path
from types import SimpleNamespace
from typing import Any, Callable

import pytest

from helpers import CALENDAR, STOP_TIMES, Room
from ttm_tools.core.errors import InputError
from ttm_tools.core.files import sha256_of_file
from ttm_tools.engine.arguments import EngineArguments
from ttm_tools.engine.refusals import error_line
from ttm_tools.study.executors.local import shown
from ttm_tools.study.executors.remote import ExecutorOptions
from ttm_tools.study.executors.slurm import ranges
from ttm_tools.study.executors.task import write_task
from ttm_tools.study.inputs import make_inputs
from ttm_tools.study.parts import Costs, Part, costs_of, layout_of, parts_for, study_key
from ttm_tools.study.results import registry
from ttm_tools.study.settings import PartSettings
from ttm_tools.study.stages import Folder
from ttm_tools.study.study_file import read_study
from ttm_tools.study.template import template
from ttm_tools.engine.version import toolchain_of, version_of
from ttm_tools.study.work import make_study

for _package in ("h5py", "pandas", "matplotlib"):
    pytest.importorskip(_package)

ROOT = Path(__file__).resolve().parents[2]
STOPS = [f"S{number}" for number in range(9)]
STUDY = """\
title = "Nine stops"
question = "Who loses if Q goes?"
[feed]
files = ["published"]
[run]
date = 2026-05-04
from = "08:00"
to = "08:04"
shares = [25, 50]
limits = [600, 1800]
[opportunities]
files = ["jobs.csv"]
column = "jobs"
people = "people.csv"
[scenarios]
files = ["cut.csv"]
[results]
csv = true
page = false
[parts]
count = 4
"""


NO_MAPS = STUDY.replace("csv = true", "csv = true\nmaps = false")


class Place(Room):
    """A room with a feed of nine stops in a row, of which one trip goes along and another one back."""

    def lay_out(self, study: str = STUDY) -> str:
        (self.folder / "published").mkdir()
        rows = [[stop, f"Stop {stop}", 50 + 0.004 * number, 7] for number, stop in enumerate(STOPS)]
        self.write("published/stops.txt", "stop_id,stop_name,stop_lat,stop_lon", rows)
        self.write("published/routes.txt", "route_id,route_type", [["R", 3], ["Q", 3]])
        self.write("published/calendar.txt", *CALENDAR)
        self.write("published/trips.txt", "route_id,service_id,trip_id", [["R", "M", "T"], ["Q", "M", "U"]])
        times = [["T", *[f"08:{3 * number:02}:00"] * 2, stop, number] for number, stop in enumerate(STOPS)]
        times += [["U", *[f"8:{30 + number}:0"] * 2, stop, number] for number, stop in enumerate(reversed(STOPS))]
        self.write("published/stop_times.txt", STOP_TIMES, times)
        self.write("cut.csv", "action,id,seconds", [["remove_route", "Q", ""]])
        self.write("jobs.csv", "stop_id,jobs,schools", [[stop, 100 * n + 0.4, n % 2] for n, stop in enumerate(STOPS)])
        self.write("people.csv", "stop_id,residents", [[stop, n + 1] for n, stop in enumerate(STOPS)])
        return self.say(study)

    def say(self, study: str) -> str:
        """Writes the study's file."""
        path = self.folder / "nine.toml"
        path.write_text(study, encoding="utf-8")
        return str(path)

    def made(self, out: str = "nine") -> dict[str, bytes]:
        """All files of the study's folder with their bytes, without those that have times."""
        folder = self.folder / out
        found = {str(path.relative_to(folder)): path for path in folder.rglob("*") if path.is_file()}
        contents = {
            name: item.read_bytes() for name, item in found.items() if not name.startswith((".lock", "stages/"))
        }
        notes = json.loads(contents.pop("study.json"))
        assert notes.pop("times")["began"]
        return {**contents, "study.json": json.dumps(notes).encode()}


@pytest.fixture
def place(
    tmp_path: Path, capsysbinary: pytest.CaptureFixture[bytes], program: str, monkeypatch: pytest.MonkeyPatch
) -> Place:
    monkeypatch.setenv("TTM_PROGRAM", program)
    return Place(tmp_path, capsysbinary)


@pytest.fixture
def bare(tmp_path: Path, capsysbinary: pytest.CaptureFixture[bytes]) -> Place:
    """The same without the program."""
    return Place(tmp_path, capsysbinary)


def killed_after(seconds: float, work: Callable[[], None]) -> bool:
    """Does something in a process group of its own, which is killed after some time; whether it was done before."""
    child = os.fork()
    if child == 0:
        status = 1
        with contextlib.suppress(BaseException), open(os.devnull, "w") as nothing:
            os.setsid()
            os.dup2(nothing.fileno(), 2)
            work()
            status = 0
        os._exit(status)
    end = time.monotonic() + seconds
    while time.monotonic() < end:
        ended, status = os.waitpid(child, os.WNOHANG)
        if ended:
            assert os.waitstatus_to_exitcode(status) == 0
            return True
        time.sleep(0.002)
    with contextlib.suppress(ProcessLookupError):
        os.killpg(child, signal.SIGKILL)
    os.waitpid(child, 0)
    return False


def test_a_study_killed_at_drawn_moments_has_the_bytes_of_one_that_was_not(place: Place) -> None:
    study = read_study(place.lay_out())
    begin = time.monotonic()
    make_study(study, place.folder / "nine", ExecutorOptions(2))
    whole, wanted = time.monotonic() - begin, place.made()
    seed = random.SystemRandom().randrange(1 << 32)
    drawn = random.Random(seed)
    kills = 0
    while not killed_after(
        drawn.uniform(0, whole), lambda: make_study(study, place.folder / "killed", ExecutorOptions(2))
    ):
        kills += 1
    found = place.made("killed")
    print(f"seed {seed}: {kills} kills")
    assert sorted(found) == sorted(wanted)
    assert [name for name in wanted if found[name] != wanted[name]] == []
    assert not [path for path in (place.folder / "killed").rglob(".part.*")]


def test_the_matrix_is_that_of_one_run_and_every_result_is_there(place: Place, program: str) -> None:
    make_study(read_study(place.lay_out()), place.folder / "nine", ExecutorOptions(2))
    files = place.made()
    arguments = json.loads(files["study.json"])["words"]
    whole = subprocess.run([program, *arguments], cwd=place.folder / "nine", capture_output=True, check=True).stdout
    assert files["matrix.csv"] == whole
    report = files["report.md"].decode()
    assert files["compare_cut.csv"].splitlines()[1].startswith(b"S8,Stop S8,")
    for printed in ("Who loses if Q goes?", "18 fields repaired", sha256_of_file(place.path("jobs.csv")), "proved"):
        assert printed in report
    assert {"access.csv", "equity.csv", "maps/access.png", "maps/access_cut.png", "matrix.omx"} < set(files)
    # departures from S0 after 08:00 reach S1 on foot and nothing else today: 0.4 and 100.4 jobs
    assert files["access.csv"].splitlines()[1:3] == [b"base,S0,jobs,25,10,100.8", b"base,S0,jobs,25,30,100.8"]


def test_the_notes_say_what_was_run_from_what_and_by_which_versions(place: Place, program: str) -> None:
    make_study(read_study(place.lay_out()), place.folder / "nine", ExecutorOptions(2))
    folder = place.folder / "nine"
    notes = json.loads((folder / "study.json").read_text())
    known = {name: was for stage in notes["stages"].values() for name, was in stage["files"].items()}
    files = {str(path.relative_to(folder)) for path in folder.rglob("*") if path.is_file()}
    assert {name for name in files if not name.startswith((".lock", "stages/", "study.json"))} == set(known)
    assert known == {name: sha256_of_file(folder / name) for name in known}
    assert notes["sources"]["jobs.csv"] == sha256_of_file(place.path("jobs.csv"))
    assert [notes["versions"]["ttm"], notes["versions"]["toolchain"]] == [*version_of(program), ""][:2]
    assert (notes["versions"]["ttm_sha256"], notes["parts"]) == (sha256_of_file(program), 4)
    assert notes["study_file"] == STUDY and notes["question"] == "Who loses if Q goes?"
    assert set(notes["times"]["seconds"]) == set(notes["stages"])


def test_the_toolchain_of_a_program_is_named_by_its_package_alone(tmp_path: Path) -> None:
    program = tmp_path / "bin/ttm"
    assert toolchain_of(str(program)) == []
    proved = tmp_path / "share/doc/ttm/PROVED"
    proved.parent.mkdir(parents=True)
    proved.write_text("ttm 2.0.0\nproved with kit-1 logic a1\ncommit 12\n")
    assert toolchain_of(str(program)) == ["proved with kit-1 logic a1"]


def test_parts_of_any_number_and_processes_give_the_same_results(place: Place) -> None:
    make_study(read_study(place.lay_out()), place.folder / "nine", ExecutorOptions(2))
    wanted = place.made()
    for count, workers in ((1, 1), (9, 3)):
        study = read_study(place.say(NO_MAPS.replace("count = 4", f"count = {count}\nkeep = true")))
        make_study(study, place.folder / str(count), ExecutorOptions(workers))
        files = place.made(str(count))
        assert sorted(path.name for path in (place.folder / str(count) / "parts").iterdir())[-1] == f"{count:04}"
        for name in ("matrix.csv", "matrix.omx", "access.csv", "equity.csv", "compare_cut.csv"):
            assert files[name] == wanted[name]


def test_what_is_done_is_not_done_again_and_what_changed_is(place: Place) -> None:
    path = place.lay_out(NO_MAPS.replace("count = 4", "count = 4\nkeep = true"))

    def stages() -> list[str]:
        _, errors, status = place.ran("study", path)
        assert status == 0, errors
        return [line.removesuffix(" ..") for line in errors.splitlines() if line.endswith(" ..")]

    before = ["feed", "scenarios", "walks", "origins", "counted", "opportunities", "people", "days"]
    results = ["access", "equity", "who_gains", "compare_cut", "report"]
    assert stages() == [*before, "matrix", *results]
    notes = (place.folder / "nine/study.json").read_bytes()
    assert stages() == []
    assert (place.folder / "nine/study.json").read_bytes() == notes
    (place.folder / "nine/access.csv").write_text("spoilt\n")
    assert stages() == ["access"]
    place.write("people.csv", "stop_id,residents", [[stop, 5] for stop in STOPS])
    assert stages() == ["people", "equity", "who_gains", "report"]
    place.write("cut.csv", "action,id,seconds", [["remove_route", "R", ""]])
    assert stages() == ["scenarios", "days", "matrix", *results]


def test_a_part_of_other_inputs_or_with_other_bytes_is_never_taken(place: Place, program: str) -> None:
    study = read_study(place.lay_out(NO_MAPS.replace("count = 4", "count = 4\nkeep = true")))
    make_study(study, place.folder / "nine", ExecutorOptions(2))
    wanted = place.made()
    parts = place.folder / "nine/parts"

    def computed() -> list[str]:
        """The parts that are computed again when the matrix is lost."""
        before = {path: path.stat().st_mtime_ns for path in sorted(parts.glob("*/matrix.csv"))}
        (place.folder / "nine/matrix.omx").unlink()
        make_study(study, place.folder / "nine", ExecutorOptions(2))
        assert place.made() == wanted
        return [path.parent.name for path in before if path.stat().st_mtime_ns != before[path]]

    assert computed() == []
    (parts / "0002/key").unlink()
    (parts / "0003/matrix.csv").write_bytes((parts / "0003/matrix.csv").read_bytes()[:-1])
    (parts / "0004/key").write_bytes((parts / "0001/key").read_bytes())
    assert computed() == ["0002", "0003", "0004"]
    rotten = (parts / "0001/matrix.csv").read_bytes()
    (parts / "0001/matrix.csv").write_bytes(rotten.replace(b"base,S0,25,1008,", b"base,S0,25,2008,"))
    (place.folder / "nine/matrix.omx").unlink()
    with pytest.raises(InputError, match="parts/0001/matrix.csv: changed since it was written"):
        make_study(study, place.folder / "nine", ExecutorOptions(2))
    assert computed_after(study, place) == wanted


def computed_after(study: Any, place: Place) -> dict[str, bytes]:
    make_study(study, place.folder / "nine", ExecutorOptions(2))
    return place.made()


def test_a_part_that_fails_is_named_and_the_others_go_on(
    place: Place, program: str, monkeypatch: pytest.MonkeyPatch
) -> None:
    path = place.lay_out(NO_MAPS)
    bad = place.folder / "bad"
    arguments = (
        f'#!/bin/sh\ncase "$*" in *parts/0002/*) echo ttm: out of memory >&2; exit 3 ;; esac\nexec {program} "$@"\n'
    )
    bad.write_text(arguments)
    bad.chmod(0o755)
    monkeypatch.setenv("TTM_PROGRAM", str(bad))
    _, errors, status = place.ran("study", path)
    line = "parts/0002: ttm: out of memory (1 of 4 parts have no matrix; the same command retries them)"
    assert (status, errors.splitlines()[-1]) == (1, f"ttm-tools study: {line}")
    assert "part 2: ttm: out of memory" in errors.splitlines()
    there = sorted(path.parent.name for path in (place.folder / "nine/parts").glob("*/key"))
    assert there == ["0001", "0003", "0004"]
    monkeypatch.setenv("TTM_PROGRAM", program)
    _, errors, status = place.ran("study", path)
    assert (status, "parts: 3 of 4 already done" in errors) == (0, True)


def test_verification_computes_rows_again_and_tells_what_was_changed(place: Place) -> None:
    make_study(read_study(place.lay_out(NO_MAPS)), place.folder / "nine", ExecutorOptions(2))
    folder = place.path("nine")
    rows = "rows: those of 1 of 9 origins, chosen with --seed 7, have the same bytes\n"
    message = f"checksums: 22 files are as study.json says\n{rows}"
    assert place.ran("study", "--verify", folder, "--seed", "7") == ("", message, 0)
    (place.folder / "nine/access.csv").write_text("spoilt\n")
    message = "ttm-tools study: access.csv: has another checksum than study.json says: it was changed\n"
    assert place.ran("study", "--verify", folder) == ("", message, 1)


def test_verification_removes_what_one_that_was_killed_left_aside(place: Place) -> None:
    make_study(read_study(place.lay_out(NO_MAPS)), place.folder / "nine", ExecutorOptions(2))
    ended = subprocess.Popen(["true"])
    ended.wait()
    left, own = (place.folder / "nine" / f".part.{item}.room" for item in (ended.pid, os.getpid()))
    left.mkdir()
    assert place.ran("study", "--verify", place.path("nine"))[2] == 0
    assert not left.exists() and not own.exists()


def test_verification_finds_a_row_that_ttm_does_not_compute(place: Place) -> None:
    make_study(read_study(place.lay_out(NO_MAPS)), place.folder / "nine", ExecutorOptions(2))
    notes = json.loads((place.folder / "nine/study.json").read_text())
    text = (place.folder / "nine/matrix.csv").read_text()
    assert "base,S0,25,1008,1008,0,434," in text  # tenths of a job: the jobs have decimals
    (place.folder / "nine/matrix.csv").write_text(
        text.replace("base,S0,25,1008,1008,0,434,", "base,S0,25,1008,1008,0,436,")
    )
    notes["stages"]["matrix"]["files"]["matrix.csv"] = sha256_of_file(place.folder / "nine/matrix.csv")
    (place.folder / "nine/study.json").write_text(json.dumps(notes))
    drawn = {random.Random(seed).sample(range(9), 1)[0]: seed for seed in range(99)}
    message = "matrix.csv: the row of base, share 25, origin S0 isn't what ttm computes"
    for origin, (line, status) in {0: (f"ttm-tools study: {message}", 1), 1: ("rows: those of 1", 0)}.items():
        _, said, ended = place.ran("study", "--verify", place.path("nine"), "--seed", str(drawn[origin]))
        assert (said.splitlines()[-1].startswith(line), ended) == (True, status)


def test_wrong_words_of_a_study_are_told_with_their_line_and_the_nearest_name(bare: Place) -> None:
    bare.lay_out()
    cases = {
        ('files = ["published"]', 'fles = ["published"]'): "line 4: fles isn't known; the nearest is 'files'; allowed:",
        ("[scenarios]", "[scenario]"): "line 15: scenario isn't known; the nearest is 'scenarios'; allowed:",
        (
            "shares = [25, 50]",
            "shares = [50, 25]",
        ): "line 9: shares '[50, 25]' is invalid; allowed: 1 to 8 whole numbers",
        ('to = "08:04"', 'to = "07:59"'): "line 8: to '07:59' is before from",
        (
            'to = "08:04"',
            'to = "8:04"',
        ): "line 8: to '8:04' is not a time; allowed: HH:MM in quotes, 00:00 to 23:59",
        ("date = 2026-05-04", 'date = "20260532"'): "line 6: date '20260532' is not a date; allowed: YYYY-MM-DD",
        ("date = 2026-05-04\n", ""): "line 5: date is needed; allowed: YYYY-MM-DD, or YYYYMMDD in quotes",
        (
            'files = ["jobs.csv"]',
            'files = ["job.csv"]',
        ): "line 12: files 'job.csv' isn't there; allowed: a path, relative",
        ("csv = true", "csv = 1"): "line 18: csv '1' is invalid; allowed: true or false",
        ("csv = true", "within = 900"): "line 18: within '900' is not among limits of [run]; allowed: 600, 1800",
        ("csv = true", 'decay = "linear"'): "line 18: decay 'linear' needs decay_value, minutes above 0",
        ("csv = true", 'decay = "steep"'): "line 18: decay 'steep' isn't one of",
        ("count = 4", "count = 0"): "line 21: count '0' is invalid; allowed: a whole number from 1 to 9,999",
        ("count = 4", "count = "): "is not a TOML file: Invalid value (at line 21, column 9)",
        ("[feed]\n", "[feed]\nready = true\nrepair = true\n"): "line 5: repair doesn't go with ready; allowed: one of",
    }
    for (old, new), printed in cases.items():
        assert STUDY.count(old) == 1
        path = bare.say(STUDY.replace(old, new))
        with pytest.raises(InputError) as seen:
            read_study(path)
        assert str(seen.value).startswith(f"{path}: {printed}"), (new, str(seen.value))


def test_the_file_that_new_prints_can_be_read_with_every_field(bare: Place) -> None:
    out, errors, status = bare.ran("study", "--new")
    assert (out, errors, status) == (template(), "", 0)
    for name in ("feed.zip", "region.geojson"):
        (bare.folder / name).touch()
    study = read_study(bare.say(out))
    assert (study.run.first, study.run.shares, study.results.access) == ("07:30", (50,), True)
    assert out == (ROOT / "docs" / "reference" / "study.toml").read_text()
    table = registry.markdown_table()
    assert table in (ROOT / "docs" / "reference" / "study-file.md").read_text()
    assert all(callable(result.stages()) for result in registry.RESULTS)


def test_words_that_do_not_go_together_are_wrong_words(bare: Place) -> None:
    path = bare.lay_out()
    wrong: list[list[str]] = [[], ["--new", path], [path, "--slurm", "--hosts", ":"], [path, "--option", "time=1"]]
    wrong += [["--verify", path, "--part", "1"], ["--new", "--part", "1"], [path, "--seed", "1"]]
    for arguments in wrong:
        assert bare.ran("study", *arguments)[2] == 2


def test_parts_are_cut_by_time_and_memory() -> None:
    # a second for each of 10,000 origins, after 20: five minutes are 280 of them, 36 parts
    costs = Costs(setup=20, each=1, network=10**9, row=10**6, free=10**11)
    assert layout_of(PartSettings(), costs, 10_000, 4).parts == 36
    # with 8 GB four share 6.4 GB: 1.6 GB each, 1 GB of which is the network, leave 600 rows
    tight = Costs(setup=0, each=0.01, network=10**9, row=10**6, free=8 * 10**9)
    shape = layout_of(PartSettings(), tight, 10_000, 4)
    assert (shape.parts, shape.at_once, shape.threads) == (20, 4, 1)
    # a network of 3 GB with 143 rows of 1 MB fits twice into 6.4 GB, so two run at once with two threads each
    wide = Costs(0, 1, 3 * 10**9, 10**6, 8 * 10**9)
    shape = layout_of(PartSettings(count=70), wide, 10_000, 4)
    assert (shape.parts, shape.at_once, shape.threads) == (70, 2, 2)
    # with 1,429 rows, 4.4 GB, it fits once
    shape = layout_of(PartSettings(count=7), wide, 10_000, 4)
    assert (shape.parts, shape.at_once, shape.threads) == (7, 1, 4)


def test_a_machine_whose_clock_is_slow_cuts_no_more_parts(place: Place, program: str, tmp_path: Path) -> None:
    study, slow = read_study(place.lay_out(NO_MAPS)), place.folder / "slow"
    slow.write_text(f'#!/bin/sh\nsleep 1\nexec {program} "$@"\n')
    slow.chmod(0o755)
    (tmp_path / "folder/stages").mkdir(parents=True)
    with contextlib.chdir(tmp_path / "folder"):
        inputs = make_inputs(study, Folder(Path(".")), str(slow))
        costs = costs_of(inputs, STOPS, Path("."))
    assert 0 < costs.setup + costs.each < 0.5


def test_more_processes_than_before_stay_within_the_memory() -> None:
    # twenty parts of 500 rows of 1 MB, 1.5 GB with the network, were cut for four at once: 6.4 GB hold four of them
    costs = Costs(setup=0, each=0.01, network=10**9, row=10**6, free=8 * 10**9)
    shape = layout_of(PartSettings(), costs, 10_000, 8, known=20)
    assert (shape.parts, shape.at_once, shape.threads) == (20, 4, 2)
    shape = layout_of(PartSettings(memory=3000), costs, 10_000, 4, known=20)
    assert (shape.parts, shape.at_once, shape.threads) == (20, 2, 2)


def test_how_many_parts_are_done_is_told_with_the_time_that_is_left(
    capsys: pytest.CaptureFixture[str], monkeypatch: pytest.MonkeyPatch
) -> None:
    # a part ends every 61 seconds; the last is not reported
    clock = iter([0.0, 61.0, 122.0, 183.0])
    monkeypatch.setattr("ttm_tools.study.executors.local.time", SimpleNamespace(monotonic=lambda: next(clock)))
    assert list(shown(iter([None] * 3), 3)) == [None] * 3
    printed = ["parts: 1 of 3, about 0:02:02 left", "parts: 2 of 3, about 0:01:01 left"]
    assert capsys.readouterr().err.splitlines() == printed


def test_arrays_name_the_parts_that_are_missing() -> None:
    assert ranges([1, 2, 3, 7, 9, 10]) == "1-3,7,9-10"
    assert Part(12, ["A"], "").matrix == Path("parts/0012/matrix.csv")


def test_one_part_is_computed_where_the_folder_says_so(place: Place, monkeypatch: pytest.MonkeyPatch) -> None:
    study = read_study(place.lay_out(NO_MAPS.replace("count = 4", "count = 4\nkeep = true")))
    make_study(study, place.folder / "nine", ExecutorOptions(2))
    folder, arguments = place.folder / "nine", ["study", "--part", "3", place.path("nine")]
    message = f"ttm-tools study: {folder}: is not the folder of a study with parts to compute: no parts/run.json\n"
    assert place.ran(*arguments) == ("", message, 1)
    inputs = {"words": json.loads((folder / "study.json").read_text())["run"]}
    part = folder / "parts/0003"
    wanted = {name: (part / name).read_bytes() for name in ("matrix.csv", "key")}
    monkeypatch.chdir(folder)
    known = parts_for(STOPS, 4, key_of_study(folder))
    assert [item.key for item in known] == [
        json.loads((folder / f"parts/000{n}/key").read_text())["key"] for n in range(1, 5)
    ]
    write_task(EngineArguments(**inputs["words"]), known, key_of_study(folder), version_of(os.environ["TTM_PROGRAM"]))
    assert place.ran(*arguments) == ("", "", 0)
    (part / "key").unlink()
    (part / "matrix.csv").unlink()
    assert place.ran(*arguments) == ("", "", 0)
    assert {name: (part / name).read_bytes() for name in wanted} == wanted
    write_task(EngineArguments(**inputs["words"]), known, key_of_study(folder), ["ttm 0.0.1"])
    (part / "key").unlink()
    _, said, status = place.ran(*arguments)
    assert (status, "and the study's ttm is another one" in said, (part / "told.txt").exists()) == (1, True, True)
    assert place.ran("study", "--part", "5", place.path("nine"))[1].endswith(": has no part 5, but 1 to 4\n")


def key_of_study(folder: Path) -> str:
    """The sum of a study's inputs, words and version, as its stage of days has it."""
    inputs = make_inputs(read_study(str(folder.with_suffix(".toml"))), Folder(Path(".")), os.environ["TTM_PROGRAM"])
    return study_key(inputs, version_of(os.environ["TTM_PROGRAM"]))


FACTS = """\
ttm: stops: 3
ttm: runs on 2026-05-05: 0
ttm: warning: no trip runs on the date itself; is it a date of the feed's calendar?
ttm: dates of the calendars: 2026-05-04 to 2026-05-31
ttm: nearest date with runs before it: none
ttm: nearest date with runs after it: none in 366 days
ttm: rows done: 2 of 3, 66 percent, about 0:00:00 left
"""


@pytest.mark.parametrize("facts", ["", FACTS, "ttm: dates of the calendars: none\n"])
@pytest.mark.parametrize(
    "fault",
    [
        "ttm: stop_times.txt: record 3: bad time\n",
        'ttm: calendar.txt: record 2: bad time\nttm: column start_date is "2026: 1"; a date is YYYYMMDD\n',
        "ttm: stops.txt: record 1: missing column\nttm: the header lacks column stop_id; it has stop_name\n",
        'ttm: bad window\nttm: --from is "8:00"; a time of day is HH:MM, 00:00 to 23:59\n',
        'ttm: stops.txt: missing file\nttm: folder "a" has b\nttm: folder "a/b" has stops.txt; is it the feed\'s?\n',
        "ttm: scenario name: 13\nttm: each scenario file has a name of its own, which isn't empty and isn't base\n",
        "ttm: unfinished: scenario 0, origin 3\n",
    ],
)
def test_a_fault_is_told_with_what_explains_it_and_without_the_report(facts: str, fault: str) -> None:
    assert error_line(f"{facts}{fault}".encode(), 2) == "; ".join(fault.splitlines())


def test_a_run_that_says_nothing_of_its_end_is_told_by_its_last_line_or_its_status() -> None:
    assert error_line(FACTS.encode(), -9) == "ttm: rows done: 2 of 3, 66 percent, about 0:00:00 left"
    assert error_line(b"\n", -9) == "ttm ended with status -9 and printed nothing"
