"""A study loses nothing that it didn't write, runs nothing that a name says, and attests what it read."""

import contextlib
import json
import os
import shutil
import signal
import subprocess
import sys
from pathlib import Path
from typing import Any, Callable, Sequence

import pytest

from helpers import LAUNCHER, Room
from test_study import NO_MAPS, STOPS, STUDY, Place
from ttm_tools.core.errors import InputError
from ttm_tools.core.filenames import file_names
from ttm_tools.core.files import atomic_folder, sha256_of_file
from ttm_tools.engine.arguments import EngineArguments
from ttm_tools.study import counted, inputs as study_inputs, stages
from ttm_tools.study.executors.hosts import command
from ttm_tools.study.executors.task import SCRIPT, write_task
from ttm_tools.study.parts import Part
from ttm_tools.study.study_file import read_study

for _package in ("h5py", "pandas", "matplotlib"):
    pytest.importorskip(_package)

HOSTILE = (
    "with spaces",
    "a$(touch y)b",
    "`touch y`",
    "a;touch y",
    "a'b\"c",
    "{}{.}{#}",
    "{= system 'touch y' =}",
    "-n",
    "a\nb",
)


@pytest.fixture
def place(
    tmp_path: Path, capsysbinary: pytest.CaptureFixture[bytes], program: str, monkeypatch: pytest.MonkeyPatch
) -> Place:
    monkeypatch.setenv("TTM_PROGRAM", program)
    return Place(tmp_path, capsysbinary)


@pytest.fixture
def bare(tmp_path: Path, capsysbinary: pytest.CaptureFixture[bytes]) -> Place:
    return Place(tmp_path, capsysbinary)


def contents(folder: Path) -> dict[str, bytes]:
    return {str(path.relative_to(folder)): path.read_bytes() for path in folder.rglob("*") if path.is_file()}


PLANTED = ("csv.py", "numpy.py", "argparse.py", "ttm_tools.py", "tomllib/__init__.py")


def plant(folder: Path, mark: Path, names: Sequence[str] = PLANTED) -> None:
    """Writes Python modules into a folder, under names that the tools import, that leave a mark when they are run."""
    for name in names:
        (folder / name).parent.mkdir(exist_ok=True)
        (folder / name).write_text(f"open({str(mark)!r}, 'a').write({name!r})\n")


def test_a_part_runs_no_module_that_lies_in_the_folder_of_the_study(tmp_path: Path) -> None:
    study, mark = tmp_path / "study", tmp_path / "ran"
    (study / "parts").mkdir(parents=True)
    plant(study, mark)
    run = EngineArguments(
        "feed", "2026-05-04", ("08:00", "08:00"), files={"origins": "origins.csv"}, program="/bin/false"
    )
    write_task(run, [Part(1, ["A"], "key", study=study)], "key", ["ttm 0.1.0"])
    ran = subprocess.run(["sh", study / SCRIPT, "1"], cwd=study, capture_output=True, text=True)
    assert not mark.exists(), mark.read_text()
    assert (ran.returncode, ran.stdout) == (1, "") and "origins.csv: No such file" in ran.stderr, ran.stderr


@pytest.mark.parametrize("words", [["walks", "."], ["prepare", "--check", "."], ["study", "study.toml"]])
def test_the_module_runs_no_module_that_lies_in_the_working_directory(tmp_path: Path, words: list[str]) -> None:
    folder, mark = tmp_path / "data", tmp_path / "ran"
    folder.mkdir()
    plant(folder, mark, [name for name in PLANTED if name != "ttm_tools.py"])  # -m itself finds that one
    how = {**os.environ, "PYTHONPATH": str(Path(LAUNCHER).parent / "src")}
    called = [sys.executable, "-m", "ttm_tools", *words]
    ran = subprocess.run(called, cwd=folder, env=how, capture_output=True, text=True)
    assert not mark.exists(), mark.read_text()
    assert (ran.returncode, ran.stderr.count("\n")) == (1, 1), ran.stderr


def test_no_path_of_the_machine_is_in_what_is_sent_on(place: Place) -> None:
    """People far away are reported by the name of their file, as the study's file has it."""
    points = '[points]\ngrid = 400\ngrid_people = ["homes.csv"]\n'
    named = '[opportunities]\nfiles = ["jobs.csv"]\ncolumn = "jobs"\npeople = "people.csv"\n'
    path = place.lay_out(NO_MAPS.replace(named, points).replace("csv = true", "compare = false"))
    place.write("homes.csv", "id,lat,lon,people", [["far", 50, 3, 9], ["farther", 51, 3, 7]])
    assert place.ran("study", path)[2] == 0
    line = "homes.csv: 16 of 16 people are outside all cells"
    for name in ("report.md", "report.html", "study.json"):
        text = (place.folder / "nine" / name).read_text().replace("\\", "")
        assert line in text and str(place.folder) not in text, name


@pytest.mark.parametrize("name", ["maps/mine.png", "inputs/feed/stops.txt", "parts/0001/matrix.csv", "notes.txt"])
def test_a_folder_with_files_of_a_person_is_refused(bare: Place, name: str) -> None:
    path = bare.lay_out()
    file = bare.folder / "nine" / name
    file.parent.mkdir(parents=True)
    file.write_text("mine")
    before = contents(bare.folder)
    choices: list[list[str]] = [[], ["--out", bare.path("nine")]]
    for arguments in choices:
        _, said, status = bare.ran("study", path, *arguments)
        line = f"{bare.path('nine')}: isn't empty, and isn't the folder of a study: name a new one with --out"
        assert (said, status) == (f"ttm-tools study: {line}\n", 1)
        assert contents(bare.folder) == before


def test_what_a_study_did_not_write_is_never_replaced(place: Place) -> None:
    path = place.lay_out(STUDY.replace("csv = true", "maps = true"))
    assert place.ran("study", path)[2] == 0
    folder = place.folder / "nine"
    mine = {"maps/mine.png", "parts/mine/notes.txt", "compare_more.csv", "inputs/scenarios/mine.csv"}
    for name in mine:
        (folder / name).parent.mkdir(parents=True, exist_ok=True)
        (folder / name).write_text("mine")
    shutil.copyfile(place.path("cut.csv"), place.path("more.csv"))
    place.say(STUDY.replace("csv = true", "maps = true").replace('["cut.csv"]', '["cut.csv", "more.csv"]'))
    for name in ("inputs/scenarios/mine.csv", "compare_more.csv", "maps/mine.png"):
        _, said, status = place.ran("study", path)
        line = f"{name}: doesn't belong to this study, which would replace it: move it elsewhere"
        assert (said.splitlines()[-1], status) == (f"ttm-tools study: {line}", 1)
        assert all((folder / item).read_text() == "mine" for item in mine)
        (folder / name).unlink()
        mine.remove(name)
    _, said, status = place.ran("study", path)
    assert status == 0, said
    assert (folder / "parts/mine/notes.txt").read_text() == "mine"
    assert sorted(path.name for path in (folder / "parts").iterdir()) == ["mine"]


@pytest.mark.parametrize("moment", ["before", "within", "after"])
def test_what_is_put_into_a_folder_that_a_kill_left_is_never_removed(
    tmp_path: Path, monkeypatch: pytest.MonkeyPatch, moment: str
) -> None:
    """The kill comes while a stage writes its maps, before or after they have their names."""
    monkeypatch.chdir(tmp_path)
    Path("stages").mkdir()
    folder = stages.Folder(Path("."))

    def stage(kill: str) -> stages.Stage:
        def make() -> list[str]:
            if kill == "before":
                os.kill(os.getpid(), signal.SIGKILL)
            with atomic_folder("maps") as aside:
                (aside / "access.png").write_text("drawn")
                if kill == "within":
                    os.kill(os.getpid(), signal.SIGKILL)
            if kill == "after":
                os.kill(os.getpid(), signal.SIGKILL)
            return []

        return stages.Stage("maps", {}, ["maps"], make)

    for _ in range(2):  # the folder is new, or that of a stage that was done
        child = os.fork()
        if child == 0:
            folder.do(stage(moment))
        assert os.waitstatus_to_exitcode(os.waitpid(child, 0)[1]) == -signal.SIGKILL
        Path("maps").mkdir(exist_ok=True)
        Path("maps/mine.png").write_text("mine")
        with pytest.raises(InputError, match="maps/mine.png: doesn't belong to this study"):
            folder.do(stage("never"))
        assert Path("maps/mine.png").read_text() == "mine"
        Path("maps/mine.png").unlink()
        folder.do(stage("never"))
        assert contents(Path("maps")) == {"access.png": b"drawn"} and not list(Path("stages").glob("*.begun"))
        Path("maps/access.png").write_text("other")


def test_a_kill_while_old_outputs_are_removed_leaves_the_study_its_own(
    tmp_path: Path, monkeypatch: pytest.MonkeyPatch
) -> None:
    monkeypatch.chdir(tmp_path)
    Path("stages").mkdir()
    folder = stages.Folder(Path("."))

    def make() -> list[str]:
        with atomic_folder("maps") as aside:
            (aside / "access.png").write_text("drawn")
        return []

    folder.do(stages.Stage("maps", {}, ["maps"], make))
    child = os.fork()
    if child == 0:
        monkeypatch.setattr("ttm_tools.study.stages.remove", lambda _: os.kill(os.getpid(), signal.SIGKILL))
        folder.do(stages.Stage("maps", {"new": 1}, ["maps"], make))
    assert os.waitstatus_to_exitcode(os.waitpid(child, 0)[1]) == -signal.SIGKILL
    folder.do(stages.Stage("maps", {"new": 1}, ["maps"], make))


def test_hosts_find_the_folder_whatever_it_is_called(room: Room) -> None:
    for name in HOSTILE:
        folder = room.folder / name
        (folder / "parts").mkdir(parents=True)
        (folder / "parts/one_part.sh").write_text('printf %s "$1" > "made_$1"\n')
        arguments = command(str(folder)).replace("{}", "7")
        for shell in filter(shutil.which, ("sh", "bash", "csh", "zsh")):
            (folder / "made_7").unlink(missing_ok=True)
            subprocess.run([shell, "-c", arguments], cwd=room.folder, check=True)
            assert (folder / "made_7").read_text() == "7"
        if shutil.which("parallel"):
            called = ["parallel", "--sshlogin", "2/:", command(str(folder)), ":::", "1", "2"]
            subprocess.run(called, cwd=room.folder, check=True, stdin=subprocess.DEVNULL)
            assert (folder / "made_1").exists() and (folder / "made_2").exists()
    assert not [path for path in room.folder.rglob("y")]


@pytest.mark.parametrize("name", HOSTILE)
def test_a_study_in_a_folder_of_any_name_is_made_by_slurm_and_by_hosts(
    place: Place, name: str, monkeypatch: pytest.MonkeyPatch
) -> None:
    place.lay_out(NO_MAPS)
    tools = place.folder / "bin"
    tools.mkdir()
    (tools / "squeue").write_text("#!/bin/sh\n")
    (tools / "sbatch").write_text(
        '#!/bin/sh\nfor last; do :; done\nfor n in 1 2 3 4; do SLURM_ARRAY_TASK_ID=$n sh "$last" >&2; done\necho 1\n'
    )
    for tool in tools.iterdir():
        tool.chmod(0o755)
    monkeypatch.setenv("PATH", f"{tools}:{os.environ['PATH']}")
    monkeypatch.setattr("ttm_tools.study.executors.remote.SECONDS_BETWEEN_LOOKS", 0.1)
    ways = [["--slurm"], *([["--hosts", "2/:"]] if shutil.which("parallel") else [])]
    for way in ways:
        out = place.folder / "outs" / way[0].strip("-") / name
        _, said, status = place.ran("study", place.path("nine.toml"), "--out", str(out), *way)
        assert status == 0, said
        assert (out / "matrix.csv").exists()
    assert not [path for path in place.folder.rglob("y")]


def changed_during(monkeypatch: pytest.MonkeyPatch, name: str, change: Callable[[], object]) -> None:
    """Has something happen when a function of the inputs is called, once."""
    module = study_inputs if hasattr(study_inputs, name) else counted
    whole = getattr(module, name)

    def called(*arguments: Any, **more: Any) -> Any:
        monkeypatch.setattr(module, name, whole)
        result = whole(*arguments, **more)
        change()
        return result

    monkeypatch.setattr(module, name, called)


@pytest.mark.parametrize("file", ["jobs.csv", "people.csv", "cut.csv", "published/stop_times.txt"])
def test_a_source_that_changes_while_it_is_read_ends_the_stage(
    place: Place, file: str, monkeypatch: pytest.MonkeyPatch
) -> None:
    path = place.lay_out(NO_MAPS)
    source = place.folder / file

    def change() -> str:
        source.write_bytes(source.read_bytes() + b"\n")
        return "changed"

    function = {"cut.csv": "copy_file", "published/stop_times.txt": "days_of"}.get(file, "read_counts")
    if file == "published/stop_times.txt":
        monkeypatch.setattr("ttm_tools.prepare.make.run_lines", lambda *_: [change()])
    elif file == "people.csv":
        monkeypatch.setattr(counted, "write_counts", noted(counted.write_counts, counted.PEOPLE, change))
    else:
        changed_during(monkeypatch, function, change)
    _, said, status = place.ran("study", path)
    line = f"{source}: changed while the study read it; the same command reads it again"
    assert (said.splitlines()[-1], status) == (f"ttm-tools study: {line}", 1)
    monkeypatch.undo()


def noted(write: Callable[..., None], wanted: str, change: Callable[[], object]) -> Callable[..., None]:
    def called(path: Path, *arguments: Any) -> None:
        write(path, *arguments)
        if path.as_posix().endswith(f"/{wanted}"):
            change()

    return called


def test_the_sums_that_are_stated_are_those_that_were_read(place: Place, monkeypatch: pytest.MonkeyPatch) -> None:
    path = place.lay_out(NO_MAPS)
    was = sha256_of_file(place.path("jobs.csv"))
    whole = stages.Folder.do

    def do(self: Any, stage: Any) -> Any:
        if stage.name == "report":
            place.write("jobs.csv", "stop_id,jobs,schools", [[stop, 1, 1] for stop in STOPS])
            Path(path).write_text(NO_MAPS.replace("Nine stops", "Ten stops"))
        return whole(self, stage)

    monkeypatch.setattr(stages.Folder, "do", do)
    assert place.ran("study", path)[2] == 0
    notes = json.loads((place.folder / "nine/study.json").read_text())
    assert notes["sources"]["jobs.csv"] == was and "Nine stops" in notes["study_file"]
    assert was in (place.folder / "nine/report.md").read_text()
    _, said, status = place.ran("study", "--verify", place.path("nine"))
    line = "../jobs.csv: has another checksum than study.json says: it was changed since the study read it"
    assert (said.splitlines()[-1], status) == (f"ttm-tools study: {line}", 1)


def test_inputs_that_change_while_ttm_runs_end_the_stage(
    place: Place, program: str, monkeypatch: pytest.MonkeyPatch
) -> None:
    path, bad = place.lay_out(NO_MAPS), place.folder / "bad"
    text = f'#!/bin/sh\ncase "$*" in *parts/0002/*) echo >> inputs/footpaths.csv ;; esac\nexec {program} "$@"\n'
    bad.write_text(text)
    bad.chmod(0o755)
    monkeypatch.setenv("TTM_PROGRAM", str(bad))
    _, said, status = place.ran("study", path)
    line = "inputs/footpaths.csv: changed while ttm read it; the same command makes it again"
    assert (said.splitlines()[-1], status) == (f"ttm-tools study: {line}", 1)


@pytest.mark.parametrize("is_absolute", [False, True])
def test_verification_finds_a_changed_source_by_its_path_as_the_study_gives_it(place: Place, is_absolute: bool) -> None:
    given = place.path("jobs.csv") if is_absolute else "jobs.csv"
    path = place.lay_out(NO_MAPS.replace('"jobs.csv"', f'"{given}"'))
    assert place.ran("study", path)[2] == 0
    _, said, status = place.ran("study", "--verify", place.path("nine"), "--seed", "7")
    assert status == 0 and "no longer exist" not in said
    place.write("jobs.csv", "stop_id,jobs,schools", [[stop, 1, 1] for stop in STOPS])
    _, said, status = place.ran("study", "--verify", place.path("nine"), "--seed", "7")
    source = given if is_absolute else "../jobs.csv"
    line = f"{source}: has another checksum than study.json says: it was changed since the study read it"
    assert (said.splitlines()[-1], status) == (f"ttm-tools study: {line}", 1)


def test_verification_tells_files_beside_the_stated_ones_and_sources_that_are_gone(place: Place) -> None:
    assert place.ran("study", place.lay_out(NO_MAPS))[2] == 0
    (place.folder / "nine/maps").mkdir()
    (place.folder / "nine/maps/mine.png").write_text("mine")
    (place.folder / "people.csv").unlink()
    _, said, status = place.ran("study", "--verify", place.path("nine"), "--seed", "7")
    lines = said.splitlines()
    assert status == 0 and "maps/mine.png: exists, and study.json doesn't list it" in lines
    assert any(line.endswith(" files no longer exist: ../people.csv") for line in lines)


def test_a_broken_log_is_read_as_far_as_it_is_whole(place: Place) -> None:
    path = place.lay_out(NO_MAPS)
    assert place.ran("study", path)[2] == 0
    with open(place.folder / "nine/stages/log.jsonl", "ab") as file:
        file.write(b'5\n[]\n{}\n{"kind": 1}\n\xff\n' + b"[" * 9000 + b'\n{"kind": "part"')
    (place.folder / "nine/study.json").unlink()  # it is written again, with the times of the log
    assert place.ran("study", path)[2] == 0
    assert "matrix" in json.loads((place.folder / "nine/study.json").read_text())["times"]["seconds"]


def test_files_of_names_never_meet() -> None:
    names = ["a", "a_pairs", "A", "a/b", "a_b", "é" * 200, "é" * 201, "..", ".", "", "x" * 245, "x" * 246]
    result = file_names(names, ("", "_pairs"))
    files = [f"{item}{end}".casefold() for item in result.values() for end in ("", "_pairs")]
    assert len(set(files)) == len(files) == 2 * len(names)
    assert all(len(file.encode()) < 120 and "/" not in file and not file.startswith(".") for file in files)
    assert result["a"] == "a" and result["x" * 245] != result["x" * 246]


def test_scenarios_of_long_and_like_names_have_files_of_their_own(place: Place) -> None:
    names = ["a", "a_pairs", "x" * 245]
    for name in names:
        shutil.copyfile(
            place.path("cut.csv") if place.folder.joinpath("cut.csv").exists() else place.lay_out(), place.path("any")
        )
    text = NO_MAPS.replace('["cut.csv"]', json.dumps([f"{name}.csv" for name in names])).replace(
        "csv = true", "pairs = true"
    )
    place.say(text)
    for name in names:
        shutil.copyfile(place.path("cut.csv"), place.path(f"{name}.csv"))
    _, said, status = place.ran("study", place.path("nine.toml"))
    assert status == 0, said
    assert f"files of {'x' * 245} are named {'x' * 80}_" in said
    result = sorted(path.name for path in (place.folder / "nine").glob("compare_*"))
    assert len(result) == 6


def test_links_of_a_ready_feed_do_not_lead_out_of_it(bare: Place) -> None:
    path = bare.lay_out(STUDY.replace('files = ["published"]', 'files = ["published"]\nready = true'))
    (bare.folder / "published/shapes.txt").symlink_to("../jobs.csv")
    (bare.folder / "made").mkdir()
    with pytest.raises(InputError, match="leads out of the folder"), contextlib.chdir(bare.folder / "made"):
        study_inputs.taken(str(bare.folder / "published"), bare.folder / "made")
    assert read_study(path).feed.ready


PLAN = """
[[stop]]
id = "new"
name = "New"
lat = 50.002
lon = 7.0
[[scenario]]
name = "more"
[[scenario.action]]
do = "add_line"
route = "N"
stops = ["S0", "new", "S8"]
speed = 30
departures = [{ first = "08:00", last = "08:00", every = 60 }]
days = "daily"
"""


@pytest.mark.parametrize("walks", ["limit = 300", 'table = "walks.csv"'])
def test_walks_that_bring_old_stops_nearer_are_told_by_a_study(place: Place, walks: str) -> None:
    place.lay_out()
    (place.folder / "plan.toml").write_text(PLAN)
    place.write("walks.csv", "from_stop_id,to_stop_id,seconds", [["S0", "new", 100], ["new", "S1", 100]])
    study = NO_MAPS.replace('files = ["cut.csv"]', 'plan = "plan.toml"').replace(
        "[results]", f"[walks]\n{walks}\n[results]"
    )
    _, said, status = place.ran("study", place.say(study.replace("limits =", "walk = 600\nlimits =")))
    assert status == 0, said
    line = "  walks to new stops bring "
    assert [
        text for text in said.splitlines() if text.startswith(line) and text.endswith(" and out of reach without them")
    ], said
    assert line.strip() in (place.folder / "nine/report.md").read_text()
