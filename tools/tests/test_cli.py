"""The command line: help, wrong words, and faults in one line."""

import argparse
import importlib.util
import re
import shutil
import subprocess
import sys
from pathlib import Path

import pytest

from helpers import LAUNCHER, Room, Town, launched, town_matrix
from ttm_tools import cli
from ttm_tools.core import errors
from ttm_tools.core.text import first_few

NO_PACKAGES = """
import sys
sys.path.insert(0, sys.argv[1])
class Refuse:
    def find_spec(self, name, *_):
        if name.split(".")[0] in ("numpy", "pandas", "matplotlib", "h5py", "geopandas", "scipy", "tqdm", "jinja2"):
            raise ImportError(name)
sys.meta_path.insert(0, Refuse())
from ttm_tools.cli import main
sys.exit(main(sys.argv[2:]))
"""


def commands() -> dict[str, argparse.ArgumentParser]:
    actions = cli.parser_of()._actions
    return next(dict(action.choices) for action in actions if isinstance(action, argparse._SubParsersAction))


@pytest.mark.parametrize("name", cli.COMMANDS)
def test_each_command_says_what_it_takes(name: str) -> None:
    source = LAUNCHER.replace("ttm-tools", "src")
    arguments = [sys.executable, "-c", NO_PACKAGES, source, name, "--help"]
    ran = subprocess.run(arguments, capture_output=True, text=True)
    assert (ran.returncode, ran.stderr) == (0, "")
    assert ran.stdout.startswith(f"usage: ttm-tools {name} ")


@pytest.mark.parametrize("name", cli.COMMANDS)
def test_each_option_says_its_range_and_what_holds_without_it(name: str) -> None:
    for action in commands()[name]._actions:
        printed = action.help or ""
        assert printed
        if action.option_strings and action.dest != "help":
            assert any(word in printed for word in ("(default ", "(without it, ", "needed)")), action.option_strings
        if action.type is not None and action.metavar != "FILE" and action.dest != "breaks":
            assert " to " in printed, action.option_strings


def test_the_launcher_runs_from_anywhere(room: Room) -> None:
    ran = subprocess.run([LAUNCHER, "--help"], capture_output=True, text=True, cwd=room.folder)
    assert (ran.returncode, ran.stderr) == (0, "")
    assert all(name in ran.stdout for name in cli.COMMANDS)


def test_a_package_that_is_not_there_is_told_in_a_line() -> None:
    with pytest.raises(errors.MissingDependencyError) as raised:
        errors.needs("csv", "nosuchpackage")
    way = "apt-get install python3-nosuchpackage and use /usr/bin/python3, or pip install nosuchpackage"
    assert str(raised.value) == f"this Python, {sys.executable}, has no nosuchpackage: {way}"


@pytest.mark.parametrize("arguments", [["study", "town.toml"], ["study", "--verify", "town"]], ids=["run", "verify"])
def test_a_study_says_what_it_lacks_before_it_reads_anything(
    arguments: list[str], monkeypatch: pytest.MonkeyPatch, capsys: pytest.CaptureFixture[str]
) -> None:
    found = importlib.util.find_spec
    monkeypatch.setattr(importlib.util, "find_spec", lambda name: None if name == "matplotlib" else found(name))
    assert cli.main(arguments) == 1
    said = capsys.readouterr().err
    assert said.startswith(f"ttm-tools study: this Python, {sys.executable}, has no matplotlib: ")
    assert said.count("\n") == 1


def test_wrong_words_have_the_status_2(town: Town) -> None:
    town.matrix(town_matrix(True))
    wrong: list[list[str]] = [
        [],
        ["nothing"],
        ["compare", "--limit", "x", town.file],
        ["compare", "--limit", "-1", town.file],
        ["compare", "--share", "0", town.file],
        ["map", "times", "--feed", town.feed, town.file],
        ["map", "access", "--feed", town.feed, "--width", "200", town.file],
        ["map", "access", "--feed", town.feed, "--breaks", "2,1", town.file],
        ["long", "--within", "60", town.file],
        ["long", "--access", "--names", "r5py", town.file],
        ["gis", "--feed", town.feed, "--out", town.path("a.shp"), town.file],
        ["split", "--feed", town.feed, "--origins", "x"],
    ]
    for arguments in wrong:
        out, errors, status = town.ran(*arguments)
        assert (out, status) == ("", 2), arguments
        assert errors.splitlines()[-1].startswith("ttm-tools"), arguments


def test_no_words_at_all_list_the_commands() -> None:
    ran = launched()
    lines = ran.stderr.decode().splitlines()
    assert (ran.returncode, ran.stdout) == (2, b"")
    assert lines[-1] == "ttm-tools: error: the following arguments are required: COMMAND"
    assert {line.split()[0] for line in lines if line.startswith("    ") and line.split()} >= set(cli.COMMANDS)
    assert "a feed that ttm reads, from published feeds" in ran.stderr.decode()


def test_a_range_is_told_with_its_unit() -> None:
    ran = launched("compare", "--share", "101", "m.csv")
    assert ran.returncode == 2
    assert ran.stderr.splitlines()[-1].endswith(b"argument --share: '101' is not 1 to 100 percent")


def test_an_output_that_cannot_be_written_is_told(town: Town) -> None:
    town.matrix(town_matrix(True))
    out, errors, status = town.ran("compare", "--out", town.path("no/such.csv"), town.file)
    assert (out, status) == ("", 1)
    assert errors.startswith("ttm-tools compare: ") and errors.endswith(": No such file or directory\n")


def test_a_full_disk_is_told_and_leaves_nothing(town: Town) -> None:
    town.matrix(town_matrix(True))
    with open("/dev/full", "wb") as full:
        ran = subprocess.run([sys.executable, LAUNCHER, "long", town.file], stdout=full, stderr=subprocess.PIPE)
    assert (ran.returncode, ran.stderr) == (1, b"ttm-tools long: output: No space left on device\n")


def test_a_reader_that_has_gone_ends_it_in_silence(town: Town) -> None:
    town.matrix(town_matrix(True, stops=[f"s{number}" for number in range(4)]))
    arguments = f"{sys.executable} {LAUNCHER} long {town.file} | true"
    ran = subprocess.run(["sh", "-c", arguments], capture_output=True)
    assert ran.stderr == b""


def test_out_of_memory_has_the_status_3(town: Town, monkeypatch: pytest.MonkeyPatch) -> None:
    def run(_: argparse.Namespace) -> int:
        raise MemoryError

    assert cli.status_of(argparse.Namespace(command="map", run=run)) == 3


def test_an_option_that_is_none_is_told_with_the_usage_of_its_command(room: Room) -> None:
    _, errors, status = room.ran("page", "--feed", "a", "matrix.csv", "--wthin", "3")
    assert status == 2 and errors.startswith("usage: ttm-tools page ") and "unrecognized arguments: --wthin" in errors


def test_a_limit_is_in_minutes_or_in_seconds_as_ttm_has_it(town: Town) -> None:
    town.matrix(town_matrix(True, limits=(900, 1800)))
    arguments = ["compare", "--by", "origin", town.file]
    found = [
        town.ran(*arguments, *options) for options in (["--within", "900"], ["--cutoff", "15"], ["--cutoffs", "15"])
    ]
    assert found[0][2] == 0 and found[0] == found[1] == found[2]
    town.write("jobs.csv", "stop_id,jobs", [["A", 7], ["D", 8]])
    arguments = ["access", "--opportunities", town.path("jobs.csv"), town.file]
    found = [town.ran(*arguments, *options) for options in (["--cutoffs", "15,30"], ["--within", "900,1800"])]
    assert found[0][2] == 0 and found[0] == found[1]


def test_some_of_many_names_are_told_with_how_many_more() -> None:
    assert first_few(["a", "b", "c", "d"]) == "a, b, c, d"
    assert first_few([f"c{n}" for n in range(1234)]) == "c0, c1, c2, c3 and 1,230 more"


def test_the_version_is_that_of_the_changelog() -> None:
    changelog = (Path(LAUNCHER).parents[1] / "CHANGELOG.md").read_text(encoding="utf-8")
    newest = re.search(r"^## (\S+)", changelog, re.MULTILINE)
    assert newest and launched("--version").stdout.decode() == f"ttm-tools {newest[1]}\n"


def test_pip_builds_the_package_without_network(room: Room) -> None:
    if not all(map(importlib.util.find_spec, ("pip", "setuptools", "wheel"))):
        pytest.skip("without pip, setuptools or wheel")
    tools, copy, out = Path(LAUNCHER).parent, room.folder / "tools", room.path("there")
    shutil.copytree(tools / "src", copy / "src")  # setuptools writes next to the sources
    for name in ("pyproject.toml", "setup.py"):
        shutil.copy(tools / name, copy)
    arguments = ["install", "--no-index", "--no-deps", "--no-build-isolation", "--disable-pip-version-check"]
    command = [sys.executable, "-m", "pip", *arguments, "--target", out, str(copy)]
    ran = subprocess.run(command, capture_output=True, text=True)
    assert ran.returncode == 0, ran.stderr
    result = {str(path.relative_to(out)) for path in Path(out).rglob("*") if path.is_file() and path.suffix != ".pyc"}
    own = {
        f"ttm_tools/{path.relative_to(tools / 'src' / 'ttm_tools')}"
        for path in (tools / "src" / "ttm_tools").rglob("*")
        if path.is_file() and path.suffix != ".pyc"
    }
    assert own <= result and "bin/ttm-tools" in result
