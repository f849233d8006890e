"""Tests of the gate: what it runs and counts, which planted bugs it tries, and that a bug that proves makes it fail.

Most run over a stand-in for `rt`; the last goes through the toolchain itself.
"""

from __future__ import annotations

import re
from pathlib import Path

import pytest

import edits
import gate
import lock
import planted
import progress
from small_repository import LOWER, Repository

# what stands in for `rt`: it refuses each edit that adds another number, and notes what it was asked
STAND_IN = """#!/bin/sh
crate=$(basename "$PWD")
echo "$1 $crate" >> "$RT_LOG"
case $1 in
version)
    echo "kit 1" ;;
ci)
    echo "rt ci sees $(ls crates/*/must-fail/*.edit | wc -l) edits and lists $(cut -d: -f1 crates.txt | tr '\\n' ' ')"
    echo "5 passed, 0 failed" ;;
try)
    if grep -q 'count + 1' src/lib.rt; then
        echo "test result: ok. 3 passed; 0 failed; 0 ignored; 0 filtered out"
    else
        echo "test result: FAILED. 1 passed; 2 failed; 0 ignored; 0 filtered out"
        exit 4
    fi ;;
check)
    if grep -q 'count + [2-9]' src/lib.rt; then
        if grep -q 'count + 9' src/lib.rt; then
            echo 'proofs/bump/Answers.antt:7:46: error: module `Goals` has no `then-count`'
        fi
        echo "fn $crate::bump: not proved"
        echo "logic=not-proved"
    else
        echo "fn $crate::bump: proved"
        echo "logic=proved"
    fi ;;
esac
"""

TWICE = (
    LOWER
    + """
/// Two more.
pub fn twice(count: u32) -> u32
    requires { count < 500 }
    ensures { result ≡ count + 2 }
{
    bump(bump(count))
}
"""
)
TESTED = LOWER + "\n#[cfg(test)]\nmod tests {\n    #[test]\n    fn counts() {}\n}\n"

PROVES = "file: src/lib.rt\nold:     count + 1\nnew:     1 + count\n"
ONCE = "file: src/lib.rt\nold:     bump(bump(count))\nnew:     bump(count)\n"
UNKNOWN_NAME = "file: src/lib.rt\nold:     count + 1\nnew:     counts + 1\n"
UNREADABLE = "file: src/lib.rt\nold:     bump(bump(count))\nnew:     bump(bump(count)\n"
SLOWEST = "the slowest parts, in processor time:"
SCRIPT = "import os, sys\nprint(f'{len(sys.argv)} passed, 0 failed, 2 skipped')\n"


class Run:
    """What a run of the gate came to: its exit status, its lines, and what it asked of `rt`."""

    def __init__(self, status: int, lines: list[str], log: Path) -> None:
        self.status, self.lines = status, lines
        self.calls = log.read_text().splitlines() if log.is_file() else []
        log.unlink(missing_ok=True)


class Gate:
    """The gate over four crates: `upper` stands on `lower`, `one` and `two` on nothing; `rt` is the stand-in."""

    def __init__(self, folder: Path, capsys: pytest.CaptureFixture[str]) -> None:
        self.folder, self.capsys = folder, capsys
        self.repository = Repository(folder / "repository", {"lower": "", "upper": "lower", "one": "", "two": ""})
        self.stand_in(STAND_IN)

    def stand_in(self, text: str) -> None:
        (self.folder / "bin").mkdir(exist_ok=True)
        (self.folder / "bin/rt").write_text(text)
        (self.folder / "bin/rt").chmod(0o755)

    def run(self, *arguments: str) -> Run:
        status = gate.run(self.repository.root, list(arguments))
        return Run(status, self.capsys.readouterr().out.splitlines(), self.folder / "log")


@pytest.fixture
def small(tmp_path: Path, monkeypatch: pytest.MonkeyPatch, capsys: pytest.CaptureFixture[str]) -> Gate:
    monkeypatch.setenv("PATH", f"{tmp_path / 'bin'}:/usr/bin:/bin")
    monkeypatch.setenv("RT_LOG", str(tmp_path / "log"))
    monkeypatch.setattr(progress, "work", lambda: progress.WORK)
    monkeypatch.setenv("XDG_CACHE_HOME", str(tmp_path / "cache"))
    return Gate(tmp_path, capsys)


def test_rt_ci_sees_the_repository_whole(small: Gate) -> None:
    run = small.run()
    assert (run.status, run.lines[-1]) == (0, f"{5 + 4} passed, 0 failed")
    assert "rt ci sees 4 edits and lists lower upper one two " in run.lines
    assert run.calls[0] == "ci repository"


def test_anew_is_handed_to_rt_ci(small: Gate) -> None:
    small.stand_in(STAND_IN.replace("ci)\n", 'ci)\n    echo "asked of rt: $*"\n'))
    assert "asked of rt: ci --anew" in small.run("--anew").lines
    assert "asked of rt: ci" in small.run().lines


def test_the_gate_says_how_long_it_takes_and_what_took_longest(small: Gate) -> None:
    small.repository.write(gate.CHECKS, SCRIPT)
    lines = small.run().lines
    assert re.fullmatch(r"expected on \d+ processors, if nothing else runs: \d+ min if nothing is kept, .*", lines[0])
    assert any(re.fullmatch(r"-- 0 min of \d+ min at most: \.ci/tools_checks\.py", line) for line in lines)
    assert any(re.fullmatch(r" +\d+ s  \.ci/tools_checks\.py", line) for line in lines[lines.index(SLOWEST) :])


def test_proofs_and_must_fail_edits_are_counted_as_rt_ci_names_them() -> None:
    where = progress.Progress(crates=2, edits=5)
    for line in ("rt: lower proved", "rt: lower: its tests are proved", "rt: lower: trying its must-fail edits (3)"):
        where.read(line)
    assert (where.proved, where.begun) == (1, 3)


def test_the_script_is_counted_and_gets_the_built_programs_next(small: Gate) -> None:
    small.repository.write(gate.CHECKS, SCRIPT)
    run = small.run()
    assert (run.status, run.lines[-1]) == (0, f"{5 + 4 + 1 + 3} passed, 0 failed, 4 skipped")


def test_the_script_runs_when_everything_was_tried(small: Gate) -> None:
    """The script passes as often as `rt` was called before it."""
    script = "import os\nprint(f\"{len(open(os.environ['RT_LOG']).readlines())} passed, 0 failed\")\n"
    small.repository.write(gate.CHECKS, script)
    run = small.run()
    assert run.lines[-1] == f"{5 + 4 + 2 * len(run.calls)} passed, 0 failed"


@pytest.mark.parametrize(
    "ending, closing",
    [
        ('echo "4 passed, 1 failed"; exit 1', "4 passed, 1 failed"),
        ("exit 2", "0 passed, 1 failed"),
        ('echo "5 passed, 0 failed"; exit 1', "5 passed, 1 failed"),
    ],
)
def test_a_proof_that_fails_fails_the_gate(small: Gate, ending: str, closing: str) -> None:
    small.stand_in(STAND_IN.replace("ci)\n", f"ci)\n    {ending}\n"))
    run = small.run()
    assert (run.status, run.lines[-1]) == (1, closing)
    assert run.calls == ["ci repository"]


def test_a_script_that_crashes_fails_the_gate(small: Gate) -> None:
    small.repository.write(gate.CHECKS, "raise ValueError\n")
    run = small.run()
    assert (run.status, run.lines[-1]) == (1, f"{5 + 4} passed, 2 failed")


def test_quick_proves_nothing_and_tries_every_test(small: Gate) -> None:
    for name in ("one", "two"):
        small.repository.write(f"crates/{name}/src/lib.rt", TESTED)
    small.repository.write("crates/ttm/src/lib.rt", LOWER)
    small.repository.write(gate.CHECKS, SCRIPT)
    run = small.run("--quick")
    assert (run.status, run.lines[-1]) == (0, f"{1 + 3 + 3 + 2} passed, 0 failed, 2 skipped")
    assert sorted(run.calls) == ["try one", "try ttm", "try two"]


def test_quick_fails_where_a_test_fails(small: Gate) -> None:
    small.repository.write("crates/one/src/lib.rt", TESTED.replace("count + 1", "count"))
    small.repository.write("crates/ttm/src/lib.rt", LOWER)
    run = small.run("--quick")
    assert (run.status, run.lines[-1]) == (1, "2 passed, 2 failed")


def crates_tried(run: Run) -> set[str]:
    return {call.split()[1] for call in run.calls if call.startswith("check ")}


def test_planted_bugs_of_all_crates_are_tried_and_noted(small: Gate) -> None:
    run = small.run("--planted")
    assert (run.status, run.lines[-1], crates_tried(run)) == (0, "4 passed, 0 failed", {"lower", "upper", "one", "two"})
    assert lock.locked(small.repository.root) == lock.digests(small.repository.root)


def test_planted_bugs_of_one_crate_are_tried_and_noted(small: Gate) -> None:
    run = small.run("--planted", "upper")
    assert (run.status, run.lines[-1], crates_tried(run)) == (0, "1 passed, 0 failed", {"upper"})
    assert list(lock.locked(small.repository.root)) == ["upper"]


@pytest.mark.parametrize(
    "file, old, new, tried",
    [
        ("one/src/lib.rt", "    count + 1", "    let _ = count;\n    count + 1", {"one"}),
        ("one/planted/lib.bump.three_more.edit", "+ 3", "+ 4", {"one"}),
        ("lower/src/lib.rt", "    count + 1", "    let _ = count;\n    count + 1", {"lower"}),
        ("lower/src/lib.rt", "One more.", "Another one.", {"lower"}),
        ("lower/src/lib.rt", "1000", "999", {"lower", "upper"}),
    ],
)
def test_the_gate_tries_what_changed_and_one_more(small: Gate, file: str, old: str, new: str, tried: set[str]) -> None:
    """A contract counts for the crates above it, a body for its own crate alone."""
    small.run("--planted")
    path = small.repository.root / "crates" / file
    path.write_text(path.read_text().replace(old, new))
    lock.cache().unlink()
    run = small.run()
    assert run.status == 0 and tried < crates_tried(run) and len(crates_tried(run)) == len(tried) + 1
    assert any(line.endswith(f"else each gate tries these again: {', '.join(sorted(tried))}") for line in run.lines)
    assert crates_tried(small.run()) == set()
    assert crates_tried(small.run("--anew")) == crates_tried(run)
    assert small.run("--lock").calls == ["version repository"]
    assert lock.locked(small.repository.root) == lock.digests(small.repository.root)


def test_a_crate_that_was_never_tried_is_named_and_skipped(small: Gate) -> None:
    small.repository.write(lock.FILE, f"one {lock.PENDING}\ntwo {lock.PENDING}\n")
    run = small.run()
    assert (run.status, run.lines[-1], crates_tried(run)) == (
        0,
        f"{5 + 2} passed, 0 failed, 2 skipped",
        {"lower", "upper"},
    )
    assert "skipped until `.ci/run --planted` has tried them, the planted bugs of one, two" in run.lines
    small.run("--planted", "one")
    assert lock.locked(small.repository.root)["one"] == lock.digests(small.repository.root)["one"]
    assert lock.locked(small.repository.root)["two"] == lock.PENDING


def test_the_commit_draws_one_crate() -> None:
    crates = ["a", "b", "c"]
    assert [planted.drawn_by(commit, crates) for commit in ("0b", "3", "")] == [["c"], ["a"], ["a"]]
    assert planted.drawn_by("0b", []) == []


def test_another_toolchain_tries_all(small: Gate) -> None:
    small.run("--planted")
    small.stand_in(STAND_IN.replace("kit 1", "kit 2"))
    assert crates_tried(small.run()) == {"lower", "upper", "one", "two"}


@pytest.mark.parametrize("arguments", [["--planted"], []])
def test_a_planted_bug_that_proves_fails(small: Gate, arguments: list[str]) -> None:
    small.repository.write("crates/one/planted/lib.bump.turned_round.edit", PROVES)
    run = small.run(*arguments)
    assert (run.status, run.lines[-1]) == (1, f"{4 if arguments else 9} passed, 1 failed")
    assert "one" not in lock.locked(small.repository.root)
    assert "one/lib.bump.turned_round.edit: NOT REFUSED: the crate is still proved with it" in run.lines


def test_a_refusal_by_a_missing_name_alone_is_said(small: Gate) -> None:
    small.repository.write("crates/one/planted/lib.bump.nine_more.edit", PROVES.replace("1 + count", "count + 9"))
    run = small.run("--planted", "one")
    said = [line for line in run.lines if "only because a proof names" in line]
    assert (run.status, len(said)) == (0, 1) and said[0].startswith("one/lib.bump.nine_more.edit: ")


def test_a_goal_that_is_left_open_is_no_missing_name(tmp_path: Path) -> None:
    path = tmp_path / "lib.twice.once.edit"
    path.write_text(ONCE)
    names = "./proofs/twice/Answers.antt:5:60: error: `returns`: record `counts.twice.Lts.After` has no field `bump-2`"
    at = 1 + TWICE.split("\n").index("pub fn twice(count: u32) -> u32")
    for line, by_name in ((at, False), (at + 4, False), (at - 3, True)):
        lines = [names, f"note: src/lib.rt:{line}:1: it is not proved that what the function ensures holds (`returns`)"]
        assert edits.is_by_name(edits.Edit(path), lines, TWICE) == by_name


def test_the_prover_refuses_what_it_should(
    tmp_path: Path, monkeypatch: pytest.MonkeyPatch, capsys: pytest.CaptureFixture[str]
) -> None:
    """Through the toolchain itself. A check takes ten seconds, so one run shows what several bugs come to."""
    repository = Repository(tmp_path / "r", {"counts": "", "wrong": ""})
    repository.write("crates/counts/src/lib.rt", TWICE)
    repository.write("crates/wrong/src/lib.rt", LOWER.replace("count + 1 }", "count + 3 }"))
    (tmp_path / "r/crates/counts/planted/lib.bump.three_more.edit").unlink()
    bugs = {
        "lib.bump.another_name": UNKNOWN_NAME,
        "lib.bump.turned_round": PROVES,
        "lib.twice.half_a_call": UNREADABLE,
        "lib.twice.once": ONCE,
    }
    for name, text in bugs.items():
        repository.write(f"crates/counts/planted/{name}.edit", text)
    together: list[tuple[set[str], set[str]]] = []
    was = edits.Trial.together

    def noted(trial: edits.Trial, edits_asked: list[edits.Edit]) -> list[edits.Edit]:
        chosen, _ = edits.choose(edits_asked, trial.texts)
        refused = was(trial, edits_asked)
        together.append(({item.name for item in chosen}, {item.name for item in refused}))
        return refused

    monkeypatch.setattr(edits.Trial, "together", noted)
    monkeypatch.setenv("XDG_CACHE_HOME", str(tmp_path / "cache"))
    status = gate.run(repository.root, ["--planted"])
    lines = capsys.readouterr().out.splitlines()
    assert (status, lines[-1]) == (1, "1 passed, 4 failed")
    assert "counts: 1 of 4 edits refused" in lines
    assert "counts/lib.bump.turned_round.edit: NOT REFUSED: the crate is still proved with it" in lines
    for name in ("bump.another_name", "twice.half_a_call"):
        start = f"counts/lib.{name}.edit: NOT REFUSED: the prover can't read it"
        assert any(line.startswith(start) for line in lines)
    # one check says of two functions which of their bugs is refused
    assert ({"lib.bump.turned_round.edit", "lib.twice.once.edit"}, {"lib.twice.once.edit"}) in together
    assert "wrong/lib.bump.three_more.edit: NOT REFUSED: the crate isn't proved without it" in lines
