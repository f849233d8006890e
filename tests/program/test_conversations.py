"""Conversations with the built program, `ttm --ask`: each answer is what a run with the question's words leaves, byte
for byte and status by status, whatever was asked before.
"""

from __future__ import annotations

import os
import re
import shutil
import subprocess
from collections.abc import Sequence
from operator import attrgetter
from pathlib import Path
from typing import IO

import pytest

from conversations import (
    MOST_BYTES,
    TOO_LONG,
    Answer,
    Question,
    Talk,
    answers_in,
    question,
    refused,
    unexpected,
    words_of_run,
)
from run_cases import ASKED, BASE, CUT, HEAD, OWN_WORDS, REFUSED, RUNS, Run
from running import SECONDS, Left, as_nobody, in_a_room, lay_out

CONVERSATIONS = 200
KEPT = f"--feed feed {ASKED} 300 {OWN_WORDS} -- cut.csv".split()
OWN_ANSWER = (HEAD + BASE + CUT).encode()
FROM_B = (HEAD + "base,B,50,15,,0,1800\ncut,B,50,10,,0,\n").encode()
QUESTIONS = 12_000  # of one conversation
OF_QUESTIONS = re.compile("--(origins|opportunities|destinations)")
# runs that are refused by what a conversation reads before its first question
FAULTS = [
    item for item in RUNS + REFUSED if item.status and (item.err[5:9] == "bad " or not OF_QUESTIONS.search(item.words))
]


def begin(
    program: str, arguments: Sequence[str], room: Path, stdout: int | IO[bytes] = subprocess.PIPE
) -> subprocess.Popen[bytes]:
    """Begins a conversation in a folder."""
    pipe = subprocess.PIPE
    return subprocess.Popen(
        [program, *arguments],
        cwd=room,
        stdin=pipe,
        stdout=stdout,
        stderr=pipe,
        env={"LANG": "C.UTF-8"},
        **as_nobody(),
    )


def whole(program: str, arguments: Sequence[str], room: Path, text: bytes) -> tuple[bytes, bytes, int]:
    """What a conversation leaves whose questions are there from the start: both outputs and the status."""
    with begin(program, arguments, room) as process:
        out, err = process.communicate(text, timeout=SECONDS)
    return out, err, process.returncode


def wanted(program: str, kept: Sequence[str], question: Question, room: Path) -> Answer:
    """What a run with a question's words leaves; of several lines about words the first. Some are no run's."""
    if question.line is not None:
        return Answer(2, question.line)
    arguments: list[str | bytes] = [program, *words_of_run(kept, question)]
    ran = subprocess.run(
        arguments, cwd=room, capture_output=True, timeout=SECONDS, env={"LANG": "C.UTF-8"}, **as_nobody()
    )
    assert (ran.stdout == b"") == (ran.returncode != 0) == (ran.stderr != b"")
    return Answer(ran.returncode, ran.stdout or ran.stderr.splitlines(True)[0])


@pytest.fixture
def room(open_room: Path) -> Path:
    """The small feed, and own files beside it."""
    lay_out(open_room)
    return open_room


@pytest.mark.parametrize("seed", range(1, CONVERSATIONS + 1))
def test_each_answer_is_that_of_a_run(one_build: str, open_room: Path, seed: int) -> None:
    talk, runs = Talk(seed, open_room), dict[Question, Answer]()
    out, err, status = whole(
        one_build, talk.command, open_room, b"".join(question.block for question in talk.questions)
    )
    assert (err, status) == (b"", 0)
    answers = list(answers_in(out))
    assert len(answers) == len(talk.questions)
    for asked_question, answer in zip(talk.questions, answers):
        if asked_question not in runs:
            runs[asked_question] = wanted(one_build, talk.kept, asked_question, open_room)
        assert answer == runs[asked_question], asked_question.words


def test_answers_by_hand(program: str, room: Path) -> None:
    """Four answers and four faults, each of which changes nothing for the next."""
    few = "scenario,origin,share,access_600,C\nbase,C,50,15,0\nbase,A,50,10,\ncut,C,50,15,0\ncut,A,50,10,\n"
    questions = [
        question(),
        question("--origins", "b.csv"),
        question("--trips", "9"),
        question("--trips=1", "--from=08:01"),
    ]
    questions += [
        question("--within", "600", "--trips", "1", "--destinations", "c.csv"),
        unexpected("--walk", "--walk", "0"),
    ]
    questions += [question("--origins", "x.csv"), question("--opportunities", "no.csv"), question()]
    (room / "x.csv").write_text("stop_id\nX\n")
    (room / "c.csv").write_text("stop_id\nC\n")
    out, err, status = whole(
        program, ["--ask", *KEPT], room, b"".join(question_asked.block for question_asked in questions)
    )
    answers = list(answers_in(out))
    assert [answer.status for answer in answers] == [0, 0, 2, 2, 0, 2, 2, 5, 0]
    bodies = [answer.body for answer in answers]
    assert bodies[:4] == [OWN_ANSWER, FROM_B, b"ttm: bad trips\n", b"ttm: bad window\n"]
    assert bodies[4:6] == [few.encode(), b"error: unexpected argument '--walk' found\n"]
    assert bodies[6:] == [b"ttm: origins: record 2: unknown stop\n", b"ttm: no.csv: read fault\n", OWN_ANSWER]
    assert (err, status) == (b"", 0)


@pytest.mark.parametrize(
    "text, bodies",
    [
        (b"", []),
        (b"\n", [OWN_ANSWER]),
        (b"\n\n\n", 3 * [OWN_ANSWER]),
        (b"--origins\nb.csv\n\n", [FROM_B]),
        (b"--origins\nb.csv\n", [FROM_B]),
        (b"--origins\nb.csv", [FROM_B]),
        (b"\n--origins=b.csv", [OWN_ANSWER, FROM_B]),
        (b"--trips", [b"error: a value is required for '--trips <K>' but none was supplied\n"]),
        (b"--origins\nb\xffcsv", [b"ttm: words that are not UTF-8\n"]),
    ],
)
def test_the_end_of_the_input_ends_a_question(program: str, room: Path, text: bytes, bodies: list[bytes]) -> None:
    """An input that ends in a question asks it; one that ends behind an empty line asks nothing more."""
    out, err, status = whole(program, ["--ask", *KEPT], room, text)
    assert ([answer.body for answer in answers_in(out)], err, status) == (bodies, b"", 0)


def questions_in(text: bytes) -> list[Question]:
    """The questions of an input: what an empty line or the end of the input ends."""
    *lines, last = text.split(b"\n")
    found, arguments = list[Question](), list[bytes]()
    for line in lines:
        if line:
            arguments.append(line)
        else:
            found.append(question(*arguments))
            arguments.clear()
    arguments += [last] if last else []
    return [*found, question(*arguments)] if arguments else found


def in_a_run(given: Question) -> Question:
    """A question in words of a run, where `-` is a scenario file, and behind `--` there are only such."""
    if given.words[-1:] == (b"-",):
        return unexpected("-", *given.words)
    return question(*given.words[:-1]) if given.words[-1:] == (b"--",) else given


def test_an_input_may_end_after_any_byte(one_build: str, room: Path) -> None:
    text = b"--origins\nb.csv\n\n--trips=1\n--to\n08:01\n\n\n--within=60\n"
    runs = dict[Question, Answer]()
    for count in range(len(text) + 1):
        out, err, status = whole(one_build, ["--ask", *KEPT], room, text[:count])
        questions = [in_a_run(question) for question in questions_in(text[:count])]
        for one in questions:
            runs.setdefault(one, wanted(one_build, KEPT, one, room))
        assert (list(answers_in(out)), err, status) == ([runs[question] for question in questions], b"", 0), count


def ask(process: subprocess.Popen[bytes], question: Question) -> Answer:
    """The answer to a question, before anything else is asked."""
    assert process.stdin and process.stdout
    process.stdin.write(question.block)
    process.stdin.flush()
    head = process.stdout.readline()
    length = int(head.split()[2])
    (answer,) = answers_in(head + process.stdout.read(length))
    return answer


def test_each_answer_is_out_before_the_next_question(one_build: str, room: Path) -> None:
    """The files of a question are read when it is asked; the feed and the scenarios aren't read again."""
    with begin(one_build, ["--ask", *KEPT], room) as process:
        assert ask(process, question()) == Answer(0, OWN_ANSWER)
        shutil.rmtree(room / "feed")
        (room / "cut.csv").unlink()
        (room / "own.csv").write_text("stop_id\nX\n")
        first_question = question("--origins", "own.csv")
        assert ask(process, first_question) == Answer(2, b"ttm: origins: record 2: unknown stop\n")
        (room / "own.csv").write_text("stop_id\nB\n")
        assert ask(process, first_question) == Answer(0, FROM_B)
        (room / "own.csv").unlink()
        assert ask(process, first_question) == Answer(5, b"ttm: own.csv: read fault\n")
        assert ask(process, question()) == Answer(0, OWN_ANSWER)
        assert process.communicate(timeout=SECONDS) == (b"", b"")
    assert process.returncode == 0


@pytest.mark.parametrize("run", FAULTS, ids=attrgetter("name"))
def test_a_fault_of_what_is_kept_ends_it_as_a_run(program: str, run: Run) -> None:
    """Before any question is answered, and also where none is asked."""
    arguments = ["--ask", *run.words.split()]
    for text in (b"", b"--trips\n1\n\n\n"):
        left = in_a_room(run.changes, lambda room: text_of(whole(program, arguments, room, text)))
        assert left == ("", run.err, run.status)


def text_of(left: tuple[bytes, bytes, int]) -> Left:
    return left[0].decode(), left[1].decode(), left[2]


def test_answers_that_cannot_be_written_end_it(program: str, room: Path) -> None:
    reader, writer = os.pipe()
    os.close(reader)
    with open("/dev/full", "wb") as full, os.fdopen(writer, "wb") as unread:
        for stdout in (full, unread):
            with begin(program, ["--ask", *KEPT], room, stdout) as process:
                _, err = process.communicate(3 * question().block, timeout=SECONDS)
            assert (err, process.returncode) == (b"ttm: write fault\n", 5)


def test_an_input_that_cannot_be_read_ends_it(program: str, room: Path) -> None:
    """As a folder can't."""
    folder = os.open(room, os.O_RDONLY)
    arguments = [program, "--ask", *KEPT]
    ran = subprocess.run(arguments, cwd=room, stdin=folder, capture_output=True, timeout=SECONDS, **as_nobody())
    os.close(folder)
    assert (ran.stdout, ran.stderr, ran.returncode) == (b"", b"ttm: standard input: read fault\n", 5)


def test_a_question_may_have_so_many_bytes(program: str, room: Path) -> None:
    """What is longer is refused, and skipped to its end."""
    longest = question("--origins=" + "o" * (MOST_BYTES - len("--origins=\n")))
    longer = refused(TOO_LONG, longest.words[0] + b"o")
    own = Answer(0, OWN_ANSWER)
    questions = [longest, longer, question(), refused(TOO_LONG, *["x" * 99] * 5000), question()]
    out, err, status = whole(program, ["--ask", *KEPT], room, b"".join(item.block for item in questions))
    answers = list(answers_in(out))
    refusal = Answer(2, TOO_LONG.encode() + b"\n")
    assert answers[0] == wanted(program, KEPT, longest, room) and answers[0].status == 5
    assert (answers[1:], err, status) == ([refusal, own, refusal, own], b"", 0)


def test_a_report_says_what_is_kept_and_a_line_for_each_question(program: str, room: Path) -> None:
    """What is answered is the same with a report and without."""
    questions = [question(), question("--trips", "9"), question("--origins", "b.csv")]
    plain = whole(program, ["--ask", *KEPT], room, b"".join(item.block for item in questions))
    lines = []
    for count in range(len(questions) + 1):
        blocks = b"".join(item.block for item in questions[:count])
        out, err, status = whole(program, ["--ask", "--report", *KEPT], room, blocks)
        assert status == 0 and list(answers_in(out)) == list(answers_in(plain[0]))[:count]
        lines.append(err.decode().splitlines())
    assert "ttm: stops: 3" in lines[0] and "ttm: runs in scenario cut: 1" in lines[0]
    assert [len(line) - len(lines[0]) for line in lines] == [0, 1, 2, 3]


def resident(process: subprocess.Popen[bytes]) -> int:
    """Kilobytes that a process holds."""
    lines = Path(f"/proc/{process.pid}/status").read_text().splitlines()
    return next(int(line.split()[1]) for line in lines if line.startswith("VmRSS:"))


def test_what_an_answer_takes_is_given_back(one_build: str, room: Path) -> None:
    """The process stops growing: in some thousands of questions the C library takes a few hundred kilobytes for its
    arenas of threads, and afterwards no answer keeps even fifty bytes.
    """
    kinds = [
        question("--origins", "b.csv"),
        question("--trips", "9"),
        question("--workers", "3"),
        refused("x" * 70_000),
    ]
    held = []
    with begin(one_build, ["--ask", *KEPT], room) as process:
        for number in range(QUESTIONS):
            ask(process, kinds[number % len(kinds)])
            held.append(resident(process))
        process.communicate(timeout=SECONDS)
    assert process.returncode == 0
    first, half, last = held[99], held[QUESTIONS // 2], held[-1]
    assert last - first <= 1024 and 1024 * (last - half) <= 50 * QUESTIONS // 2, (first, half, last)
