#!/usr/bin/env python3
"""Hostile use of the built program: each growth of memory, start of a thread, open, read and write refused in turn;
one byte at a time; each file cut short after every byte.

    hostile.py PROGRAM [GROWTH_TRIALS]

Over six small studies, some of several shares and limits: the text of the matrix comes whole and right, or a line
and the status that belong to what was refused, and nothing else. A file that is cut short gives the matrix of the
second program, or the line of its first error. With the built program of crates/growth_trials each
public call that takes memory is refused each growth in turn, too: it gives the right value, or says out of memory and
gives it when made again. In a conversation (`ttm --ask`) each growth, start, open, read and write is refused in turn,
too: one answer alone says it, or the conversation ends before its first answer; where its own input can't be read or
an answer can't be written, it ends behind the answers before. What it tried is counted, and the last line is 'N passed,
M failed'. It wants a C compiler (`cc`), which builds tests/program/refuse.c. Standard library only.
"""
import io
import itertools
import os
import re
import subprocess
import sys
import tempfile
from pathlib import Path
from typing import Mapping, NamedTuple, Sequence

import plain
import small
from first_error import first_error

# the small feed with a station, a day of its own and a headway, and the analyst's own files
FILES = {
    **small.FEED,
    **small.OWN,
    "stops.txt": "stop_id,stop_name,location_type,parent_station\nA,Alpha,,\nB,Beta,0,S\nC,Gamma,,\nS,Square,1,\n",
    "calendar_dates.txt": "service_id,date,exception_type\nXTR,20260504,1\n",
    "trips.txt": small.FEED["trips.txt"].replace("MON,T2", "XTR,T2"),
    "frequencies.txt": "trip_id,start_time,end_time,headway_secs\nT2,08:15:00,08:50:00,1800\n",
    "transfers.txt": "from_stop_id,to_stop_id,transfer_type,min_transfer_time\nS,S,2,120\nB,C,2,1500\n",
    "to.csv": "stop_id\nC\nB\n",
}
# the small feed as it is, and two scenarios
PLAIN = {**small.FEED, **{name: small.OWN[name] for name in ("cut.csv", "late.csv")}}
ASKED = "--feed . --date 20260504 --from 08:00 --to 08:00 --trips 2 --walk 300 --share 50 --within 1800 --tries 2"
OWN = "--footpaths walks.csv --opportunities chances.csv --origins origins.csv --destinations to.csv"
SHARES = ASKED.replace("--share 50 --within 1800", "--share 1,25,50,75,100 --within 700,1800")
SEVERAL = SHARES.replace("--from 08:00 --to 08:00", "--from 07:58 --to 08:01")


class Study(NamedTuple):
    """The files of a folder, by their names, and the arguments of a run there."""

    files: Mapping[str, str]
    arguments: Sequence[str]


STUDIES = [
    Study(FILES, f"{ASKED} --workers 1 cut.csv late.csv".split()),
    Study(FILES, f"{ASKED} --workers 2 cut.csv late.csv".split()),
    Study(FILES, f"{ASKED} --workers 2 {OWN} cut.csv late.csv".split()),
    Study(FILES, f"{SEVERAL} --workers 2 {OWN} cut.csv".split()),
    Study(PLAIN, f"{ASKED.replace('300', '0')} --workers 1 cut.csv late.csv".split()),
    Study(PLAIN, f"{ASKED.replace('300', '0')} --workers 2 cut.csv late.csv".split()),
]
# those whose files are cut short
CUT = [STUDIES[2], STUDIES[5]]

# a conversation and its questions; the last but one is a fault
TALK = f"{ASKED} --ask --workers 2 --footpaths walks.csv cut.csv"
QUESTIONS = [
    "",
    "--origins origins.csv --opportunities chances.csv --share 1,25,50 --within 700,1800 --from 07:58 --to 08:01",
    "--trips 9",
    "--destinations to.csv --workers 1",
]
BAD_TRIPS = b"answer 2 15\nttm: bad trips\n"

# a thread's start takes memory too
NO_MEMORY = (3, r"ttm: (out of memory|no worker started)\n")
NOT_READ = (5, r"ttm: (\./)?[a-z_]+\.(txt|csv): read fault\n")
NOT_WRITTEN = (5, r"ttm: write fault\n")
# what may be reported where something is refused
TOLD = {"growth": NO_MEMORY, "start": NO_MEMORY, "open": NOT_READ, "read": NOT_READ, "write": NOT_WRITTEN}
NO_QUESTION = "ttm: standard input: read fault\n"  # reported by a conversation

Answer = tuple[int, str, str]  # a status and both outputs


class Trial:
    """The program in a folder of small files."""

    def __init__(self, program: str, room: str, files: Mapping[str, str] = FILES) -> None:
        self.program, self.room, self.passed, self.failed = os.path.abspath(program), Path(room), 0, 0
        self.given: bytes | None = None  # what the program reads from its standard input
        self.library = str(self.room / "refuse.so")
        source = Path(__file__).with_name("refuse.c")
        subprocess.run(["cc", "-O2", "-shared", "-fPIC", "-o", self.library, source], check=True)
        self.folder, self.files = self.room / "feed", files
        self.folder.mkdir()
        for name, text in files.items():
            (self.folder / name).write_text(text)

    def run(
        self,
        arguments: Sequence[str],
        program: str | None = None,
        environment: Mapping[str, str] | None = None,
        handles: Sequence[int] = (),
    ) -> Answer:
        """The status and both outputs, of the program or of another one."""
        ran = subprocess.run(
            [program or self.program, *arguments],
            cwd=self.folder,
            env=environment,
            pass_fds=handles,
            input=self.given,
            capture_output=True,
            timeout=120,
        )
        return ran.returncode, ran.stdout.decode(), ran.stderr.decode()

    def run_refused(
        self, arguments: Sequence[str], what: str, number: int, program: str | None = None, slow: bool = False
    ) -> tuple[Answer, bool]:
        """The same where one call is refused, and whether it came to that; slow: by one byte at a time."""
        ours, its = os.pipe()
        refusal = {**os.environ, "LD_PRELOAD": self.library, "REFUSE": f"{what}:{number}", "REFUSE_FD": str(its)}
        if slow:
            refusal["ONE_BYTE"] = "1"
        answer = self.run(arguments, program, refusal, [its])
        os.close(its)
        with os.fdopen(ours, "rb") as errors:
            return answer, errors.read() != b""

    def judge(self, what: str, right: bool, answer: Answer) -> None:
        self.passed += right
        self.failed += not right
        if not right:
            print(f"wrong: {what}: status {answer[0]}, told {answer[2]!r}\n{answer[1]}", flush=True)

    def by_definition(self, arguments: Sequence[str]) -> Answer:
        """What a run gives by the plain second program: the matrix, or the line of the first error."""
        text, here = io.StringIO(), os.getcwd()
        os.chdir(self.folder)
        try:
            line = first_error(arguments)
            if line is not None:
                return 2, "", line
            plain.write_matrix(arguments, text)
            return 0, text.getvalue(), ""
        finally:
            os.chdir(here)

    def wanted(self, arguments: Sequence[str]) -> str:
        """What is printed where nothing is refused."""
        status, matrix, line = self.by_definition(arguments)
        assert (status, line) == (0, "")
        return matrix

    def refuse_each(self, arguments: Sequence[str], what: str, slow: bool = False) -> int:
        """Refuses the first call of a kind, the second, and so on, until a run has fewer; gives how many there were."""
        wanted = self.wanted(arguments)
        for number in itertools.count(1):
            answer, came = self.run_refused(arguments, what, number, slow=slow)
            right = answer == (0, wanted, "") or (came and self.is_right(what, answer, wanted))
            self.judge(f"{what} {number}{'' if came else ', none'} refused", right, answer)
            if not came:
                break
        return number - 1

    def is_right(self, what: str, answer: Answer, wanted: str) -> bool:
        """Whether a run may end like this where a call was refused."""
        status, line = TOLD[what]
        ended, out, err = answer
        is_told = ended == status and re.fullmatch(line, err) is not None
        return is_told and wanted.startswith(out) and (what == "write" or not out)

    def refuse_call(self, program: str, name: str) -> tuple[int, int]:
        """Refuses a trial of growth_trials its first growth, its second, and so on, until a run has fewer; gives how
        many there were once its inputs were made, and of how many of them the call reported."""
        right, again = (0, f"{name}: right\n", ""), (0, f"{name}: refused, and right when asked again\n", "")
        growths = count = 0
        for number in itertools.count(1):
            answer, came = self.run_refused([name], "growth", number, program)
            if not came:
                self.judge(f"{name}: growth {number}, none refused", answer == right, answer)
                break
            if answer not in ((0, "inputs\n", ""), (0, f"{name}: inputs\n", "")):
                self.judge(f"{name}: growth {number} refused", answer in (right, again), answer)
                growths, count = growths + 1, count + (answer == again)
        return growths, count

    def refuse_calls(self, program: str) -> None:
        """The same for each trial, one after another."""
        answer = self.run([], program)
        names = [line.rpartition(": ")[0] for line in answer[1].splitlines()]
        right = bool(names) and answer == (0, "".join(f"{name}: right\n" for name in names), "")
        self.judge("all calls, none refused", right, answer)
        for name in names:
            growths, count = self.refuse_call(program, name)
            print(f"call {name}: {growths} growths refused in turn, of which it told {count}", flush=True)

    def cut_each(self, arguments: Sequence[str]) -> tuple[int, int]:
        """Cuts each file short after every byte; gives how many prefixes there were, and how many were accepted."""
        tried = accepted = 0
        for name, text in self.files.items():
            for count in range(len(text)):
                (self.folder / name).write_text(text[:count])
                answer = self.run(arguments)
                self.judge(f"{name} cut after {count} bytes", answer == self.by_definition(arguments), answer)
                tried, accepted = tried + 1, accepted + (answer[0] == 0)
            (self.folder / name).write_text(text)
        return tried, accepted


class Talk(Trial):
    """The same of a conversation."""

    def __init__(self, program: str, room: str) -> None:
        super().__init__(program, room)
        blocks = ["".join(f"{word}\n" for word in question.split()) for question in QUESTIONS]
        self.given = "\n".join([*blocks, ""]).encode()
        self.answers = [self.answer_to(question.split()) for question in QUESTIONS]

    def answer_to(self, question: Sequence[str]) -> bytes:
        """What the plain second program gives for a question, as an answer."""
        if question[:1] == ["--trips"]:
            return BAD_TRIPS
        arguments = TALK.replace("--ask ", "").split()
        replaced = [arguments.index(item) for item in question[::2] if item in arguments]
        kept = [word for at, word in enumerate(arguments) if at not in replaced and at - 1 not in replaced]
        text = super().wanted([*question, *kept])
        return f"answer 0 {len(text)}\n{text}".encode()

    def wanted(self, arguments: Sequence[str]) -> str:
        return b"".join(self.answers).decode()

    def is_right(self, what: str, answer: Answer, wanted: str) -> bool:
        """Whether a conversation may end like this where a call was refused."""
        status, line = TOLD[what]
        ended, out, err = answer
        if ended == 0:
            return err == "" and self.tells_once(out.encode(), status, line)
        if what == "write" and wanted.startswith(out):
            return (ended, err) == (status, "ttm: write fault\n")
        before = ["", *(b"".join(self.answers[:count]).decode() for count in range(1, len(self.answers) + 1))]
        if what == "read" and out in before and err == NO_QUESTION:
            return ended == status
        return out == "" and ended == status and re.fullmatch(line, err) is not None

    def tells_once(self, out: bytes, status: int, line: str) -> bool:
        """Whether the answers are the right ones but for one, which says what was refused."""
        for number, answer in enumerate(self.answers):
            before, behind = b"".join(self.answers[:number]), b"".join(self.answers[number + 1 :])
            block = out[len(before) : len(out) - len(behind)].decode()
            if out == before + block.encode() + behind and block != answer.decode():
                head, _, body = block.partition("\n")
                return head == f"answer {status} {len(body)}" and re.fullmatch(line, body) is not None
        return False


def tell_refusals(trial: Trial, name: str, arguments: Sequence[str]) -> None:
    """Refuses each call of each kind, and prints how many there were."""
    counts = [f"{trial.refuse_each(arguments, what)} of {what}" for what in TOLD]
    slow = [f"{trial.refuse_each(arguments, what, slow=True)} of {what}" for what in ("read", "write")]
    print(f"{name}: refused in turn: {', '.join(counts)}; one byte at a time: {', '.join(slow)}", flush=True)


def main() -> int:
    if len(sys.argv) not in (2, 3):
        sys.exit("usage: hostile.py PROGRAM [GROWTH_TRIALS]")
    trials = []
    for number, study in enumerate(STUDIES, 1):
        with tempfile.TemporaryDirectory(prefix="ttm-hostile-") as room:
            trials.append(Trial(sys.argv[1], room, study.files))
            tell_refusals(trials[-1], f"study {number}", study.arguments)
            if study in CUT:
                tried, accepted = trials[-1].cut_each(study.arguments)
                print(f"prefixes: {tried}, of which {accepted} were accepted", flush=True)
    with tempfile.TemporaryDirectory(prefix="ttm-hostile-") as room:
        trials.append(Talk(sys.argv[1], room))
        tell_refusals(trials[-1], "conversation", TALK.split())
    if len(sys.argv) == 3:
        with tempfile.TemporaryDirectory(prefix="ttm-hostile-") as room:
            trials.append(Trial(sys.argv[1], room))
            trials[-1].refuse_calls(os.path.abspath(sys.argv[2]))
    failed = sum(trial.failed for trial in trials)
    print(f"{sum(trial.passed for trial in trials)} passed, {failed} failed")
    return 1 if failed else 0


if __name__ == "__main__":
    sys.exit(main())
