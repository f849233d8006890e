"""A network that is kept and asked from Python: what each answer is, and what becomes of a process that dies."""

import gc
import os
import signal
import subprocess
import sys
import threading
from concurrent.futures import ThreadPoolExecutor
from pathlib import Path
from typing import Any

import numpy as np
import pytest

import ttm_tools
from asking import canned
from helpers import CALENDAR, LONGEST_WAIT, STOP_TIMES, Room, wait_until
from ttm_tools.compat.network import Network
from ttm_tools.core.errors import ArgumentError

EIGHT, NINE = ("08:00", "08:00"), ("09:00", "09:00")


def test_the_name_of_version_2_still_makes_one_and_says_what_to_use(room: Room) -> None:
    with pytest.warns(DeprecationWarning, match="use ttm_tools.open_network"):
        made: Any = ttm_tools.Network
        network = made(room.folder, "20260504", program=canned(room.folder))
    with network:
        assert isinstance(network, Network)


def canned_network(room: Room, **more: Any) -> Network:
    return Network(room.folder, "20260504", program=canned(room.folder), **more)


def cell(network: Network, window: tuple[str, str], *origins: str) -> float:
    """The one cell of a canned answer, in minutes."""
    return float(network.matrix(window, origins=origins or ["A"]).array()[0, 0]) / 60


def is_there(process: int) -> bool:
    try:
        os.kill(process, 0)
    except ProcessLookupError:
        return False
    return True


def wait_until_gone(process: int) -> None:
    wait_until(lambda: not is_there(process))


def test_one_process_answers_question_after_question(room: Room) -> None:
    with canned_network(room) as network:
        assert [cell(network, window) for window in (EIGHT, NINE, EIGHT)] == [480, 540, 480]
        assert cell(network, EIGHT, "process") == cell(network, EIGHT, "process")


def test_a_fault_of_a_question_is_raised_and_the_next_is_answered_by_the_same_process(room: Room) -> None:
    with canned_network(room) as network:
        process = cell(network, EIGHT, "process")
        with pytest.raises(ttm_tools.EngineError) as raised:
            network.matrix(EIGHT, origins=["fault"])
        assert (raised.value.file, raised.value.record, raised.value.status) == ("origins", 2, 2)
        assert cell(network, EIGHT, "process") == process


@pytest.mark.parametrize(
    "origin, line, ended",
    [
        ("kill", "ttm: ended by SIGKILL, last line: question 3", 137),
        ("end", "ttm: out of memory", 3),
        ("short", "ttm: stops: 2", 5),
        ("bad", "ttm: no answer, but b'hello\\n'", 4),
    ],
)
def test_a_process_that_dies_says_its_last_line_and_the_next_question_begins_another(
    room: Room, origin: str, line: str, ended: int
) -> None:
    with canned_network(room) as network:
        process = cell(network, EIGHT, "process")
        with pytest.raises(ttm_tools.EngineError) as raised:
            network.matrix(EIGHT, origins=[origin])
        assert (raised.value.line, raised.value.status) == (line, ended)
        wait_until_gone(int(process))
        assert cell(network, EIGHT, "process") != process
        assert cell(network, NINE) == 540


def test_a_process_that_is_killed_between_questions_is_told_and_replaced(room: Room) -> None:
    with canned_network(room) as network:
        process = int(cell(network, EIGHT, "process"))
        os.kill(process, signal.SIGTERM)
        with pytest.raises(ttm_tools.EngineError, match="ended by SIGTERM"):
            network.matrix(EIGHT)
        assert cell(network, NINE) == 540


def test_what_is_wrong_with_the_network_is_raised_by_each_question(room: Room) -> None:
    with canned_network(room, walk=7) as network:
        for _ in range(2):
            with pytest.raises(ttm_tools.EngineError) as raised:
                network.matrix(EIGHT)
            assert (raised.value.line, raised.value.status, raised.value.option) == ("ttm: bad walk", 2, "--walk")


def test_threads_get_their_own_answers(room: Room) -> None:
    minutes = list(range(60))
    with canned_network(room, workers=3) as network, ThreadPoolExecutor(8) as pool:
        windows = [(f"07:{minute:02}", "07:59") for minute in minutes]
        found = list(pool.map(lambda window: cell(network, window), windows))
        processes = set(pool.map(lambda _: cell(network, EIGHT, "process"), minutes))
    assert found == [420 + minute for minute in minutes]
    assert 1 <= len(processes) <= 3


def test_several_processes_answer_at_the_same_time(room: Room) -> None:
    """Each waits for the others: asked one after another, the first would never answer."""
    network, pool = canned_network(room, workers=4), ThreadPoolExecutor(4)
    try:
        answers = [pool.submit(cell, network, EIGHT, "meet") for _ in range(4)]
        assert [answer.result(LONGEST_WAIT) for answer in answers] == [0] * 4
    finally:
        network.close()  # ends those that still wait
        pool.shutdown()


def test_a_closed_network_is_refused_and_leaves_nothing(room: Room) -> None:
    network = canned_network(room)
    process, folder = int(cell(network, EIGHT, "process")), network.engine.folder
    assert folder.is_dir() and list(folder.iterdir()) == []
    network.close()
    network.close()
    wait_until_gone(process)
    assert not folder.exists()
    with pytest.raises(ArgumentError, match="the network is closed"):
        network.matrix(EIGHT)


def test_closing_ends_a_question_that_is_being_answered(room: Room) -> None:
    network, printed = canned_network(room), list[BaseException]()

    def ask() -> None:
        try:
            cell(network, EIGHT, "wait")
        except ArgumentError as fault:
            printed.append(fault)

    thread = threading.Thread(target=ask)
    thread.start()
    wait_until((room.folder / "asked").exists)
    network.close()
    thread.join(LONGEST_WAIT)
    assert len(printed) == 1 and not thread.is_alive()


def test_a_network_that_nobody_holds_ends(room: Room) -> None:
    network = canned_network(room)
    process = int(cell(network, EIGHT, "process"))
    del network
    gc.collect()
    wait_until_gone(process)


def test_a_network_ends_with_the_interpreter(room: Room) -> None:
    text = (
        "from ttm_tools.compat.network import Network; it = Network('.', '20260504', program='./canned');"
        "print(int(it.matrix(('08:00', '08:00'), origins=['process']).array()[0, 0]) // 60, it.engine.folder)"
    )
    canned(room.folder)
    path = os.pathsep.join(sys.path)
    arguments = [sys.executable, "-c", text]
    ran = subprocess.run(
        arguments, cwd=room.folder, env={**os.environ, "PYTHONPATH": path}, capture_output=True, timeout=LONGEST_WAIT
    )
    process, folder = ran.stdout.decode().split()
    assert (ran.returncode, ran.stderr) == (0, b"")
    wait_until_gone(int(process))
    assert not Path(folder).exists()


def test_a_fork_asks_a_process_of_its_own_and_leaves_its_parents_alone(room: Room) -> None:
    with canned_network(room) as network:
        process = cell(network, EIGHT, "process")
        fork = os.fork()
        if fork == 0:
            own = 1
            try:
                own = int(cell(network, EIGHT, "process") == process)
                network.close()
            finally:
                os._exit(own)
        assert os.waitstatus_to_exitcode(os.waitpid(fork, 0)[1]) == 0
        assert cell(network, EIGHT, "process") == process


@pytest.mark.parametrize("path", ["two\nlines", ""])
def test_a_word_that_no_question_has_is_refused(room: Room, path: str) -> None:
    with canned_network(room) as network:
        with pytest.raises(ArgumentError):
            network.matrix((path, "08:00"))
        assert cell(network, EIGHT) == 480


def test_no_process_at_all_is_refused(room: Room) -> None:
    with pytest.raises(ArgumentError, match="at least one"):
        canned_network(room, workers=0)


def write_town(room: Room) -> None:
    """T1 leaves A at 08:00 for B, T2 leaves B at 08:15 for C."""
    room.stops(["A", 0, 0], ["B", 0, 2000], ["C", 2000, 2000])
    room.write("routes.txt", "route_id", [["R1"], ["R2"]])
    room.write("calendar.txt", *CALENDAR)
    room.write("trips.txt", "route_id,service_id,trip_id", [["R1", "M", "T1"], ["R2", "M", "T2"]])
    first = [["T1", "08:00:00", "08:00:00", "A", 1], ["T1", "08:10:00", "08:10:00", "B", 2]]
    second = [["T2", "08:15:00", "08:15:00", "B", 1], ["T2", "08:30:00", "08:30:00", "C", 2]]
    room.write("stop_times.txt", STOP_TIMES, first + second)
    room.write("cut.csv", "action,id,seconds", [["remove_route", "R2", ""]])


QUESTIONS: list[dict[str, Any]] = [
    {"window": EIGHT},
    {"window": ("07:50", "08:01"), "shares": (25, 50, 75), "limits": (600, 1800)},
    {"window": EIGHT, "origins": ["A"], "destinations": ["C", "A"], "opportunities": {"C": 7.4, "A": 1}},
    {"window": EIGHT, "origins": ["B"], "trips": 1, "workers": 2, "tries": 2},
    {"window": EIGHT},
]

FAULTS: list[dict[str, Any]] = [{"origins": ["X"]}, {"origins": "nothing.csv"}, {"trips": 9}, {"shares": (50, 25)}]


def processes(network: Network) -> list[int]:
    """Those that keep the network."""
    return [item.process.pid for item in network.engine.pool.running]


def test_the_program_reads_the_network_once(room: Room, program: str) -> None:
    write_town(room)
    with Network(room.folder, "20260504", program=program, scenarios=[room.path("cut.csv")]) as network:
        first = network.matrix(EIGHT)
        (process,) = processes(network)
        for name in ("stops.txt", "stop_times.txt", "trips.txt", "cut.csv"):
            os.unlink(room.path(name))
        for _ in range(3):
            np.testing.assert_array_equal(network.matrix(EIGHT).array("cut"), first.array("cut"))
        assert processes(network) == [process]
    wait_until_gone(process)


@pytest.mark.parametrize("number", [signal.SIGKILL, signal.SIGTERM])
def test_a_program_that_is_killed_says_so_and_the_next_question_begins_another(
    room: Room, program: str, number: signal.Signals
) -> None:
    write_town(room)
    with Network(room.folder, "20260504", program=program) as network:
        whole = network.matrix(EIGHT).array()
        (process,) = processes(network)
        os.kill(process, number)
        with pytest.raises(ttm_tools.EngineError, match=f"ended by {number.name}") as raised:
            network.matrix(EIGHT)
        assert raised.value.status == 128 + number
        np.testing.assert_array_equal(network.matrix(EIGHT).array(), whole)
        assert processes(network) != [process]


def test_threads_get_their_own_answers_of_the_program(room: Room, program: str) -> None:
    """From A travellers are at B at 08:10, whichever of the minutes before 08:00 they leave at."""
    write_town(room)
    minutes = [minute for minute in range(60) for _ in range(3)]
    with Network(room.folder, "20260504", program=program, workers=3) as network, ThreadPoolExecutor(8) as pool:

        def ask(minute: int) -> list[float]:
            window = (f"07:{minute:02}", f"07:{minute:02}")
            return list(network.matrix(window, origins=["A"], destinations=["B"]).array()[0].tolist())

        assert list(pool.map(ask, minutes)) == [[60.0 * (70 - minute)] for minute in minutes]
        assert 1 <= len(processes(network)) <= 3


def test_a_question_out_of_bounds_is_refused_and_the_next_is_answered(room: Room, program: str) -> None:
    write_town(room)
    with Network(room.folder, "20260504", program=program) as network:
        for origins in ("x" * 70_000, room.path("nothing.csv")):
            with pytest.raises(ttm_tools.EngineError):
                network.matrix(EIGHT, origins=origins)
        with pytest.raises(ttm_tools.EngineError, match="UTF-8"):
            network.matrix(EIGHT, origins=os.fsdecode(b"\xff.csv"))
        assert network.matrix(EIGHT, origins=["A"]).array().tolist() == [[0, 600, 1800]]
        assert len(processes(network)) == 1


def test_each_answer_is_that_of_a_run(room: Room, program: str) -> None:
    write_town(room)
    common: dict[str, Any] = {"walk": 300, "footpaths": [("C", "B", 119.5)], "scenarios": [room.path("cut.csv")]}
    with Network(room.folder, "2026-05-04", program=program, **common) as network:
        for number, question in enumerate(QUESTIONS):
            mine = network.matrix(**question)
            whole = ttm_tools.matrix(room.folder, "20260504", program=program, **common, **question)
            assert (mine.origins, mine.stops, mine.scenarios) == (whole.origins, whole.stops, ["base", "cut"])
            assert (mine.shares, mine.limits, mine.rounded) == (whole.shares, whole.limits, whole.rounded)
            for key, seconds in whole.seconds.items():
                np.testing.assert_array_equal(mine.seconds[key], seconds, f"question {number}")
                assert mine.sums[key].tolist() == whole.sums[key].tolist()
        assert network.matrix(EIGHT).times("base").loc["A"].tolist() == [0, 600, 1800]


def test_faults_of_questions_are_those_of_runs(room: Room, program: str) -> None:
    write_town(room)
    with Network(room.folder, "20260504", program=program) as network:
        for faulty in FAULTS:
            faulty = {name: room.path(value) if value == "nothing.csv" else value for name, value in faulty.items()}
            with pytest.raises(ttm_tools.EngineError) as run:
                ttm_tools.matrix(room.folder, "20260504", EIGHT, program=program, **faulty)
            with pytest.raises(ttm_tools.EngineError) as raised:
                network.matrix(EIGHT, **faulty)
            assert (raised.value.line, raised.value.status) == (run.value.line, run.value.status)
            assert network.matrix(EIGHT, origins=["A"]).array().tolist() == [[0, 600, 1800]]


def test_a_feed_that_is_refused_is_told_as_by_a_run(room: Room, program: str) -> None:
    write_town(room)
    room.write("trips.txt", "route_id,service_id,trip_id", [["R9", "M", "T1"]])
    with Network(room.folder, "20260504", program=program) as network:
        with pytest.raises(ttm_tools.EngineError) as raised:
            network.matrix(EIGHT)
    assert (raised.value.file, raised.value.record, raised.value.status) == ("trips.txt", 2, 2)
    assert raised.value.column == "route_id"


def test_what_the_process_warns_of_is_a_warning_once(room: Room) -> None:
    with Network(room.folder, "20270101", program=canned(room.folder)) as network:
        with pytest.warns(UserWarning) as caught:
            cell(network, EIGHT)
            cell(network, NINE)
    assert [str(item.message) for item in caught] == ["no trip runs on the date itself"]
