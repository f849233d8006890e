"""`executor=` beyond one process: a Dask cluster that loses a worker, and two ranks of MPI."""

import os
import shutil
import signal
import subprocess
import sys
import textwrap
from pathlib import Path
from typing import Any

import numpy as np
import pytest

pytest.importorskip("geopandas")

from test_api_network import homes, write_feed  # noqa: E402
from ttm_tools.api import asking  # noqa: E402
from ttm_tools.api.opening import open_network  # noqa: E402
from ttm_tools.core.question import Question  # noqa: E402
from ttm_tools.core.settings import settings  # noqa: E402

QUESTION = Question("2026-05-04", "07:58", "08:01", percentiles=(25, 75), max_walk="20 min")
METRES = [50.0 * number for number in range(24)]
AT_ONCE = 3  # origins of a part


@pytest.fixture(autouse=True)
def own_settings(monkeypatch: pytest.MonkeyPatch, tmp_path: Path, program: str) -> None:
    monkeypatch.setenv("TTM_CACHE", str(tmp_path / "cache"))
    monkeypatch.setenv("TTM_PROGRAM", program)
    monkeypatch.setattr(settings, "engine", None)
    monkeypatch.setattr(asking, "block_size", lambda request: AT_ONCE)


def cells(matrix: Any) -> Any:
    return np.nan_to_num(np.asarray(matrix), nan=-1)


def test_a_dask_cluster_that_loses_a_worker_gives_what_one_machine_gives(tmp_path: Path) -> None:
    distributed = pytest.importorskip("distributed")
    with open_network(write_feed(tmp_path / "feed")) as net:
        expected = cells(net.matrix(homes(*METRES), homes(0, 2000, 4000), QUESTION))
        with distributed.LocalCluster(
            n_workers=2, threads_per_worker=1, dashboard_address=None, local_directory=str(tmp_path / "dask")
        ) as cluster, distributed.Client(cluster) as client:
            processes = sorted(client.run(os.getpid).values())
            killed = list[int]()

            def lose_one(done: int, total: int) -> None:
                if not killed:
                    os.kill(processes[0], signal.SIGKILL)
                    killed.append(done)

            found = net.matrix(
                homes(*METRES), homes(0, 2000, 4000), QUESTION, executor=client.get_executor(), progress=lose_one
            )
        assert killed == [AT_ONCE]
        assert (cells(found) == expected).all() and (expected >= 0).any()


SCRIPT = """
import sys

from mpi4py.futures import MPICommExecutor
from mpi4py import MPI
from test_api_executors import AT_ONCE, METRES, QUESTION, cells
from test_api_network import homes
from ttm_tools.api import asking
from ttm_tools.api.opening import open_network

asking.block_size = lambda request: AT_ONCE
with MPICommExecutor(MPI.COMM_WORLD, root=0) as executor:
    if executor is not None:
        with open_network(sys.argv[1]) as net:
            places = homes(*METRES), homes(0, 2000, 4000)
            alone, shared = (cells(net.matrix(*places, QUESTION, executor=one)) for one in (None, executor))
            print("equal" if (alone == shared).all() and (alone >= 0).any() else "different", MPI.COMM_WORLD.size)
"""


def test_two_ranks_of_mpi_give_what_one_machine_gives(tmp_path: Path) -> None:
    pytest.importorskip("mpi4py")
    if shutil.which("mpiexec") is None:
        pytest.skip("without mpiexec")
    script = tmp_path / "ranks.py"
    script.write_text(textwrap.dedent(SCRIPT))
    feed = write_feed(tmp_path / "feed")
    words = ["mpiexec", "--allow-run-as-root", "--oversubscribe", "-n", "2", sys.executable, str(script), str(feed)]
    own = {**os.environ, "PYTHONPATH": os.pathsep.join([*sys.path, str(Path(__file__).parent)])}
    ran = subprocess.run(words, capture_output=True, text=True, env=own, cwd=tmp_path, timeout=300)
    assert (ran.stdout, ran.returncode) == ("equal 2\n", 0), ran.stderr
