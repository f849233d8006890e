"""The ten steps of the package's docstring run as they stand, in a folder and with a cache of their own."""

import doctest
import os
import subprocess
import sys
from pathlib import Path

import pytest

for package in ("geopandas", "osmium", "scipy", "pyproj", "h5py"):
    pytest.importorskip(package)

import ttm_tools  # noqa: E402

RUN = "import doctest, sys, ttm_tools; sys.exit(doctest.testmod(ttm_tools).failed)"


def test_the_ten_steps_run_without_private_names() -> None:
    examples = doctest.DocTestParser().get_examples(ttm_tools.__doc__ or "")
    text = "".join(example.source for example in examples)
    assert len(examples) > 20
    assert not any(word in text for word in ("._", "import os", "subprocess", "ttm_tools.api"))


def test_the_ten_steps_run(tmp_path: Path, program: str) -> None:
    own = {"TTM_CACHE": str(tmp_path / "cache"), "TTM_PROGRAM": program, "PYTHONPATH": os.pathsep.join(sys.path)}
    words = [sys.executable, "-W", "ignore", "-c", RUN]
    ran = subprocess.run(words, cwd=tmp_path, env={**os.environ, **own}, capture_output=True, text=True)
    assert ran.returncode == 0, ran.stdout + ran.stderr
    assert {path.name for path in tmp_path.iterdir()} == {"cache", "areas.gpkg", "both.omx", "both.csv"}
