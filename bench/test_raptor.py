"""The baselines of bench/raptor: their own tests, and the percentiles of the second program, tests/program/plain.py."""

import csv
import io
import os
import shutil
import subprocess
import sys
from pathlib import Path

import pytest

import feedgen
from record import ROOT
from setting import RAPTOR, figures_in
from shared import Study, first_origins, write_origins

sys.path.append(str(ROOT / "tests" / "program"))
import plain  # noqa: E402

CARGO = shutil.which("cargo") or str(Path.home() / ".cargo" / "bin" / "cargo")


@pytest.mark.skipif(not Path(CARGO).exists(), reason="without cargo")
def test_a_town_has_the_percentiles_of_the_second_program(tmp_path: Path) -> None:
    environment = {**os.environ, "CARGO_TARGET_DIR": str(tmp_path / "target")}
    for command in (["test"], ["build", "--release"]):
        subprocess.run([CARGO, *command, "--offline", "-q"], cwd=RAPTOR, env=environment, check=True)
    feed, origins = tmp_path / "town", str(tmp_path / "origins.csv")
    feedgen.write_feed("town", 1, str(feed), 90)
    write_origins(origins, first_origins(str(feed), 2))
    matrix = io.StringIO()
    plain.write_matrix(Study(minutes=3, shares=(50, 100)).arguments(str(feed), origins, 1), matrix)
    rows = list(csv.reader(io.StringIO(matrix.getvalue())))[1:]
    words = [str(feed), "20260504", "07:00:00", "3", "4", "600", f"{feed}/footpaths.csv", origins, "50,100"]
    for algorithm in ("textbook", "range"):
        text = subprocess.check_output([f"{tmp_path}/target/release/raptor", algorithm, *words], text=True)
        for share in ("50", "100"):
            cells = [int(cell) for row in rows if row[2] == share for cell in row[4:] if cell]
            expected = {f"percentile {share}, cells": len(cells), f"percentile {share}, seconds": sum(cells)}
            assert expected.items() <= figures_in(text).items() and len(cells) > 400
