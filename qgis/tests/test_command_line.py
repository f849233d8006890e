"""The plugin as it is installed from its zip file, by `qgis_process`: each algorithm on the generated town."""

from __future__ import annotations

import csv
import json
import os
import shutil
import subprocess
import sys
import zipfile
from collections.abc import Iterator
from pathlib import Path
from typing import Any

import pytest

from helpers import ROOT, town

pytestmark = pytest.mark.xdist_group("qgis_process")  # one process installs the plugin
PROCESS = shutil.which("qgis_process.bin") or shutil.which("qgis_process") or ""
NAMES = ("preparefeed", "feedlayers", "traveltimes", "access", "whocanreach", "isochrones", "compare")
PLACES = {  # what is reached, and what people are counted at, with invented numbers
    "homes": ("id,people", 30, 0),
    "clinics": ("id,jobs", 3, 10),
}
PLAN = '[[scenario]]\nname = "without"\n[[scenario.action]]\ndo = "remove_route"\nroute = "L0013"\n'
DATE = "DATE=2026-05-04"


class Installed:
    """A profile with the plugin, the town, and layers of places."""

    def __init__(self, room: Path, programs: tuple[str, str]) -> None:
        self.room = room
        home = room / "home"
        plugins = home / ".local/share/QGIS/QGIS3/profiles/default/python/plugins"
        plugins.mkdir(parents=True)
        made = [sys.executable, str(ROOT / "packaging/plugin.py"), str(room)]
        subprocess.run(made, check=True, stdout=subprocess.DEVNULL)
        with zipfile.ZipFile(next(room.glob("ttm_processing-*.zip"))) as packed:
            packed.extractall(plugins)
        # QGIS takes the library of the first `python3` on the path, and crashes with that of another Python
        path = os.pathsep.join([str(Path(sys.executable).parent), os.environ.get("PATH", os.defpath)])
        own = {"HOME": str(home), "XDG_RUNTIME_DIR": str(home), "QT_QPA_PLATFORM": "offscreen", "PATH": path}
        found = {"TTM_TOOLS": programs[0], "TTM_PROGRAM": programs[1], "TTM_CACHE": str(home / "cache")}
        self.environment = {**os.environ, **own, **found}
        self.feed = town(room / "town")
        for place, (name, (columns, count, value)) in enumerate(PLACES.items()):
            self.write_places(name, columns.split(","), count, 7 + place, value)
        (room / "plan.toml").write_text(PLAN)
        assert self.ran("plugins", "enable", "ttm_processing").returncode == 0

    def write_places(self, name: str, columns: list[str], count: int, step: int, value: int) -> None:
        """Writes places next to stops of the town."""
        with (self.feed / "stops.txt").open(newline="") as file:
            stops = [row for row in csv.DictReader(file) if row["stop_lat"]][::step][:count]
        features = [
            {
                "type": "Feature",
                "properties": {columns[0]: f"{name}{place}", columns[1]: value or 10 * place},
                "geometry": {"type": "Point", "coordinates": [float(row["stop_lon"]), float(row["stop_lat"]) + 0.001]},
            }
            for place, row in enumerate(stops)
        ]
        text = json.dumps({"type": "FeatureCollection", "features": features})
        (self.room / f"{name}.geojson").write_text(text)

    def ran(self, *words: str) -> subprocess.CompletedProcess[str]:
        """Runs `qgis_process` in the room."""
        command = [PROCESS, *words]
        return subprocess.run(command, cwd=self.room, env=self.environment, capture_output=True, text=True, timeout=300)

    def run(self, name: str, *words: str) -> dict[str, Any]:
        """Runs an algorithm, which must succeed, and returns its results."""
        ran = self.ran("run", f"ttm:{name}", "--json", "--", *words)
        assert ran.returncode == 0, ran.stderr
        return dict(json.loads(ran.stdout)["results"])


@pytest.fixture(scope="module")
def installed(qgis: Any, program: str, tools: str, tmp_path_factory: pytest.TempPathFactory) -> Iterator[Installed]:
    if not PROCESS:
        pytest.skip("without qgis_process")
    yield Installed(tmp_path_factory.mktemp("installed"), (tools, program))


def layer(path: Path) -> Any:
    from qgis.core import QgsVectorLayer

    found = QgsVectorLayer(str(path), "layer", "ogr")
    assert found.isValid(), path
    return found


ENDS = ("ORIGINS=homes.geojson", "ORIGIN_ID=id", "DESTINATIONS=clinics.geojson", "DESTINATION_ID=id", DATE)


def test_each_algorithm_has_its_help(installed: Installed) -> None:
    listed = installed.ran("list").stdout
    assert all(f"ttm:{name}" in listed for name in NAMES)
    ran = installed.ran("help", "ttm:traveltimes")
    assert ran.returncode == 0 and "PERCENTILES: Percentiles" in ran.stdout, ran.stderr
    from qgis.core import QgsApplication

    for name in NAMES:
        algorithm = QgsApplication.processingRegistry().createAlgorithmById(f"ttm:{name}")
        assert len(algorithm.shortHelpString()) > 100 and not algorithm.icon().isNull()
        described = [parameter for parameter in algorithm.parameterDefinitions() if not parameter.isDestination()]
        assert [parameter.name() for parameter in described if not parameter.help()] == []


def test_prepare_then_times_by_the_prepared_folder(installed: Installed) -> None:
    found = installed.run("preparefeed", "FEEDS=town", "OUTPUT=region", "REPAIRS=repairs.gpkg")
    assert (found["TRIPS"], found["STOP_TIMES"], found["REPAIRED"]) == (4993, 61617, 0)
    words = ("FROM=08:00", "TO=08:09", "PERCENTILES=25,50", "OUTPUT=times.gpkg", "PAIRS=pairs.gpkg")
    installed.run("traveltimes", "FEED=region", *ENDS, *words)
    times = layer(installed.room / "times.gpkg")
    assert times.fields().names() == ["fid", "id", "people", "nearest", "p25_s", "p50_s", "reached"]
    assert (times.featureCount(), layer(installed.room / "pairs.gpkg").featureCount()) == (30, 90)
    assert times.renderer().type() == "RuleRenderer"  # by the style next to it


def test_layers_access_catchment_areas_and_comparison(installed: Installed) -> None:
    window = ("FEED=town", "FROM=08:00", "TO=08:04")
    installed.run("feedlayers", "FEED=town", DATE, "FROM=07:00", "TO=09:00", "STOPS=stops.gpkg", "LINES=lines.gpkg")
    assert layer(installed.room / "lines.gpkg").featureCount() > 50
    installed.run("access", *window, *ENDS, "FIELDS=jobs", "CUTOFFS=30,45", "OUTPUT=access.gpkg")
    assert layer(installed.room / "access.gpkg").fields().names()[-2:] == ["jobs_30", "jobs_45"]
    homes = ("ORIGINS=homes.geojson", "ORIGIN_ID=id", DATE)
    place = ("PLACE=-0.1,51.5 [EPSG:4326]", "PEOPLE=people", "CUTOFFS=15,30")
    installed.run("whocanreach", *window, *homes, *place, "OUTPUT=catchment.gpkg", "SUMMARY=people.csv")
    with (installed.room / "people.csv").open() as file:
        assert [row["cutoff"] for row in csv.DictReader(file)] == ["15", "30"]
    areas = ("ORIGINS=clinics.geojson", "ORIGIN_ID=id", DATE, "CUTOFFS=15,30", "CELL=250", "OUTPUT=areas.gpkg")
    installed.run("isochrones", *window, *areas)
    assert layer(installed.room / "areas.gpkg").featureCount() == 6
    plan = ("PLAN=plan.toml", "FIELDS=jobs", "CUTOFFS=30", "OUTPUT=change.gpkg", "LINES=changed.gpkg")
    installed.run("compare", *window, *ENDS, *plan)
    assert [feature["what"] for feature in layer(installed.room / "changed.gpkg").getFeatures()] == ["removed"]


def test_a_refusal_has_status_1_and_leaves_no_file(installed: Installed) -> None:
    ran = installed.ran("run", "ttm:traveltimes", "--", "FEED=town", *ENDS, "PERCENTILES=0", "OUTPUT=none.gpkg")
    assert ran.returncode == 1 and 'Percentiles: "0" is not allowed' in ran.stderr
    assert not (installed.room / "none.gpkg").exists()


def test_a_model_of_three_algorithms(installed: Installed) -> None:
    from qgis.core import QgsProcessingModelAlgorithm as Model
    from qgis.core import QgsProcessingModelChildAlgorithm as Child
    from qgis.core import QgsProcessingModelChildParameterSource as Source
    from qgis.core import QgsProcessingModelOutput as Result

    model = Model("chain", "ttm")
    steps = {"feed": "preparefeed", "times": "traveltimes", "access": "access"}
    for step, name in steps.items():
        child = Child(f"ttm:{name}")
        child.setChildId(step)
        model.addChildAlgorithm(child)
    model.childAlgorithm("feed").addParameterSources("FEEDS", [Source.fromStaticValue([str(installed.feed)])])
    ends = {"DESTINATIONS": "clinics.geojson", "DATE": "2026-05-04", "FROM": "08:00:00", "TO": "08:01:00"}
    for step in ("times", "access"):
        child = model.childAlgorithm(step)
        child.addParameterSources("FEED", [Source.fromChildOutput("feed", "OUTPUT")])
        for name, value in ends.items():
            given = str(installed.room / value) if value.endswith("json") else value
            child.addParameterSources(name, [Source.fromStaticValue(given)])
    homes = Source.fromStaticValue(str(installed.room / "homes.geojson"))
    model.childAlgorithm("times").addParameterSources("ORIGINS", [homes])
    last = model.childAlgorithm("access")
    last.addParameterSources("ORIGINS", [Source.fromChildOutput("times", "OUTPUT")])
    output = Result("result")
    output.setChildId("access")
    output.setChildOutputName("OUTPUT")
    last.setModelOutputs({"result": output})
    model.updateDestinationParameters()
    path = installed.room / "chain.model3"
    assert model.toFile(str(path))
    ran = installed.ran("run", str(path), "--", "access:result=chained.gpkg")
    assert ran.returncode == 0, ran.stderr
    assert {"nearest", "p50_s", "places_30"} <= set(layer(installed.room / "chained.gpkg").fields().names())
