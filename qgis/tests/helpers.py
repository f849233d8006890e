"""Feeds, layers and runs for the tests; and the numbers of `ttm` itself, without the plugin."""

from __future__ import annotations

import csv
import os
import subprocess
import sys
from collections.abc import Iterable, Mapping, Sequence
from pathlib import Path
from typing import Any

ROOT = Path(__file__).resolve().parents[2]
SMALL = {
    "stops.txt": "stop_id,stop_name,stop_lat,stop_lon\nA,Alpha,51.50,-0.10\nB,Beta,51.52,-0.10\nC,Gamma,51.54,-0.08\n",
    "routes.txt": "route_id,route_short_name,route_long_name,route_type\nR1,1,North,3\nR2,2,East,0\n",
    "calendar.txt": "service_id,monday,tuesday,wednesday,thursday,friday,saturday,sunday,start_date,end_date\n"
    "MON,1,0,0,0,0,0,0,20260504,20260531\n",
    "trips.txt": "route_id,service_id,trip_id\nR1,MON,T1\nR2,MON,T2\n",
    "stop_times.txt": "trip_id,arrival_time,departure_time,stop_id,stop_sequence\n"
    "T1,08:00:00,08:00:00,A,1\nT1,08:10:00,08:10:00,B,2\nT2,08:15:00,08:15:00,B,1\nT2,08:30:00,08:30:00,C,2\n",
}
PLACES = {"A": (-0.10, 51.50), "B": (-0.10, 51.52), "C": (-0.08, 51.54)}
MONDAY = "2026-05-04"


def write_feed(folder: Path, files: Mapping[str, str] = SMALL) -> Path:
    """Writes a feed, and returns its folder."""
    folder.mkdir(parents=True, exist_ok=True)
    for name, text in files.items():
        (folder / name).write_text(text)
    return folder


def town(folder: Path) -> Path:
    """Writes the generated town, and returns its folder."""
    made = [sys.executable, str(ROOT / "bench/feedgen.py"), "town", str(folder)]
    subprocess.run(made, check=True, stdout=subprocess.DEVNULL)
    return folder


def layer_of(
    rows: Iterable[tuple[Sequence[Any], str]], fields: str = "id:string", kind: str = "Point", crs: str = "EPSG:4326"
) -> Any:
    """Returns a layer in memory.

    `rows` has the attributes and the geometry (WKT, "" for none) of each feature, in degrees whatever `crs` is.
    """
    from qgis.core import (
        QgsCoordinateReferenceSystem,
        QgsCoordinateTransform,
        QgsFeature,
        QgsGeometry,
        QgsProject,
        QgsVectorLayer,
    )

    described = "&".join(f"field={field}" for field in fields.split(",") if field)
    layer = QgsVectorLayer(f"{kind}?crs={crs}&{described}", "layer", "memory")
    assert layer.isValid()
    transform = QgsCoordinateTransform(QgsCoordinateReferenceSystem("EPSG:4326"), layer.crs(), QgsProject.instance())
    features = []
    for attributes, shape in rows:
        feature = QgsFeature(layer.fields())
        feature.setAttributes(list(attributes))
        if shape:
            geometry = QgsGeometry.fromWkt(shape)
            geometry.transform(transform)
            feature.setGeometry(geometry)
        features.append(feature)
    assert layer.dataProvider().addFeatures(features)[0]
    layer.updateExtents()
    return layer


def points(names: Iterable[str] = PLACES, **more: Any) -> Any:
    """Returns a layer of the small feed's stops."""
    return layer_of([([name], "POINT({} {})".format(*PLACES[name])) for name in names], **more)


def run(name: str, **parameters: Any) -> dict[str, Any]:
    """Runs an algorithm of the provider; `log` has the warnings."""
    import processing

    log = parameters.pop("log", None)
    feedback = feedback_of([] if log is None else log)
    return dict(processing.run(f"ttm:{name}", parameters, feedback=feedback))


def feedback_of(log: list[str]) -> Any:
    """Returns a feedback that lists the warnings."""
    from qgis.core import QgsProcessingFeedback

    class Feedback(QgsProcessingFeedback):  # type: ignore[misc]
        def pushWarning(self, warning: str) -> None:  # noqa: N802
            log.append(warning)

    return Feedback(False)


def refusal(name: str, **parameters: Any) -> str:
    """Runs an algorithm that must refuse, and returns the message's last line."""
    from qgis.core import QgsProcessingException

    try:
        run(name, **parameters)
    except QgsProcessingException as error:
        return str(error).strip().splitlines()[-1]
    raise AssertionError("not refused")


def rows_of(layer: Any, *names: str) -> list[tuple[Any, ...]]:
    """Returns the attributes of all features, NULL as None."""
    from ttm_processing.compat import is_null

    fields = names or tuple(layer.fields().names())
    return [
        tuple(None if is_null(feature[name]) else feature[name] for name in fields) for feature in layer.getFeatures()
    ]


class Direct:
    """What `ttm` prints for the folder of `ttm-tools points`, without the plugin."""

    def __init__(self, programs: tuple[str, str], folder: Path, feed: Path) -> None:
        self.tools, self.engine = programs
        self.folder, self.feed = folder, feed
        folder.mkdir(parents=True, exist_ok=True)

    def join(self, origins: Mapping[str, Any], destinations: Mapping[str, Any], walk: int, *options: str) -> None:
        """Joins places, longitude and latitude by identifier, to the feed."""
        words = []
        for name, places in (("origins", origins), ("destinations", destinations)):
            path = self.folder / f"{name}.csv"
            with path.open("w", newline="") as file:
                writer = csv.writer(file)
                writer.writerow(["id", "lat", "lon"])
                writer.writerows([key, repr(lat), repr(lon)] for key, (lon, lat) in places.items())
            words += [f"--{name}", str(path)]
        command = [self.tools, "points", str(self.feed), *words, "--limit", str(walk), "--speed", repr(4.8 / 3.6)]
        subprocess.run([*command, *options, "--out", str(self.folder / "doors")], check=True, capture_output=True)

    def matrix(self, walk: int, *options: str) -> str:
        """Returns the matrix of one plain run."""
        doors = self.folder / "doors"
        files: dict[str, object] = {"feed": doors / "feed", "footpaths": doors / "footpaths.csv"}
        ends = {"origins": doors / "origins.csv", "destinations": doors / "destinations.csv"}
        fixed: dict[str, object] = {"date": "20260504", "walk": walk, "within": 1800, "workers": 4, "tries": 1}
        words = [word for name, value in {**files, **ends, **fixed}.items() for word in (f"--{name}", str(value))]
        ran = subprocess.run([self.engine, *words, *options], check=True, capture_output=True, text=True)
        return ran.stdout


def times_in(matrix: str) -> dict[tuple[str, int], dict[str, int | None]]:
    """Returns seconds by origin and percentile, and by destination."""
    header, *rows = csv.reader(matrix.splitlines())
    return {
        (row[1], int(row[2])): {name: int(cell) if cell else None for name, cell in zip(header[4:], row[4:])}
        for row in rows
    }


def processes_of(text: str) -> list[int]:
    """Returns the processes whose command line has a text."""
    found = []
    for entry in Path("/proc").iterdir():
        if entry.name.isdigit() and int(entry.name) != os.getpid():
            try:
                words = (entry / "cmdline").read_bytes().replace(b"\0", b" ").decode(errors="replace")
            except OSError:
                continue
            if text in words:
                found.append(int(entry.name))
    return found
