"""Draws the pictures of docs/howto/qgis.md: QGIS's own window, with the plugin, on the generated town.

    xvfb-run -a -s "-screen 0 1400x900x24" env TTM_PICTURES=FOLDER TTM_TOOLS=.. TTM_PROGRAM=.. QT_QPA_PLATFORM=xcb \
        qgis.bin --nologo --noversioncheck --code packaging/qgis_pictures.py

The plugin has to be enabled in the profile. FOLDER has the town's feed as `town`, and gets the pictures.
"""

from __future__ import annotations

import csv
import math
import os
import sys
import time
import traceback
from collections.abc import Callable
from pathlib import Path
from typing import Any

import processing
from PIL import Image
from qgis.core import (
    QgsFeature,
    QgsGeometry,
    QgsMarkerSymbol,
    QgsPointXY,
    QgsProject,
    QgsSingleSymbolRenderer,
    QgsVectorLayer,
)
from qgis.PyQt.QtCore import QCoreApplication, QTimer
from qgis.PyQt.QtWidgets import QDockWidget, QLineEdit
from qgis.utils import iface

ROOM = Path(os.environ["TTM_PICTURES"])
WIDTH, HEIGHT = 1240, 760
SIDE = 0.0045  # degrees of latitude between two homes
PLAN = '[[scenario]]\nname = "without13"\n[[scenario.action]]\ndo = "remove_route"\nroute = "L0013"\n'
CLINICS = ("B00016N", "B00170S", "B00122N")


def wait(seconds: float) -> None:
    """Lets QGIS work for some seconds."""
    end = time.monotonic() + seconds
    while time.monotonic() < end:
        QCoreApplication.processEvents()
        time.sleep(0.02)


def stops() -> dict[str, tuple[float, float]]:
    """Returns the stops of the town."""
    with (ROOM / "town/stops.txt").open(newline="") as file:
        rows = [row for row in csv.DictReader(file) if row["stop_lat"]]
    return {row["stop_id"]: (float(row["stop_lon"]), float(row["stop_lat"])) for row in rows}


def layer(name: str, fields: str, rows: list[tuple[list[Any], tuple[float, float]]]) -> Any:
    """Returns a layer of points in the project, in metres."""
    made = QgsVectorLayer(f"Point?crs=EPSG:4326&{fields}", name, "memory")
    for attributes, place in rows:
        feature = QgsFeature(made.fields())
        feature.setAttributes(attributes)
        feature.setGeometry(QgsGeometry.fromPointXY(QgsPointXY(*place)))
        made.dataProvider().addFeature(feature)
    QgsProject.instance().addMapLayer(made)
    return made


def homes() -> Any:
    """Returns homes on a grid around the stops, with invented people."""
    known = list(stops().values())
    west, east = min(x for x, _ in known), max(x for x, _ in known)
    south, north = min(y for _, y in known), max(y for _, y in known)
    step = SIDE / math.cos(math.radians(south))
    rows = []
    for row in range(int((north - south) / SIDE) + 1):
        for column in range(int((east - west) / step) + 1):
            place = (west + column * step, south + row * SIDE)
            if min((place[0] - x) ** 2 + (place[1] - y) ** 2 for x, y in known) < SIDE**2:
                rows.append(([f"h{row:02d}{column:02d}", 40 + (row * 37 + column * 11) % 90], place))
    return layer("Homes", "field=id:string&field=people:integer", rows)


def clinics() -> Any:
    """Returns three clinics."""
    known = stops()
    made = layer("Clinics", "field=id:string&field=jobs:integer", [([name, 10], known[name]) for name in CLINICS])
    star = {"name": "star", "size": "5", "color": "#ffffff", "outline_color": "#14171a", "outline_width": "0.5"}
    made.setRenderer(QgsSingleSymbolRenderer(QgsMarkerSymbol.createSimple(star)))
    return made


def save(widget: Any, name: str) -> None:
    """Draws a window into a file, with 256 colours."""
    path = ROOM / f"{name}.png"
    assert widget.grab().save(str(path))
    with Image.open(path) as drawn:
        few = drawn.convert("RGB").quantize(256, dither=Image.Dither.NONE)
    few.save(path, optimize=True)


def window(name: str, shown: list[Any]) -> None:
    """Draws the window with some layers, from the top to the ground, around the homes."""
    root = QgsProject.instance().layerTreeRoot()
    root.setHasCustomLayerOrder(True)
    root.setCustomLayerOrder(shown)
    for node in root.findLayers():
        node.setItemVisibilityChecked(node.layer() in shown)
        node.setExpanded(False)  # the view follows changes alone
        wait(0.2)
        node.setExpanded(node.layer() in shown)
    canvas = iface.mapCanvas()
    canvas.setExtent(QgsProject.instance().mapLayersByName("Homes")[0].extent())
    canvas.zoomByFactor(1.05)
    canvas.refreshAllLayers()
    canvas.waitWhileRendering()
    wait(2)
    save(iface.mainWindow(), name)


def toolbox(main: Any) -> None:
    """Shows the plugin's algorithms alone in the toolbox."""
    for dock in main.findChildren(QDockWidget):
        dock.setVisible(dock.objectName() in ("Layers", "ProcessingToolbox"))
        if dock.objectName() == "ProcessingToolbox":
            dock.findChild(QLineEdit).setText("ttm:")


def results(name: str, **parameters: Any) -> list[Any]:
    """Runs an algorithm as the desktop does, and returns the layers that it loaded."""
    before = set(QgsProject.instance().mapLayers())
    processing.runAndLoadResults(f"ttm:{name}", parameters)
    wait(1)
    return [found for key, found in QgsProject.instance().mapLayers().items() if key not in before]


def draw() -> None:
    """Draws all pictures."""
    main = iface.mainWindow()
    main.resize(WIDTH, HEIGHT)
    toolbox(main)
    origins, destinations = homes(), clinics()
    window_of = {"FEED": str(ROOM / "town"), "DATE": "2026-05-04", "FROM": "08:00:00", "TO": "08:29:00"}
    ends = {"ORIGINS": origins, "ORIGIN_ID": "id", "DESTINATIONS": destinations, "DESTINATION_ID": "id"}
    dialog = processing.createAlgorithmDialog("ttm:traveltimes", {**window_of, **ends})
    dialog.resize(920, 900)
    dialog.show()
    wait(2)
    save(dialog, "qgis_dialog")
    dialog.close()
    found = results("feedlayers", **{**window_of, "FROM": "07:00:00", "TO": "09:00:00"}, **out("STOPS", "LINES"))
    stops_layer, lines = sorted(found, key=lambda item: str(item.name()), reverse=True)
    (times,) = results("traveltimes", **window_of, **ends, **out("OUTPUT"))
    window("qgis_times", [destinations, times])
    areas = results(
        "isochrones", **window_of, ORIGINS=destinations, ORIGIN_ID="id", CUTOFFS="10,20,30", **out("OUTPUT")
    )
    window("qgis_areas", [destinations, *areas, stops_layer, lines])
    (ROOM / "plan.toml").write_text(PLAN)
    compared = {"PLAN": str(ROOM / "plan.toml"), "FIELDS": "jobs", "CUTOFFS": "30"}
    changes = results("compare", **window_of, **ends, **compared, **out("OUTPUT", "LINES"))
    window("qgis_changes", [destinations, *changes])
    place = {"PLACE": "-0.10,51.50 [EPSG:4326]", "ORIGINS": origins, "ORIGIN_ID": "id", "PEOPLE": ["people"]}
    reached = results("whocanreach", **window_of, **place, **out("OUTPUT"))
    window("qgis_reach", [destinations, *reached])
    counted = results("access", **window_of, **ends, FIELDS=["jobs"], CUTOFFS="20", **out("OUTPUT"))
    window("qgis_access", [destinations, *counted])


def out(*names: str) -> dict[str, str]:
    """Returns parameters for temporary layers."""
    return dict.fromkeys(names, "TEMPORARY_OUTPUT")


def guarded(action: Callable[[], None]) -> None:
    """Does something, and ends QGIS, with a traceback if it failed."""
    status = 0
    try:
        action()
    except BaseException:
        traceback.print_exc()
        status = 1
    sys.stdout.flush()
    os._exit(status)  # PyQGIS may crash while Python shuts down


QTimer.singleShot(3000, lambda: guarded(draw))
