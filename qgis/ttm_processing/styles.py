"""Styles of the outputs: their classes, from `styles/classes.json`, and how a layer gets them.

In the desktop a post-processor styles the layer when it is loaded. `qgis_process` and `processing.run` call none, so a
new file gets its style by a `.qml` file next to it, which QGIS loads with the layer.
"""

from __future__ import annotations

import collections
from pathlib import Path
from typing import Any, Sequence

from qgis.core import (
    QgsFillSymbol,
    QgsLineSymbol,
    QgsMapLayer,
    QgsMarkerSymbol,
    QgsProcessingLayerPostProcessorInterface,
    QgsReadWriteContext,
    QgsRuleBasedRenderer,
    QgsVectorLayer,
    QgsWkbTypes,
)
from qgis.PyQt.QtXml import QDomDocument

from . import compat
from .classes import Class

OPAQUE = 255
FILES = (".gpkg", ".shp", ".geojson", ".json", ".fgb", ".gml", ".sqlite")  # formats whose layers QGIS styles by a file


def colour_of(colour: str, opacity: float) -> str:
    """Return a colour such as #0b57a4 as QGIS writes it, with its opacity; "" is transparent."""
    if not colour:
        return "0,0,0,0"
    red, green, blue = (int(colour[place : place + 2], 16) for place in (1, 3, 5))
    return f"{red},{green},{blue},{round(OPAQUE * opacity)}"


def symbol_of(item: Class, geometry: Any) -> Any:
    """Return the symbol of a class, for points, lines or areas."""
    colour = colour_of(item.colour, item.opacity)
    edge = colour_of(item.edge or item.colour, 1.0)
    if geometry == compat.LINES:
        dash = {"use_custom_dash": "1", "customdash": item.dash, "customdash_unit": "MM"} if item.dash else {}
        return QgsLineSymbol.createSimple({"line_color": colour, "line_width": f"{item.size:g}", **dash})
    if geometry == compat.POLYGONS:
        return QgsFillSymbol.createSimple({"color": colour, "outline_color": edge, "outline_width": "0.1"})
    marker = {"name": item.shape, "angle": f"{item.angle:g}", "size": f"{item.size:g}", "color": colour}
    return QgsMarkerSymbol.createSimple({**marker, "outline_color": edge, "outline_width": f"{item.edge_width:g}"})


def renderer_of(classes: Sequence[Class], wkb_type: Any) -> Any:
    """Return a renderer with a rule for each class; the key has their labels in this order."""
    geometry = QgsWkbTypes.geometryType(wkb_type)
    root = QgsRuleBasedRenderer.Rule(None)
    for item in classes:
        root.appendChild(QgsRuleBasedRenderer.Rule(symbol_of(item, geometry), 0, 0, item.expression, item.label))
    return QgsRuleBasedRenderer(root)


class Styler(QgsProcessingLayerPostProcessorInterface):
    """Gives a layer its renderer when the desktop has loaded it, in the main thread."""

    def __init__(self, classes: Sequence[Class], wkb_type: Any) -> None:
        super().__init__()
        self.classes, self.wkb_type = classes, wkb_type

    def postProcessLayer(self, layer: Any, context: Any, feedback: Any) -> None:  # noqa: N802
        layer.setRenderer(renderer_of(self.classes, self.wkb_type))
        layer.triggerRepaint()


# QGIS keeps no reference to post-processors, and may load the layers after the algorithm's own object is gone. The last
# ones suffice: a run has at most two.
LIVING: collections.deque[Styler] = collections.deque(maxlen=200)


def apply_styles(context: Any, place: Any, classes: Sequence[Class], wkb_type: Any) -> None:
    """Give an output its style: in the desktop when it is loaded, and by a file next to a file."""
    write_sidecar(str(place), classes, wkb_type)
    if context.willLoadLayerOnCompletion(place):
        LIVING.append(Styler(classes, wkb_type))
        context.layerToLoadOnCompletionDetails(place).setPostProcessor(LIVING[-1])


def write_sidecar(place: str, classes: Sequence[Class], wkb_type: Any) -> None:
    """Write the style next to a new file, if none is there."""
    path = Path(place.split("|")[0])
    style = path.with_suffix(".qml")
    if path.suffix.lower() not in FILES or not path.parent.is_dir() or style.exists():
        return
    layer = QgsVectorLayer(f"{QgsWkbTypes.displayString(QgsWkbTypes.flatType(wkb_type))}?crs=EPSG:4326", "", "memory")
    layer.setRenderer(renderer_of(classes, wkb_type))
    document = QDomDocument()
    layer.exportNamedStyle(document, QgsReadWriteContext(), QgsMapLayer.Symbology)
    style.write_text(document.toString(2), encoding="utf-8")
