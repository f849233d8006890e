"""What all algorithms share: names, help, icon, the checks before the work, and the frame around it."""

from __future__ import annotations

from pathlib import Path
from typing import Any, Iterator, Sequence

from qgis.core import QgsProcessingAlgorithm, QgsProcessingParameterDefinition
from qgis.PyQt.QtCore import QUrl
from qgis.PyQt.QtGui import QIcon

from .. import provider
from ..children import Cancelled
from ..classes import Class
from ..programs import MissingProgram
from ..run import Run
from ..styles import apply_styles
from ..values import Values

GROUPS = {"feeds": "Feeds", "times": "Travel times", "compare": "Comparison"}
PAGES = ("/usr/share/doc/ttm/html", "/usr/local/share/doc/ttm/html")
PAGE = "howto/qgis.html"


class Algorithm(QgsProcessingAlgorithm):
    """An algorithm of the provider. Subclasses set the texts, and define `definitions` and `compute`."""

    NAME = TITLE = GROUP = HELP = ""

    def name(self) -> str:
        return self.NAME

    def displayName(self) -> str:  # noqa: N802
        return self.TITLE

    def group(self) -> str:
        return GROUPS[self.GROUP]

    def groupId(self) -> str:  # noqa: N802
        return self.GROUP

    def shortHelpString(self) -> str:  # noqa: N802
        return self.HELP

    def helpUrl(self) -> str:  # noqa: N802
        found = next((f"{folder}/{PAGE}" for folder in PAGES if Path(folder, PAGE).is_file()), "")
        return str(QUrl.fromLocalFile(found).toString()) if found else ""

    def icon(self) -> Any:
        return QIcon(self.svgIconPath())

    def svgIconPath(self) -> str:  # noqa: N802
        return str(provider.ICONS / f"{self.NAME}.svg")

    def createInstance(self) -> Any:  # noqa: N802
        return type(self)()

    def initAlgorithm(self, configuration: Any = None) -> None:  # noqa: N802
        for definition in self.definitions():
            if isinstance(definition, QgsProcessingParameterDefinition):
                self.addParameter(definition)
            else:
                self.addOutput(definition)

    def definitions(self) -> list[Any]:
        """Return the parameters, and the outputs that have none."""
        raise NotImplementedError

    def canExecute(self) -> tuple[bool, str]:  # noqa: N802
        """Return whether the programs are there, and else why not and how to install them."""
        try:
            provider.programs()
        except MissingProgram as error:
            return False, str(error)
        return True, ""

    def errors(self, values: Values) -> Iterator[str]:
        """Yield the errors in the parameters that need no work to find."""
        yield from values.errors()

    def checkParameterValues(self, parameters: Any, context: Any) -> tuple[bool, str]:  # noqa: N802
        is_right, message = super().checkParameterValues(parameters, context)
        if is_right:
            message = next(self.errors(Values(self, parameters, context)), "")
        return is_right and not message, message

    def processAlgorithm(self, parameters: Any, context: Any, feedback: Any) -> dict[str, Any]:  # noqa: N802
        try:
            with Run(self, parameters, context, feedback) as run:
                return self.compute(run)
        except Cancelled:
            feedback.pushInfo("Cancelled; no layer was written.")
            return {}

    def compute(self, run: Run) -> dict[str, Any]:
        """Do the work, and return the outputs by their names."""
        raise NotImplementedError

    def style(self, run: Run, place: Any, classes: Sequence[Class], wkb_type: Any) -> None:
        """Give a written layer its style: in the desktop when it is loaded, and by a file next to a file."""
        apply_styles(run.context, place, classes, wkb_type)
