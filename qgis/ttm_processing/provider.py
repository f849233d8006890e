"""The provider: its algorithms, and its settings under Settings, Options, Processing, Providers."""

from __future__ import annotations

import os
from pathlib import Path
from typing import Any

from processing.core.ProcessingConfig import ProcessingConfig, Setting
from qgis.core import QgsProcessingProvider
from qgis.PyQt.QtGui import QIcon

from .programs import Programs, find_programs, plugin_version

NAME = "Travel times (ttm)"
ICONS = Path(__file__).with_name("icons")
MOST_THREADS = 64  # of the engine
ACTIVATED, TOOLS, ENGINE = "TTM_ACTIVATED", "TTM_TOOLS_PATH", "TTM_PROGRAM_PATH"
CACHE, THREADS, KEEP = "TTM_CACHE_PATH", "TTM_THREADS", "TTM_KEEP"
SETTINGS = (
    (ACTIVATED, "Activate", True, None),
    (TOOLS, "Program ttm-tools (empty: search)", "", Setting.FILE),
    (ENGINE, "Program ttm (empty: search)", "", Setting.FILE),
    (CACHE, "Folder for prepared feeds (empty: the user's cache)", "", Setting.FOLDER),
    (THREADS, "Threads (0: all processors)", 0, Setting.INT),
    (KEEP, "Keep working folders of failed runs", False, None),
)


class Provider(QgsProcessingProvider):
    """The provider `ttm`."""

    def id(self) -> str:
        return "ttm"

    def name(self) -> str:
        return NAME

    def longName(self) -> str:  # noqa: N802
        return f"Travel times by public transport, ttm {plugin_version()}"

    def versionInfo(self) -> str:  # noqa: N802
        return plugin_version()

    def icon(self) -> Any:
        return QIcon(str(ICONS / "ttm.svg"))

    def svgIconPath(self) -> str:  # noqa: N802
        return str(ICONS / "ttm.svg")

    def load(self) -> bool:
        """Add the settings and the algorithms."""
        ProcessingConfig.settingIcons[NAME] = self.icon()
        for name, label, default, kind in SETTINGS:
            ProcessingConfig.addSetting(Setting(NAME, name, label, default, valuetype=kind))
        ProcessingConfig.readSettings()
        self.refreshAlgorithms()
        return True

    def unload(self) -> None:
        """Remove the settings."""
        for name, *_ in SETTINGS:
            ProcessingConfig.removeSetting(name)

    def isActive(self) -> bool:  # noqa: N802
        return bool(setting(ACTIVATED))

    def loadAlgorithms(self) -> None:  # noqa: N802
        from .algorithms import ALGORITHMS

        for algorithm in ALGORITHMS:
            self.addAlgorithm(algorithm())


def setting(name: str) -> Any:
    """Return a setting of the provider."""
    found = ProcessingConfig.getSetting(name)
    return found if found is not None else next(default for key, _, default, _ in SETTINGS if key == name)


def programs() -> Programs:
    """Return both programs, see `find_programs`."""
    return find_programs(str(setting(TOOLS) or ""), str(setting(ENGINE) or ""))


def threads() -> int:
    """Return how many threads the engine gets."""
    return min(MOST_THREADS, int(setting(THREADS) or 0) or len(os.sched_getaffinity(0)))
