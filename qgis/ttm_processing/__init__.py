"""Travel times by public transport in QGIS: a Processing provider that runs `ttm-tools` and `ttm`."""

from __future__ import annotations

from typing import Any


def classFactory(iface: Any) -> Any:  # noqa: N802: the name that QGIS calls
    """Return the plugin. `iface` is the desktop's interface, or None without a desktop."""
    from .plugin import Plugin

    return Plugin(iface)
