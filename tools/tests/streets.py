"""Streets for tests: files of OpenStreetMap with nodes by their metres north and east of a place near the equator."""

from pathlib import Path
from typing import Mapping, Sequence
from xml.sax.saxutils import quoteattr

from helpers import METRE

Way = tuple[Sequence[int], Mapping[str, str]]


def write_osm(path: Path, nodes: Mapping[int, tuple[float, float]], ways: Sequence[Way]) -> str:
    """Writes nodes and ways, the place being that of `Room.stops`."""
    lines = ["<?xml version='1.0' encoding='UTF-8'?>", "<osm version='0.6'>"]
    for node, (north, east) in sorted(nodes.items()):
        place = f"lat='{north * METRE:.9f}' lon='{1 + east * METRE:.9f}'"
        lines.append(f"<node id='{node}' version='1' {place}/>")
    for number, (refs, tags) in enumerate(ways, 1):
        lines.append(f"<way id='{number}' version='1'>")
        lines += [f"<nd ref='{ref}'/>" for ref in refs]
        lines += [f"<tag k={quoteattr(key)} v={quoteattr(value)}/>" for key, value in tags.items()]
        lines.append("</way>")
    path.write_text("\n".join([*lines, "</osm>"]) + "\n", encoding="utf-8")
    return str(path)
