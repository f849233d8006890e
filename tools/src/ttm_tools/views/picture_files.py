"""Picture files: SVG or PDF if their names end so, else PNG."""

import argparse
from pathlib import Path
from typing import Any

from ..core.files import output

UNDATED = {"svg": {"Date": None}, "pdf": {"CreationDate": None}}  # a date would make each file different
OTHERS = ("jpg", "jpeg", "tif", "tiff", "webp", "eps", "ps", "gif", "bmp", "svgz")  # formats that are refused


def kind_of(path: str) -> str:
    """Return the extension of a file name in lower case, without the dot."""
    return Path(path).suffix.lower()[1:]


def picture_name(path: str) -> str:
    """Check the name of a picture, as an argparse type. Without a known extension the picture is a PNG file."""
    if kind_of(path) in OTHERS:
        raise argparse.ArgumentTypeError(f"{path!r} is not the name of a picture: .png, .svg or .pdf")
    return path


def write_picture(path: str, figure: Any) -> None:
    """Write a matplotlib figure to a picture file."""
    from matplotlib import rc_context

    undated = UNDATED.get(kind_of(path))
    with output(path) as file, rc_context({"svg.hashsalt": "ttm-tools"}):
        figure.savefig(file, format=kind_of(path) if undated else "png", dpi="figure", metadata=undated)
