"""Texts of pictures, in which a dollar is a dollar, and no mathematics; their font, and their titles."""

import functools
from pathlib import Path
from typing import Any, Callable, ParamSpec, TypeVar

Parameters = ParamSpec("Parameters")
Result = TypeVar("Result")
WIDE = 10.0  # inches
INTER = Path(__file__).resolve().parent / "assets" / "inter"
FAMILIES = ["Inter", "DejaVu Sans"]  # the second has letters that the first lacks


@functools.cache
def load_font() -> None:
    """Makes Inter known to matplotlib."""
    from matplotlib.font_manager import fontManager

    for path in sorted(INTER.glob("*.ttf")):
        fontManager.addfont(str(path))


def without_mathtext(make: Callable[Parameters, Result]) -> Callable[Parameters, Result]:
    """Has matplotlib take the texts of a figure as they are, in the font of pages."""

    @functools.wraps(make)
    def wrapped(*args: Parameters.args, **more: Parameters.kwargs) -> Result:
        import matplotlib

        load_font()
        with matplotlib.rc_context({"text.parse_math": False, "font.family": FAMILIES}):
            return make(*args, **more)

    return wrapped


def figure_with(title: str, height: float, above: float = 0.15) -> Any:
    """An empty figure of a height in inches, below its title."""
    from matplotlib.figure import Figure

    figure = Figure(figsize=(WIDE, height), dpi=135, facecolor="white")
    figure.text(0.02, 1 - above / height, title, fontsize=13, fontweight="bold", va="top", parse_math=False)
    return figure
