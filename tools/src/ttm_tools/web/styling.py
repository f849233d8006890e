"""The style that pages share: the tokens of `classes` as variables, light and dark, and the font Inter."""

import base64
from pathlib import Path

from ..views.classes import GAIN, LOSS, TABLE, TOKENS

FONT = Path(__file__).resolve().parent / "assets" / "inter"
WEIGHTS = {400: "Regular", 600: "SemiBold", 700: "Bold"}
SHADOWS = {  # of the toolbar, of cards, and of a phone's panel
    "shadow-bar": "0 1px 2px rgba(20,23,26,.14),0 2px 8px rgba(20,23,26,.08)",
    "shadow-card": "0 1px 2px rgba(20,23,26,.10),0 6px 20px rgba(20,23,26,.14)",
    "shadow-sheet": "0 -2px 16px rgba(20,23,26,.16)",
}


def variables(values: dict[str, str]) -> str:
    return ":root{" + "".join(f"--{name}:{value};" for name, value in values.items()) + "}"


def token_style() -> str:
    """Returns the variables of the shell; its dark theme is for screens that ask for one. The map stays light."""
    dark: dict[str, str] = TABLE["dark"]
    light = TOKENS | SHADOWS | {"loss": LOSS[-1], "gain": GAIN[-1], "swatch": "transparent"}
    theme = dark | {"loss": dark["error"], "gain": dark["action"], "swatch": TOKENS["land"]}
    scheme = "color-scheme:light dark;"
    dark_style = f"@media screen and (prefers-color-scheme:dark){{{variables(theme)}}}"
    return f"{variables(light)}\n:root{{{scheme}}}\n{dark_style}\n"


def font_style() -> str:
    """Returns the rules that embed the font, whose licence is next to its files."""
    rules = []
    for weight, name in WEIGHTS.items():
        data = base64.b64encode((FONT / f"Inter-{name}.woff2").read_bytes()).decode("ascii")
        source = f'url("data:font/woff2;base64,{data}") format("woff2")'
        rules.append(f"@font-face{{font-family:Inter;font-weight:{weight};font-display:swap;src:{source}}}\n")
    return "".join(rules)
