"""Texts for people: counts with nouns, numbers without needless decimals, and input made safe to show.

Names of stops, titles and the like come from other people's files. `printed`, `as_text` and `markdown` remove what
would control a terminal, or become markup in Markdown and HTML.
"""

import html
import math
import unicodedata
from decimal import Decimal
from typing import Collection, Sequence

UNPRINTABLE = {"Cc", "Cf", "Zl", "Zp"}  # Unicode categories: control, format, line and paragraph separators
MARKUP = "\\`*_[]|~"
LEFT_OUT = ", and are left out"
NOISE = 1e-13  # smaller numbers are differences of equal ones
KEEP_E = ("ouses", "auses", "fuses", "muses", "cuses")  # houses, causes, excuses; else campuses, viruses


def printed(text: str) -> str:
    """Return a text with `?` for each unprintable character, as `ttm` prints it."""
    if text.isascii() and text.isprintable():
        return text
    return "".join("?" if unicodedata.category(sign) in UNPRINTABLE else sign for sign in text)


def as_text(text: str) -> str:
    """Return a line of Markdown in which links and HTML are inactive; other markup stays."""
    return html.escape(printed(text), quote=False).replace("[", "\\[").replace("`", "\\`")


def markdown(text: str) -> str:
    """Return one line of Markdown that every renderer shows as the given text."""
    escaped = " ".join(printed(text.replace("\n", " ").replace("\t", " ")).split())
    escaped = html.escape(escaped, quote=False)
    for sign in MARKUP:
        escaped = escaped.replace(sign, "\\" + sign)
    return escaped


def display_text(text: str) -> str:
    """Return a text of a file for display: bytes that are not UTF-8 are decoded as Windows-1252, the likeliest guess.

    Such bytes are surrogate escapes in `text`.
    """
    if text.isascii() or not any("\udc80" <= letter <= "\udcff" for letter in text):
        return text
    data = text.encode("utf-8", "surrogateescape")
    try:
        return data.decode("cp1252")
    except UnicodeDecodeError:
        return data.decode("latin-1")


def short_number(number: float) -> str:
    """Return a number without a needless `.0`; "" for NaN."""
    if math.isnan(number):
        return ""
    return str(int(number)) if math.isfinite(number) and number == int(number) else repr(number)


def decimal(number: float, decimals: int = 6) -> str:
    """Return a number to this many decimals, without needless zeros; "" for NaN."""
    if math.isnan(number):
        return ""
    return str(int(number)) if number == int(number) else f"{number:.{decimals}f}".rstrip("0").rstrip(".")


def precise(number: float) -> str:
    """Return a number with at most 12 significant digits, no exponent and no needless zeros; "" for NaN."""
    if math.isnan(number):
        return ""
    return "0" if not number else f"{Decimal(f'{number:.11e}').normalize():f}"


def significant(number: float) -> str:
    """Return a number to four decimals, or below 0.01 to four significant digits; "" for NaN."""
    if math.isnan(number):
        return ""
    size = abs(number)
    decimals = 4 if size >= 0.01 or size < NOISE else 3 - math.floor(math.log10(size))
    text = f"{number:.{decimals}f}".rstrip("0").rstrip(".")
    return "0" if text == "-0" else text


def rounded(number: float, decimals: int) -> str:
    """Return a number to this many decimals, with commas between thousands: `1,234.5`.

    A number that these decimals would show as 0 has two significant digits: `0.012`.
    """
    text = f"{number:,.{decimals}f}"
    if not number or text.strip("-0."):
        return text
    return f"{number:.{1 - math.floor(math.log10(abs(number)))}f}".rstrip("0")


def quantity(count: int, noun: str) -> str:
    """Return a count and its noun, in the plural unless the count is 1: `1 stop`, `2,000 stops`."""
    return f"{count:,} {noun}{'' if count == 1 else 's'}"


def singular(name: str) -> str:
    """Return the singular of a column name: `job` for `jobs`. Irregular plurals are returned unchanged."""
    if name != "uses" and name.endswith("uses") and not name.endswith(KEEP_E):
        return name.removesuffix("es")
    if name.endswith("ovies"):
        return name.removesuffix("s")
    for ending, one in (("ies", "y"), ("sses", "ss"), ("ches", "ch"), ("shes", "sh"), ("xes", "x")):
        if name.endswith(ending):
            return name.removesuffix(ending) + one
    return name if not name.endswith("s") or name.endswith(("ss", "us", "is")) or name == "s" else name[:-1]


def grouped(number: float) -> str:
    """Return a number with commas between thousands and without needless decimals: `2,000`, `0.45`."""
    return f"{int(number) if number == int(number) else number:,}"


def counted(count: float, name: str) -> str:
    """Return a count and the column that it belongs to: `1 job`, `2,000 jobs`."""
    return f"{grouped(count)} {singular(name) if count == 1 else name}"


def first_few(names: Sequence[str], most: int = 4) -> str:
    """Return the first names of a list, and how many more there are."""
    more = len(names) - most
    return ", ".join(names[:most]) + (f" and {more:,} more" if more > 0 else "")


def sentences_on_lacking(
    one: tuple[str, Sequence[str]],
    other: tuple[str, Sequence[str]],
    kept: Collection[str],
    what: str = "origins",
    more: str = "",
) -> list[str]:
    """Which names of one aren't among those that are kept of both, and which of the other."""
    sentences = []
    for (name, names), (another, _) in ((one, other), (other, one)):
        lost = [display_text(item) for item in names if item not in kept]
        if lost:
            count = f"{len(lost):,} of {len(names):,} {what} of {name}"
            sentences.append(f"{count} aren't in {another}{more}: {first_few(lost)}")
    return sentences
