"""Looks that what several places say is the same in all of them.

The small feed of `tests/program/small.py` is that of the crate `small_feed`; no two crates declare a limit, or the
number of lanes, of one name; and the help and the tools state the limits that the code goes by.
"""

from __future__ import annotations

import re
from collections.abc import Iterator
from pathlib import Path

import repository
from small import FEED

BYTES = re.compile(r'b"((?:[^"\\]|\\.)*)"', re.DOTALL)
LIMIT = re.compile(r"(?m)^(?:pub )?const (MOST_\w+|LANES): \w+ = ([\d_]+);")

# each text of the help that states a limit: the limit stands for the braces
STATED = [
    ("Most rides of a journey, 1 to {}", "MOST_RIDES"),
    ("Longest walk in seconds, 0 to {}", "MOST_FOOT_SECONDS"),
    ("1 to {} shares, ascending", "MOST_SHARES"),
    ("1 to {} limits, ascending", "MOST_LIMITS"),
    ("Number of threads, 1 to {}", "MOST_WORKERS"),
    ("How often each row may be begun, 1 to {}", "MOST_TRIES"),
    ("Service days before the date that count, 0 to {};", "MOST_DAYS"),
    ("Service days after the date that count, 0 to {};", "MOST_DAYS"),
]
# the same of the files of scenarios, which are all but the base
FILES_STATED = "Scenario files, at most {};"
# limits of the tools: those before the first empty line are the engine's
OF_TOOLS = "tools/src/ttm_tools/core/limits.py"
OF_ENGINE = re.compile(r"(?m)^# The engine's.*\n((?:MOST_\w+ = [\d_]+.*\n)+)")
OF_TOOL = re.compile(r"(?m)^(MOST_\w+) = ([\d_]+)")


def judged(root: Path) -> Iterator[tuple[str, bool]]:
    """Each thing that is looked at, and whether it is as it should be."""
    sources = {item: repository.source_of(root, item) for item in repository.crates_of(root)}
    strings = {match.replace("\\\n", "").replace("\\n", "\n") for match in BYTES.findall(sources["small_feed"])}
    for name, text in FEED.items():
        yield f"small_feed: {name}", text in strings
    limits: dict[str, int] = {}
    for crate, source in sources.items():
        for name, number in LIMIT.findall(source) if not repository.PROMISE_NOTHING.search(crate) else ():
            yield f"{crate}: {name} is declared once", name not in limits
            limits[name] = int(number)
    engine = OF_ENGINE.search((root / OF_TOOLS).read_text())
    yield f"{OF_TOOLS}: has the engine's limits", engine is not None
    for name, number in OF_TOOL.findall(engine[1]) if engine else ():
        yield f"{OF_TOOLS}: {name} is the engine's", limits.get(name) == int(number)
    files = FILES_STATED.format(limits.get("MOST_SCENARIOS", 0) - 1)
    for text in [text.format(limits.get(name)) for text, name in STATED] + [files]:
        yield f"help: '{text}'", bool(re.search(re.escape(text) + r"(?!\d)", sources["command_line"]))
