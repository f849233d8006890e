"""What anybody may send to `ttm-tools explore`, drawn by a seed: it answers or refuses, and never ends in an error."""

import json
import os
import random
from pathlib import Path
from typing import Any
from urllib.parse import quote

import pytest

from exploring import canned, explored, village

for _package in ("flask", "jinja2", "pandas"):
    pytest.importorskip(_package)

SEED = int(os.environ.get("TTM_HOSTILE_SEED", "58"))
CASES = 400
ANSWERED = {200, 204, 404, 411, 413, 422}
NAMES = "actions walk tab do route every from to way after stop factor version name title origin lat lon stops".split()
NAMES += ["departures", "\x00", "__class__"]
TEXTS = ("", "a", "08:00", "headway", "remove_route", "speed", "cut", "../../etc/passwd", "1e999", "\ud800", "x" * 9000)
NUMBERS = (0, 1, -1, 2**31, 2**63, 10**400, 0.5, -0.0, 1e308, float("nan"), float("inf"))
PATHS = ("times", "journey", "routes", "", "changes", "study")
QUESTION = "origin=0&first=08:00&last=08:00&trips=4&tab=a&turn=1&version=1"
BODY: dict[str, Any] = {"actions": [{"do": "remove_route", "route": 0}], "walk": 600, "tab": "a", "version": 1}


def drawn_value(draw: random.Random, depth: int = 0) -> Any:
    """Any value of JSON, often with the names that the page uses."""
    kind = draw.randrange(7 if depth < 4 else 4)
    if kind < 3:
        return draw.choice([*TEXTS, *NUMBERS, None, True, False])
    if kind == 3:
        return draw.choice([[], {}])
    if kind == 4:
        return [drawn_value(draw, depth + 1) for _ in range(draw.randrange(4))]
    if kind == 5:
        return {draw.choice(NAMES): drawn_value(draw, depth + 1) for _ in range(draw.randrange(5))}
    return {**BODY, draw.choice(NAMES): drawn_value(draw, depth + 1)}


def drawn_body(draw: random.Random) -> bytes:
    """A body: what the page may send with one value replaced, a value of any kind, deeply nested, or cut or damaged."""
    kind = draw.randrange(5)
    if kind == 0:
        sign, end = draw.choice([("[", "]"), ('{"actions":', "}"), ('[{"a":', "}]")])
        depth = draw.choice([10, 900, 990, 1100, 100_000])
        return (sign * depth + draw.choice(["", "0" + end * depth])).encode()[: 1 << 20]
    text = json.dumps(drawn_value(draw) if kind < 3 else {**BODY, draw.choice(NAMES): drawn_value(draw)}).encode()
    if kind == 4:
        place = draw.randrange(len(text) + 1)
        text = (
            text[:place]
            + draw.choice([b"", b"\xff", b"\0", b"}", b'"', b"9" * 5000])
            + text[place:][draw.randrange(9) :]
        )
    return text


def drawn_query(draw: random.Random) -> str:
    """A question with some of its values replaced or left out."""
    words = dict(word.split("=") for word in QUESTION.split("&"))
    for name in draw.sample([*words, "lat", "lon", "destination"], draw.randrange(1, 4)):
        words[name] = str(draw.choice([*TEXTS[:-1], *NUMBERS])).encode("utf-8", "replace").decode()
        if draw.random() < 0.2:
            del words[name]
    return "&".join(f"{name}={quote(value)}" for name, value in words.items())


def test_whatever_is_sent_is_answered_or_refused(tmp_path: Path) -> None:
    draw, statuses = random.Random(SEED), dict[int, int]()
    with explored(village(tmp_path), canned(tmp_path), "--out", str(tmp_path / "saved")) as served:
        how = {"Origin": served.origin, "Content_Type": "application/json"}
        for number in range(CASES):
            path = draw.choice(PATHS)
            is_sent = path in ("changes", "study")
            body = drawn_body(draw) if is_sent else None
            query = "" if is_sent or not path else "?" + drawn_query(draw)
            status = served.status(path + query, body, **(how if is_sent else {}))
            assert status in ANSWERED, f"seed {SEED}, case {number}: {status}, {path}{query}, {(body or b'')[:300]!r}"
            statuses[status] = statuses.get(status, 0) + 1
        assert served.status() == served.status("routes") == 200
    assert statuses[422] > CASES / 4 and statuses[200] > 0, statuses
    saved = [str(path.relative_to(tmp_path / "saved")) for path in (tmp_path / "saved").rglob("*")]
    assert not any(".part." in name for name in saved)
