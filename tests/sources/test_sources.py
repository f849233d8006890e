"""What the pages, the sources, the proofs and the edits of this repository say of one another holds."""

from __future__ import annotations

from collections.abc import Callable, Iterator
from pathlib import Path

import pytest

import lemmas
import names
import same

ROOT = Path(__file__).resolve().parents[2]


@pytest.mark.parametrize("judged", [names.judged, same.judged, lemmas.judged], ids=["names", "same", "lemmas"])
def test_nothing_is_wrong(judged: Callable[[Path], Iterator[tuple[str, bool]]]) -> None:
    found = list(judged(ROOT))
    assert found and [what for what, holds in found if not holds] == []
