"""Files of other projects in the tools: each folder has their licence and the checksums of all of them."""

import hashlib
from pathlib import Path

import pytest

from ttm_tools.core.shipped import IN_DEBIAN, VENDORED
from ttm_tools.views.texts import INTER
from ttm_tools.web.styling import FONT

LISTED = {
    VENDORED: ({"leaflet.min.js", "leaflet.css"}, "Redistribution and use in source and binary forms"),
    INTER: ({"Inter-Regular.ttf", "Inter-Bold.ttf"}, "SIL OPEN FONT LICENSE"),
    FONT: ({f"Inter-{weight}.woff2" for weight in ("Regular", "SemiBold", "Bold")}, "SIL OPEN FONT LICENSE"),
}


def checksums(folder: Path) -> dict[str, str]:
    """The names in a folder's SHA256SUMS, each with its digest."""
    lines = (folder / "SHA256SUMS").read_text().splitlines()
    return {name: digest for digest, name in (line.split("  ") for line in lines)}


@pytest.mark.parametrize("folder", LISTED, ids=["leaflet", "pictures", "pages"])
def test_each_file_has_its_checksum_and_the_folder_a_licence(folder: Path) -> None:
    names, words = LISTED[folder]
    assert {path.name for path in folder.iterdir()} == names | {"SHA256SUMS", "LICENSE.txt"}
    assert checksums(folder) == {name: hashlib.sha256((folder / name).read_bytes()).hexdigest() for name in names}
    assert words in (folder / "LICENSE.txt").read_text()


def test_leaflet_is_as_debian_12_builds_it() -> None:
    if not IN_DEBIAN.is_dir():
        pytest.skip("without libjs-leaflet")
    if b'version="1.6.0"' not in (IN_DEBIAN / "leaflet.min.js").read_bytes():  # what Debian's 1.7.1 says of itself
        pytest.skip("another version of libjs-leaflet")
    for name in LISTED[VENDORED][0]:
        assert (VENDORED / name).read_bytes() == (IN_DEBIAN / name).read_bytes()
