"""The packages of a built program, as `packaging/build.sh` makes them, unpacked for the checks."""

import gzip
import os
import subprocess
import zipfile
from pathlib import Path

import pytest

PACKAGING = Path(__file__).resolve().parents[2] / "packaging"
NO_ROOM = 75
SECONDS = 1800


def files_in(path: Path) -> dict[str, bytes]:
    """The files in a zip file."""
    with zipfile.ZipFile(path) as packed:
        return {name: packed.read(name) for name in packed.namelist()}


class Packages:
    """What `packaging/build.sh` makes of a program, unpacked."""

    def __init__(self, program: Path, room: Path) -> None:
        self.program, self.room = program, room
        self.files = self.made("once")
        self.debs, (self.tar, self.wheel, self.plugin) = self.files[:3], self.files[3:]
        self.tree, self.folder = room / "tree", room / "folder"
        for deb in self.debs:
            self.output("dpkg-deb", "--extract", deb, self.tree)
        self.folder.mkdir()
        self.output("tar", "--extract", "--file", self.tar, "--directory", self.folder, "--strip-components=1")

    @staticmethod
    def output(*command: object, **more: str) -> str:
        """What a command prints; its failure is a fault."""
        words, environment = list(map(str, command)), {**os.environ, **more}
        ran = subprocess.run(words, env=environment, capture_output=True, text=True, timeout=SECONDS)
        if ran.returncode:
            raise AssertionError(f"{command[0]}: status {ran.returncode}: {ran.stderr}")
        return ran.stdout

    def made(self, name: str) -> list[Path]:
        """The Debian packages of the program, the tools and the documentation, the tar file, the wheel, the plugin."""
        printed = self.output(PACKAGING / "build.sh", "--out", self.room / name, self.program)
        files = [Path(line) for line in printed.split()]
        kinds = [path.name.split("_")[0] for path in files[:3]] + [path.suffix for path in files[3:]]
        assert kinds == ["ttm", "python3-ttm-tools", "ttm-doc", ".gz", ".whl", ".zip"], files
        return files

    def field(self, package: int, name: str) -> str:
        """A field of a Debian package."""
        return self.output("dpkg-deb", "--field", self.debs[package], name).strip()

    def share(self, name: str) -> str:
        """A file of the packages below share, decompressed."""
        data = (self.tree / "usr/share" / name).read_bytes()
        return (gzip.decompress(data) if name.endswith(".gz") else data).decode()

    def install(self, kind: str) -> None:
        """Installs the packages into a room of a kind, and runs the example there."""
        command = [str(PACKAGING / "try.sh"), "--room", kind, *map(str, self.debs)]
        ran = subprocess.run(command, capture_output=True, text=True, timeout=SECONDS)
        if ran.returncode == NO_ROOM:
            pytest.skip(ran.stderr.strip())
        assert ran.returncode == 0, ran.stderr + ran.stdout
