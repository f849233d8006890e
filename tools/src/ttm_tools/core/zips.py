"""Zip files: the sizes of all members are checked first, and a member is unpacked only when it is needed."""

import os
import shutil
import zipfile
from collections import UserDict
from collections.abc import Mapping
from pathlib import Path
from typing import Iterable

from .errors import InputError
from .files import writing_to
from .reading import as_one_line, regular

MOST_UNPACKED = 8_000_000_000  # bytes
BYTES_AT_ONCE = 1 << 20


def members_of(path: Path) -> dict[str, int]:
    """Return the files in a zip file with their unpacked sizes."""
    regular(path)
    with as_one_line(path, "can't be unzipped"), zipfile.ZipFile(path) as packed:
        found = [(info.filename, info.file_size) for info in packed.infolist() if not info.is_dir()]
    members: dict[str, int] = {}
    for name, size in found:
        if name in members:
            raise InputError(path, f"{name} is in it twice")
        members[name] = size
    return members


def refuse_size(path: Path, sizes: Iterable[int], room: Path) -> None:
    """Raise an `InputError` if members are larger than any feed, or than the free space on the disk."""
    total, there = sum(sizes), room
    while not there.exists():
        there = there.parent
    if total > MOST_UNPACKED:
        raise InputError(path, f"unpacked it has {total:,} bytes, and a feed at most {MOST_UNPACKED:,}")
    free = shutil.disk_usage(there).free
    if total > free:
        raise InputError(path, f"unpacked it has {total:,} bytes, and {there} has {free:,} free")


def unpack_member(path: Path, member: str, target: Path) -> Path:
    """Unpack one member, and return its path."""
    target.parent.mkdir(exist_ok=True)
    with as_one_line(path, f"{os.path.basename(member)} can't be unzipped"):
        with zipfile.ZipFile(path) as packed, packed.open(member) as source:
            with open(target, "wb") as file, writing_to(target):
                shutil.copyfileobj(source, file, BYTES_AT_ONCE)
    return target


class Unread(UserDict[str, Path]):
    """Paths of members by name; a member is unpacked when its path is first asked for."""

    def __init__(self, path: Path, members: Mapping[str, str], room: Path) -> None:
        self.path, self.packed = path, dict[str, str]()
        super().__init__({name: room / name for name in members})
        self.packed.update(members)

    def __getitem__(self, name: str) -> Path:
        if name in self.data and name in self.packed:
            unpack_member(self.path, self.packed[name], self.data[name])
            del self.packed[name]
        return self.data[name]

    def __setitem__(self, name: str, path: Path) -> None:
        self.packed.pop(name, None)
        self.data[name] = path
