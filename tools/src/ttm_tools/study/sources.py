"""Files from outside the study, by the checksums that it states: a file that changes meanwhile ends the stage."""

from dataclasses import dataclass
from pathlib import Path
from typing import Any, Callable, Iterable, Mapping, Sequence

from ..core.errors import InputError
from ..core.files import sha256_of_file
from ..core.reading import regular
from .stages import Stage, files_in

Signature = tuple[int, int, int]  # inode, bytes, and when it was written
CHANGED = "changed while the study read it; the same command reads it again"


@dataclass(frozen=True)
class Source:
    """A file as it was when its sum was taken."""

    path: Path
    stated: str  # by the path that the study's file gives
    name: str  # without the folder in which it, or its own folder, lies
    sum: str
    signature: Signature


def signature_of(path: Path) -> Signature:
    found = regular(path)
    return found.st_ino, found.st_size, found.st_mtime_ns


def source_of(path: Path, stated: str, name: str) -> Source:
    """Takes the sum of a file that stays as it is meanwhile."""
    before = signature_of(path)
    source = Source(path, stated, name, sha256_of_file(path), before)
    if signature_of(path) != before:
        raise InputError(path, CHANGED)
    return source


class Sources:
    """Files and folders that a stage reads, by the paths that the study's file gives."""

    def __init__(self, at: Callable[[str], str], given: Iterable[str | None]) -> None:
        self.at, self.given = at, list(dict.fromkeys(path for path in given if path))
        self.files = [source_of(*source) for source in self.listed()]

    def listed(self) -> list[tuple[Path, str, str]]:
        """All files, with what they are stated as, and their names."""
        listed = list[tuple[Path, str, str]]()
        for given in self.given:
            path = Path(self.at(given))
            for file in files_in(path):
                more = file.relative_to(path)
                listed.append((file, str(Path(given) / more), str(Path(path.name) / more)))
        return listed

    def stage(self, name: str, depends: dict[str, Any], outputs: Sequence[str], make: Callable[[], list[str]]) -> Stage:
        """A stage that reads these files. Its outputs depend on their sums and names, wherever they lie."""
        facts = {**depends, "inputs": [[file.name, file.sum] for file in self.files]}
        stated = {file.stated: file.sum for file in self.files}
        return Stage(name, facts, outputs, make, refuse_changed=self.refuse_changed, stated=stated)

    def refuse_changed(self) -> None:
        """Refuses files that aren't as they were when their sums were taken."""
        if [path for path, _, _ in self.listed()] != [file.path for file in self.files]:
            raise InputError(", ".join(self.given), CHANGED)
        for file in self.files:
            if signature_of(file.path) != file.signature:
                raise InputError(file.path, CHANGED)


def refuse_other_sums(study: Path, sums: Mapping[str, str]) -> None:
    """Refuses files of a study's folder that changed while a run read them."""
    for name, was in sums.items():
        if not (study / name).is_file() or sha256_of_file(study / name) != was:
            raise InputError(name, "changed while ttm read it; the same command makes it again")
