"""Which engine answers."""

import subprocess
from collections.abc import Sequence
from pathlib import Path

from ..core.console import one_line
from ..core.errors import MissingDependencyError
from ..core.settings import settings
from ..core.shipped import DATA
from .arguments import program_at
from .refusals import EngineError

PROVED = Path("doc/ttm/PROVED"), Path("ttm/PROVED")  # from `share`, in a package's prefix


def engine_version() -> str:
    """Version of the engine, and of the toolchain that proved it.

    The toolchain is known if a package installed the program: it names it in a file that was written when it was built.
    """
    program = program_at(settings.engine)
    try:
        version, *toolchain = version_of(program, [DATA / "PROVED"])
    except EngineError as error:
        raise MissingDependencyError(f"{program} --version ended with status {error.status}") from None
    return ", ".join([version, *toolchain])


def version_of(program: str, notes: Sequence[Path] = ()) -> list[str]:
    """Return the line that a program prints as its version and, if a package has it, the line of its toolchain.

    Parameters
    ----------
    notes
        Further files that may name the toolchain.

    Raises
    ------
    EngineError
        The program ended with an error.
    """
    ran = subprocess.run([program, "--version"], capture_output=True, text=True)
    if ran.returncode != 0:
        raise EngineError(one_line(ran.stderr), ran.returncode)
    return [*ran.stdout.splitlines()[:1], *toolchain_of(program, notes)]


def toolchain_of(program: str, notes: Sequence[Path] = ()) -> list[str]:
    """Return the line of the toolchain that proved a program, as its package names it; none if it doesn't."""
    share = Path(program).resolve().parent.parent / "share"
    for file in (*(share / name for name in PROVED), *notes):
        if file.is_file():
            return [line for line in file.read_text().splitlines() if line.startswith("proved with ")][:1]
    return []
