"""Studies from Python."""

import os
from pathlib import Path

from .executors.remote import ExecutorOptions
from .study_file import read_study
from .work import make_study


def run_study(
    path: str | os.PathLike[str], out: str | os.PathLike[str] | None = None, *, threads: int | None = None
) -> Path:
    """Run a study file to its end, or resume it.

    Parameters
    ----------
    path
        The study, a TOML file.
    out
        The folder of the results; by default the name of the study without its ending.
    threads
        Processes of this machine; None for one on each processor.

    Returns
    -------
    Path
        The folder of the results. Finished parts are kept if the study is interrupted: the same call resumes it.

    Raises
    ------
    InputError
        The study file, or a file that it names, has an error.
    """
    study = read_study(os.fspath(path))
    folder = study.path.with_suffix("") if out is None else Path(out)
    make_study(study, folder, ExecutorOptions(threads))
    return folder
