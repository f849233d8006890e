"""Where a matrix comes from, as the study in its folder says: the day and the departures."""

from pathlib import Path

from ..core.errors import InputError
from ..core.reading import read_json

NOTES = "study.json"


def describe_origin(path: str) -> list[str]:
    """The day and the window of a matrix in a study's folder, or in a folder of it; nothing for another one."""
    matrix = Path(path).absolute()
    folder = next((folder for folder in (matrix.parent, matrix.parent.parent) if (folder / NOTES).is_file()), None)
    if folder is None:
        return []
    try:
        notes = read_json(folder / NOTES, "study.json")
        run = notes["run"] if folder == matrix.parent else notes["windows"][f"{matrix.parent.name}/{matrix.name}"]
        date, (first, last) = str(run["date"]), run["window"]
    except (InputError, KeyError, TypeError, ValueError):
        return []
    day = f"{date[:4]}-{date[4:6]}-{date[6:]}" if len(date) == 8 and date.isdigit() else date
    return [day, f"{first} to {last}"]
