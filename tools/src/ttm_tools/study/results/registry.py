"""The results of a study, each one entry: its files, what they are, and the function that returns its stages, by its
module. Stages run in this order, and the table of docs/reference/study-file.md lists them.
"""

from dataclasses import dataclass
from pkgutil import resolve_name
from typing import TYPE_CHECKING, Callable

if TYPE_CHECKING:
    from .tables import Records, StudyMatrix
    from ..stages import Folder, Stage


@dataclass(frozen=True)
class StudyResult:
    """A result. Its function takes the whole matrix and the stages before, and gives none where it isn't wanted."""

    files: str
    what: str
    function: str

    def stages(self) -> "Callable[[StudyMatrix, Records], list[Stage]]":
        found: "Callable[[StudyMatrix, Records], list[Stage]]" = resolve_name(f"ttm_tools.study.{self.function}")
        return found


RESULTS = (
    StudyResult("`access.csv`", "access in the long form", "results.tables.access_stages"),
    StudyResult(
        "`equity.csv`, `equity.md`, `bands.csv`, `bands/`",
        "its distribution among people; people by band, with stacked bars",
        "results.tables.people_stages",
    ),
    StudyResult(
        "`who_gains.csv`",
        "how many people gain and lose access, by scenario, group and threshold, and the access of the mean person",
        "results.gains.gain_stages",
    ),
    StudyResult("`nearest.csv`", "the time to the nearest", "results.tables.nearest_stages"),
    StudyResult(
        "`equity_nearest.csv`, `equity_nearest.md`, `bands_nearest.csv`, `bands_nearest/`",
        "the same of the time to the nearest",
        "results.tables.nearest_people_stages",
    ),
    StudyResult(
        "`compare_NAME.csv`, `compare_NAME_pairs.csv`",
        "winners and losers of each scenario, by origin and by pair",
        "results.tables.compare_stages",
    ),
    StudyResult(
        "`windows/`",
        "for each window and day but the first `DATE_NAME.omx`; tables as above, by window; `compare.csv`, who loses"
        " and who gains, by window, scenario and group; `pictures/COLUMN_time.png` (the mean and the tenth that has the"
        " least, by time of day, for each group), and of the base `COLUMN_heat.png` (each place by window) and"
        " `COLUMN_maps.png` (at most 48 windows)",
        "results.windows.window_stages",
    ),
    StudyResult(
        "`people/`",
        "`order.png`, each person (or stop) from the greatest loss of access to the greatest gain; `groups.png`, who"
        " loses and who gains in each group of people",
        "results.changes.change_stages",
    ),
    StudyResult("`isochrones/STOP.geojson`", "areas, of each scenario", "results.maps.areas_stages"),
    StudyResult(
        "`maps/`",
        "`access.png`, `times_STOP.png`, `nearest_COLUMN.png`; with `_NAME`, what a scenario changes",
        "results.maps.maps_stages",
    ),
    StudyResult("`page.html`", "one file to view and to send", "results.page.page_stages"),
    StudyResult(
        "`report.md`, `report.html`",
        "the question, figures, the inputs with their checksums, what was done with them, days and trips, warnings,"
        " what is proved and what isn't; the HTML contains its pictures, and prints on A4",
        "report.report_stages",
    ),
)


def make_results(results: "StudyMatrix", folder: "Folder", records: "Records") -> "Records":
    """Makes all results behind the matrices, whose records are given; those of all are returned."""
    made = dict(records)
    for result in RESULTS:
        for stage in result.stages()(results, made):
            made[stage.name] = folder.do(stage)
    return made


def markdown_table() -> str:
    """The rows of the results in the table of docs/reference/study-file.md."""
    return "\n".join(f"| {result.files} | {result.what} |" for result in RESULTS)
