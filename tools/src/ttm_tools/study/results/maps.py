"""The maps of a study: access, what each scenario changes, travel times from named places; and the areas that are
reached from some, as GeoJSON.
"""

import functools
from dataclasses import dataclass
from pathlib import Path
from typing import Any, Sequence

from ...api.count_files import columns_of
from ...core.filenames import file_names
from ...core.files import atomic_folder, output
from ...core.text import quantity
from ...core.walking import Walking
from ...ground.packing import read_ground_file
from ...places.selection import points_in
from ...views import isochrones
from ...views.isochrones import StopGeometry
from ...views.lines import planned_of
from ...views.map_content import PictureOptions
from ...views.maps import Areas, Sheet, figure_of, figure_of_isochrones, picture_of
from ...views.nearest import Nearest
from ...views.picture_files import write_picture
from ..counted import COUNTED
from ..sources import Sources
from ..stages import Stage
from .tables import Records, STOPS, StudyMatrix

MAPS, AREAS = "maps", "isochrones"


@dataclass(frozen=True)
class StudyMap:
    file: str
    kind: str  # times, access or difference
    scenario: str
    origin: str | None = None
    nearest: str | None = None  # of what the nearest are looked for

    @property
    def is_difference(self) -> bool:
        return self.kind == "difference"


def maps_of(results: StudyMatrix) -> list[StudyMap]:
    settings = results.study.results
    drawn = with_others(results, "access", "access")
    for origin, stop in names_of_maps(results, settings.map_origins).items():
        drawn += with_others(results, "times", f"times_{stop}", origin=origin)
    counted = columns_of(results.at(COUNTED)) if "counted" in results.inputs.records else [STOPS]
    for what, column in names_of_maps(results, counted if settings.nearest else []).items():
        drawn += with_others(results, "nearest", f"nearest_{column}", nearest=what)
    for origin, stop in names_of_maps(results, settings.isochrones).items():
        drawn += with_others(results, "isochrones", f"isochrones_{stop}", "isochrones", origin=origin)
    return drawn


def names_of_maps(results: StudyMatrix, named: Sequence[str]) -> dict[str, str]:
    """What the maps of each of some places, or of things that are counted, are called."""
    return file_names(list(named), ["", *(f"_{name}" for name in results.others.values())])


def with_others(results: StudyMatrix, kind: str, file: str, other: str = "difference", **more: str) -> list[StudyMap]:
    """A map of the base, and one of each other scenario."""
    others = results.others.items()
    drawn = [StudyMap(f"{MAPS}/{file}_{name}.png", other, scenario, **more) for scenario, name in others]
    return [StudyMap(f"{MAPS}/{file}.png", kind, results.inputs.base, **more), *drawn]


def maps_stages(results: StudyMatrix, records: Records) -> list[Stage]:
    if not results.study.results.maps:
        return []
    drawn = maps_of(results)

    def make() -> list[str]:
        with atomic_folder(results.at(MAPS)) as folder:
            walked = functools.cache(lambda: ground_for(results))
            for picture in drawn:
                is_area = picture.kind == "isochrones"
                figure = areas_drawn(results, picture, *walked()) if is_area else classes_drawn(results, picture)
                write_picture(str(folder / Path(picture.file).name), figure)
        return [f"{MAPS}: {quantity(len(drawn), 'picture')}"]

    study, inputs, settings = results.study, results.inputs, results.study.results
    options = [
        study.about.note,
        results.unit,
        list(settings.map_origins),
        results.scenarios,
        list(settings.nearest[:1]),
    ]
    facts: dict[str, Any] = {**results.depends, "words": options, "run": inputs.sums}
    facts["counted"] = inputs.outputs_of("counted") if settings.nearest else {}
    if settings.isochrones:
        facts["isochrones"] = [settings.isochrones, settings.isochrone_bands, study.walk_facts]
    files = [study.walks.streets if settings.isochrones else None, settings.ground]
    return [Sources(study.at, files).stage("maps", facts, [MAPS], make)]


def options_of(results: StudyMatrix, drawn: StudyMap) -> PictureOptions:
    """What of the matrix is drawn."""
    study, inputs = results.study, results.inputs
    what = "points" if "points" in inputs.records else "stops"
    breaks = study.results.isochrone_bands if drawn.kind == "isochrones" else None
    return PictureOptions(drawn.scenario, inputs.base, study.share, study.within, breaks, results.unit, what)


def sheet_of(results: StudyMatrix, drawn: StudyMap) -> Sheet:
    """What stands around a map, with the lines that a scenario takes out or brings."""
    inputs = results.inputs
    edits = [results.at(inputs.edits[name]) for name in (inputs.base, drawn.scenario) if name in inputs.edits]
    planned = planned_of(results.at(inputs.feed), edits, inputs.base, drawn.scenario, drawn.is_difference)
    own = edits if drawn.is_difference else []
    ground = results.study.results.ground
    below = read_ground_file(results.study.at(ground)) if ground else None
    return Sheet(None, results.study.about.note, edits=own, planned=planned, ground=below)


def areas_drawn(results: StudyMatrix, drawn: StudyMap, ground: StopGeometry, walking: Walking) -> Any:
    """The areas that are reached from a place."""
    matrix, stops = results.open()
    areas = Areas(drawn.origin or "", options_of(results, drawn), ground, walking)
    return figure_of_isochrones(matrix, stops, results.at(results.inputs.feed), sheet_of(results, drawn), areas)


def classes_drawn(results: StudyMatrix, drawn: StudyMap) -> Any:
    """A map of classes of stops or points."""
    matrix, stops = results.open()
    sought = None
    if drawn.nearest is not None:
        numbers = results.counts(matrix).named(drawn.nearest)
        sought = Nearest(drawn.nearest, numbers, results.study.results.nearest[0])
    picture = picture_of(drawn.kind, matrix, stops, drawn.origin, options_of(results, drawn), sought)
    base = results.inputs.base if drawn.is_difference else None
    return figure_of(picture, matrix, stops, results.at(results.inputs.feed), sheet_of(results, drawn), base)


def ground_for(results: StudyMatrix) -> tuple[StopGeometry, Walking]:
    """The positions of the matrix' places, and how travellers walk on from them."""
    study, (matrix, stops) = results.study, results.open()
    there = stops.of(matrix.stops)
    streets = study.at(study.walks.streets) if study.walks.streets else None
    points = points_in(results.at(results.inputs.feed))
    return isochrones.ground_on_foot(there, points, study.walking, streets, study.walks.near), study.walking


def areas_stages(results: StudyMatrix, records: Records) -> list[Stage]:
    """A file for each origin, with all scenarios and bands."""
    study, inputs, settings = results.study, results.inputs, results.study.results
    names = file_names(list(settings.isochrones), ("",))
    if not names:
        return []

    def make() -> list[str]:
        matrix, _ = results.open()
        ground, walking = ground_for(results)
        Path(results.at(AREAS)).mkdir()
        for origin, name in names.items():
            shares = [matrix.share(study.share)]
            bands = isochrones.Bands(origin, matrix.compared, shares, settings.isochrone_bands, walking)
            found = isochrones.isochrones_of(matrix, ground, bands, results.counts(matrix))
            with output(results.at(f"{AREAS}/{name}.geojson")) as file:
                isochrones.write_geojson(file, found, origin)
        return [f"{AREAS}: {quantity(len(names), 'file')}"]

    options = [list(settings.isochrones), list(settings.isochrone_bands), study.walk_facts]
    facts = {**results.depends, "words": options, "counted": inputs.outputs_of("counted")}
    return [Sources(study.at, [study.walks.streets]).stage(AREAS, facts, [AREAS], make)]
