"""Travel times: from each origin to each destination, and to the nearest one."""

from __future__ import annotations

from typing import Any

from qgis.core import QgsProcessingException, QgsProcessingOutputNumber, QgsProcessingParameterFeatureSink

from .. import classes, compat, parameters as define
from ..places import Places
from ..results import Output, extended, field, seconds_field, table_of, warn_of_shapefile
from ..rows import Rows
from ..run import Run
from ..values import Times
from .base import Algorithm

MOST_FIELDS = 100  # of `EACH`


class TravelTimes(Algorithm):
    """The algorithm `ttm:traveltimes`."""

    NAME, TITLE, GROUP = "traveltimes", "Travel times", "times"
    HELP = (
        "Computes the travel time from each origin to each destination, on foot and by public transport, for a "
        "departure in every minute between first and last. A percentile of 50 is the time that at least half of the "
        "departures achieve, including the wait. You get the origins with the time to their nearest destination, and "
        "if you want a table of all pairs."
    )

    def definitions(self) -> list[Any]:
        sink = QgsProcessingParameterFeatureSink
        return [
            define.feed(),
            define.streets(),
            *define.layer("ORIGINS", "Origins", "Where journeys begin, such as homes or cells."),
            *define.layer("DESTINATIONS", "Destinations", "Where journeys end, such as clinics."),
            *define.window(),
            define.percentiles(),
            *define.limits(),
            define.flag("EACH", "A field for each destination", False, f"At most {MOST_FIELDS} fields.", False),
            sink("OUTPUT", "Origins with the nearest", compat.ANY_VECTOR),
            sink("PAIRS", "All pairs", compat.ANY_VECTOR, None, True, False),
            QgsProcessingOutputNumber("ORIGINS_UNREACHED", "Origins without a stop within the walk"),
            QgsProcessingOutputNumber("DESTINATIONS_UNREACHED", "Destinations without a stop within the walk"),
        ]

    def compute(self, run: Run) -> dict[str, Any]:
        times = run.values.times()
        origins, destinations = run.ends()
        each = run.values.is_on("EACH")
        check_count(each, destinations, times)
        fields = extended(origins.source.fields(), nearest_fields(destinations, times, each), origins.label)
        feed, result = run.prepare(run.values.path("FEED"), run.progress(2, 15))
        run.warn_of_date(times.date, result)
        joined = run.join(feed, times, origins, destinations, run.progress(15, 40))
        matrix = run.ask(joined, times, [], run.progress(40, 95))
        found = Rows(matrix, times, origins, destinations)
        place = self.write_origins(run, found, fields, each)
        pairs = self.write_pairs(run, found)
        run.feedback.setProgress(100)
        numbers = {"ORIGINS_UNREACHED": joined.unreached_origins}
        return {"OUTPUT": place, **pairs, **numbers, "DESTINATIONS_UNREACHED": joined.unreached_destinations}

    def write_origins(self, run: Run, found: Rows, fields: Any, each: bool) -> Any:
        """Write the origins with the nearest destination."""
        source, times = found.origins.source, found.times
        kind = (source.wkbType(), source.sourceCrs())
        output = Output(self, run.parameters, run.context, "OUTPUT", fields, kind)
        warn_of_shapefile(output.place, fields, run.feedback)
        for position, row in found.by_origin():
            feature = found.origins.features[position]
            output.add(
                [*feature.attributes(), *found.nearest(row), *(found.each(row) if each else [])], feature.geometry()
            )
        self.style(run, output.place, classes.of_times(f"p{times.middle}_s"), source.wkbType())
        return output.place

    def write_pairs(self, run: Run, found: Rows) -> dict[str, Any]:
        """Write the table of all pairs, if it is wanted."""
        origins, destinations, times = found.origins, found.destinations, found.times
        ends = [field("from_id", origins.identifier_type), field("to_id", destinations.identifier_type)]
        fields = table_of([*ends, *(seconds_field(f"p{share}_s", share) for share in times.percentiles)])
        nowhere = (compat.NO_GEOMETRY, origins.source.sourceCrs())
        output = Output(self, run.parameters, run.context, "PAIRS", fields, nowhere)
        if not output.is_wanted:
            return {}
        for position, row in found.by_origin():
            for place, identifier in enumerate(destinations.identifiers):
                output.add([origins.identifiers[position], identifier, *found.pair(row, place)])
        return {"PAIRS": output.place}


def check_count(each: bool, destinations: Places, times: Times) -> None:
    """Refuse a field for each destination if these would be too many."""
    count = len(destinations.features) * len(times.percentiles)
    if each and count > MOST_FIELDS:
        raise QgsProcessingException(
            f"A field for each destination: {count} fields are more than {MOST_FIELDS}; use the table of all pairs"
        )


def nearest_fields(destinations: Places, times: Times, each: bool) -> list[Any]:
    """Return the fields that the origins get."""
    shares = times.percentiles
    to_each = [
        seconds_field(f"{identifier}_p{share}_s", share) for identifier in destinations.identifiers for share in shares
    ]
    return [
        field("nearest", destinations.identifier_type, f"Nearest destination, {times.middle} % of departures"),
        *(seconds_field(f"p{share}_s", share) for share in shares),
        field("reached", compat.INTEGER, f"Destinations reached, {times.middle} % of departures"),
        *(to_each if each else []),
    ]
