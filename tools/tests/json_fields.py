"""The objects that commands print with `--json`: their fields and types, as docs/reference/json.md has them."""

import json
import re
from pathlib import Path
from typing import Any

from helpers import Room

PAGE = Path(__file__).resolve().parents[2] / "docs" / "reference" / "json.md"
HEADER, ROW = "| Field | Type | Meaning |", re.compile(r"\| `(?P<name>\w+)` \| (?P<type>[a-z ]+) \| .+ \|")
Fields = dict[str, str]
TYPES: dict[str, tuple[type, ...]] = {
    "text": (str,),
    "integer": (int,),
    "number": (int, float),
    "object": (dict,),
    "objects": (list,),
    "texts": (list,),
    "list": (list,),
    "null": (type(None),),
}
ITEMS: dict[str, type] = {"objects": dict, "texts": str}


def values(**given: object) -> dict[str, object]:
    """Values of an object."""
    return given


def fields(**types: str) -> Fields:
    """A table; the keyword `text_or_null` means the type `text or null`."""
    return {name.rstrip("_"): kind.replace("_", " ") for name, kind in types.items()}


def same(kind: str, *names: str) -> Fields:
    """Fields of one type."""
    return dict.fromkeys(names, kind)


EVERY = fields(command="text_or_null", version="text", warnings="objects")
WARNING = fields(kind="text", text="text", affected="integer_or_null")
ERROR = {
    **fields(kind="text", line="text", status="integer", file="text_or_null", record="integer_or_null"),
    **same("text or null", "column", "value", "allowed"),
    **fields(limit="integer_or_null", nearest="text_or_null"),
}
FOUND_ERROR = {
    **fields(feed="text", file="text", record="integer_or_null", column="text_or_null", value="text_or_null"),
    **fields(error="text", allowed="text"),
}
PREPARE = {
    **fields(folder="text", stops="integer", routes="integer", trips="integer", stop_times="integer"),
    **fields(trips_by_date="object", repairs_file="text", repairs="object"),
}
ACTION = {
    **fields(scenario="text", number="integer", line="integer", do="text", about="texts"),
    **same("integer", *(f"{what}_{when}" for what in ("trips", "stops", "stop_times") for when in ("before", "after"))),
    **same("integer", "removed", "shifted", "changed", "added"),
    **fields(notes="texts"),
}
WALKS = {
    **fields(feed="text", footpaths_file="text", footpaths="integer", unreachable="object"),
    **same("texts", "far_from_street", "without_street", "without_coordinates"),
}
POINTS = {
    **fields(folder="text", feed="text", footpaths_file="text", footpaths="integer", points="integer"),
    **fields(unreachable="object"),
    **same("texts", "far_from_street", "without_street", "without_coordinates"),
}
SERVICE = {
    **fields(scenario="text", route="text_or_null", route_name="text_or_null", direction="text_or_null"),
    **fields(period="text", departures="integer"),
    **same("number or null", "headway_minutes", "greatest_gap_minutes"),
    **same("text or null", "first_departure", "last_arrival"),
    **fields(kilometres_an_hour="number_or_null", vehicles="integer"),
    **same("number", "vehicle_hours", "vehicle_kilometres"),
}
SERVICE_OF_STOPS = {
    **same("text", "scenario", "stop_id", "stop_name", "period"),
    **fields(departures="integer", departures_an_hour="number"),
}
JOURNEY = {
    **same("text", "scenario", "origin", "destination"),
    **same("integer", "percentile", "option"),
    **same("integer or null", "seconds", "departure"),
    **fields(legs="objects"),
}
LEG = {
    **same("text or null", "mode", "route_id", "route_name", "trip_id", "from_stop_id", "to_stop_id"),
    **same("integer", "departure", "wait", "seconds"),
    **fields(metres="number_or_null", line="list_or_null"),
}
COLLECTION, AREAS_FILE = fields(type="text", features="objects"), fields(file="text", areas="integer")
TABLES = {  # of the page, by heading
    "Every object": [EVERY],
    "Warnings": [WARNING],
    "Errors": [ERROR],
    "prepare": [PREPARE],
    "prepare --check": [fields(errors="objects"), FOUND_ERROR],
    "scenarios": [fields(folder="text", files="texts", actions="objects"), ACTION],
    "points": [POINTS],
    "walks": [WALKS],
    "service": [fields(rows="objects"), SERVICE],
    "explain": [fields(journeys="objects"), JOURNEY, LEG],
    "isochrones": [COLLECTION, AREAS_FILE],
}


def tables_of_page() -> dict[str, list[Fields]]:
    """The tables of fields on the page, by heading."""
    found = dict[str, list[Fields]]()
    for part in re.split(r"^## ", PAGE.read_text(), flags=re.MULTILINE)[1:]:
        heading, lines = part.partition("\n")[0], part.splitlines()
        for place in (place for place, line in enumerate(lines) if line == HEADER):
            rows = [ROW.fullmatch(line) for line in lines[place + 2 :]]
            until = rows.index(None) if None in rows else len(rows)
            found.setdefault(heading, []).append({row["name"]: row["type"] for row in rows[:until] if row})
    return found


def kinds_of_page(heading: str) -> dict[str, str]:
    """The kinds that a part of the page lists, with their meanings."""
    part = PAGE.read_text().partition(f"\n## {heading}\n")[2].partition("\n## ")[0]
    rows = part.partition("| Kind | Meaning |\n|---|---|\n")[2]
    return dict(re.findall(r"^\| `([a-z ]+)` \| (.+) \|$", rows, re.MULTILINE))


def assert_fields(value: dict[str, Any], table: Fields) -> None:
    """An object has just the fields of a table, in its order, with values of their types."""
    assert list(value) == list(table)
    for name, kinds in table.items():
        kind = next(
            (kind for kind in kinds.split(" or ") if type(value[name]) in TYPES[kind]), f"{name}: {value[name]!r}"
        )
        assert kind in TYPES, kind
        assert all(type(item) is ITEMS[kind] for item in value[name]) if kind in ITEMS else True


def answer(room: Room, *arguments: str, table: Fields, status: int = 0) -> dict[str, Any]:
    """The object that a command prints, which has just these fields; all that standard output has."""
    out, said, ended = room.ran(*arguments, "--json")
    assert ended == status, said
    assert out.endswith("\n") and out.count("\n") == 1
    found: dict[str, Any] = json.loads(out)
    assert_fields(found, EVERY | table)
    assert found["command"] == arguments[0]
    for warning in found["warnings"]:
        assert_fields(warning, WARNING)
    return found


def failure(room: Room, *arguments: str, status: int = 1) -> dict[str, Any]:
    """The error of a command that fails."""
    error: dict[str, Any] = answer(room, *arguments, table={"error": "object"}, status=status)["error"]
    assert_fields(error, ERROR)
    assert error["status"] == status
    return error
