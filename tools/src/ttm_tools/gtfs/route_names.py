"""What people call the routes of a feed."""

from ..core.tables import rows
from ..core.text import display_text
from .stops import in_folder


def routes_called(folder: str) -> dict[str, str]:
    """Return what people call each route: its short name, its long one, or else its identifier."""
    names = ("route_short_name", "route_long_name")
    found = rows(in_folder(folder, "routes.txt"), ["route_id"], names)
    return {route: name_of(route, short, long) for _, (route, short, long) in found}


def name_of(route: str, short: str, long: str) -> str:
    """Return what people call a route with these names."""
    return display_text(short.strip() or long.strip() or route)
