"""The names that scripts and notebooks import: each stays where the pages say it is."""

import ast
import re
from importlib import import_module
from pathlib import Path

import pytest

DOCS = Path(__file__).resolve().parents[2] / "docs"
CALLED = ("ttm_tools", "ttm")  # the package in the code of pages
NEEDED = {"ttm_tools.r5py": ("geopandas", "osmium", "scipy", "pyproj")}  # packages without which a module can't load
EXPORTED = {  # all that `from MODULE import *` gives
    "ttm_tools": (
        "ArgumentError Decay EngineError InputError LimitError Matrix MissingDependencyError Network "
        "NoServiceWarning Note Question RepairWarning RoundingWarning Sample Scenario TtmError TtmWarning "
        "UnreachableWarning access_change allocate check_feed engine_version equity grid open_matrix open_network "
        "people_by_band prepare_feed read_plan run_study sample settings who_gains write_plan"
    ),
    "ttm_tools.r5py": (
        "DetailedItineraries DetailedItinerariesComputer ElevationCostFunction Isochrones NotAvailable RegionalTask"
        " TransportMode TransportNetwork TravelTimeMatrix TravelTimeMatrixComputer"
    ),
}
PUBLIC = {  # and what pages import from other modules
    **EXPORTED,
    "ttm_tools": f"{EXPORTED['ttm_tools']} EngineArguments Result matrix",
    "ttm_tools.compat.v2": "run",
    "ttm_tools.matrices": "open_matrix pair_of",
    "ttm_tools.measures.comparison": "compare",
}


def public_module(name: str) -> object:
    for package in NEEDED.get(name, ()):
        pytest.importorskip(package)
    return import_module(name)


@pytest.mark.parametrize("name", EXPORTED)
def test_a_public_module_exports_these_names(name: str) -> None:
    assert sorted(getattr(public_module(name), "__all__")) == EXPORTED[name].split()


@pytest.mark.parametrize("name", PUBLIC)
def test_each_public_name_is_there(name: str) -> None:
    module = public_module(name)
    assert [one for one in PUBLIC[name].split() if not hasattr(module, one)] == []


def test_the_names_of_r5py_are_those_of_its_package() -> None:
    public, own = public_module("ttm_tools.r5py"), import_module("ttm_tools.compat.r5py")
    names = EXPORTED["ttm_tools.r5py"].split()
    assert getattr(own, "__all__") == names
    assert [name for name in names if getattr(public, name) is not getattr(own, name)] == []


def imported_in(page: Path) -> set[str]:
    """The names of this package that a page's code imports or uses, as full dotted names."""
    found = set[str]()
    for code in re.findall(r"^```(?:python|py)\n(.*?)^```$", page.read_text(), re.MULTILINE | re.DOTALL):
        for node in ast.walk(ast.parse(code)):
            if isinstance(node, ast.ImportFrom) and f"{node.module}.".startswith("ttm_tools."):
                found |= {f"{node.module}.{alias.name}" for alias in node.names}
            elif isinstance(node, ast.Attribute) and isinstance(node.value, ast.Name) and node.value.id in CALLED:
                found.add(f"ttm_tools.{node.attr}")
    return found


def test_pages_import_public_names_alone() -> None:
    found = set[str]().union(*map(imported_in, DOCS.rglob("*.md")))
    public = {f"{module}.{name}" for module, names in PUBLIC.items() for name in names.split()} | PUBLIC.keys()
    assert found - public == set()
    assert len(found) >= 8
