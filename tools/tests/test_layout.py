"""Where the code of `ttm_tools` lies: which package may import which, without cycles, and what an import loads."""

import ast
import graphlib
import re
import subprocess
import sys
from functools import cache
from pathlib import Path
from typing import Iterator

SOURCES = Path(__file__).resolve().parents[1] / "src"
ROOT = "ttm_tools"
LAYERS = (
    "core",
    "gtfs",
    "ground",
    "streets",
    "prepare",
    "plans",
    "engine",
    "matrices",
    "measures",
    "places",
    "journeys",
)
MAY_IMPORT = {  # besides itself
    "core": (),
    "gtfs": ("core",),
    "ground": ("core", "gtfs"),
    "streets": ("core", "gtfs"),
    "prepare": ("core", "gtfs"),
    "plans": ("core", "gtfs"),
    "engine": ("core",),
    "matrices": ("core",),
    "measures": ("core",),
    "places": ("core", "gtfs", "streets"),
    "journeys": ("core", "gtfs", "streets", "engine"),
    "api": LAYERS,
    "views": (*LAYERS, "api"),
    "web": (*LAYERS, "api", "views"),
    "study": (*LAYERS, "api", "views", "web"),
    "compat": ("core", "engine", "api"),
    "notebook": (*LAYERS, "api", "views", "web", "study", "compat"),
    "cli": (*LAYERS, "api", "views", "web", "study", "compat", "notebook"),
}
CALLED_BY_NAME = "api.pages"  # what calls `notebook`, which is above it, by the names of modules and functions
# Modules at the top of the package, which only start or export what these packages have.
BELONGS_TO = {
    "__main__": "cli",
    "r5py": "compat",
}
# Imports that the table forbids and that are still there: the modules, and the packages that they may import until they
# are changed. This list only gets shorter.
EXCEPTIONS = {
    "compat": ("matrices", "plans"),
    "compat.r5py": ("gtfs", "places", "streets"),
    "places.selection": ("matrices",),
    "web.live_network": ("compat",),
}

LIMITS = {65_535, 4_000_000, 8_000_000, 1 << 32, (1 << 32) - 1, (1 << 24) - 1, 7_200, 604_799}
LIMITS_IN_TEXT = re.compile(r"\b(65[,_]?535|4[,_]?294[,_]?967[,_]?29[56]|[48],000,000|7[,_]?200)\b")
MINUTES = "[0-5][0-9]"  # in a pattern of clock times


@cache
def modules() -> dict[str, Path]:
    """The files of all modules, by their names without `ttm_tools`; the package itself is the empty name."""
    found = dict[str, Path]()
    for path in sorted((SOURCES / ROOT).rglob("*.py")):
        parts = path.relative_to(SOURCES / ROOT).with_suffix("").parts
        found[".".join(parts[:-1] if parts[-1] == "__init__" else parts)] = path
    return found


def named_by(node: ast.AST, package: list[str]) -> Iterator[str]:
    """What an import names, as full dotted names; `package` is where relative names begin."""
    if isinstance(node, ast.Import):
        yield from (alias.name for alias in node.names)
    elif isinstance(node, ast.ImportFrom):
        begin = package[: len(package) - node.level + 1] if node.level else []
        base = [*begin, *([node.module] if node.module else [])]
        yield from (".".join([*base, alias.name]) for alias in node.names)


@cache
def imports() -> dict[str, set[str]]:
    """The modules that each module imports, also inside functions and for types alone."""
    found = dict[str, set[str]]()
    for name, path in modules().items():
        parts = [ROOT, *name.split(".")] if name else [ROOT]
        package = parts if path.name == "__init__.py" else parts[:-1]
        named = [one for node in ast.walk(ast.parse(path.read_text())) for one in named_by(node, package)]
        own = (one.removeprefix(ROOT).removeprefix(".") for one in named if f"{one}.".startswith(f"{ROOT}."))
        # a name that is no module is one of a function or class of the module before it
        found[name] = {one if one in modules() else one.rpartition(".")[0] for one in own} - {name}
    return found


def longest(name: str, names: dict[str, str]) -> str | None:
    """The entry for a module or, failing that, for the nearest package around it."""
    while name and name not in names:
        name = name.rpartition(".")[0]
    return names.get(name)


def package_of(name: str) -> str:
    return longest(name, BELONGS_TO) or name.partition(".")[0]


def forbidden() -> set[tuple[str, str]]:
    """Each module that imports a package against the table, and that package."""
    found = {(name, package_of(other)) for name, others in imports().items() for other in others if name and other}
    return {(name, other) for name, other in found if other not in (package_of(name), *MAY_IMPORT[package_of(name)])}


def excepted(name: str, package: str) -> str:
    """The exception that covers an import; an empty text if there is none."""
    names = {own: own for own, packages in EXCEPTIONS.items() if package in packages}
    return longest(name, names) or ""


def test_each_module_belongs_to_a_package_of_the_table() -> None:
    assert {package_of(name) for name in modules() if name} <= MAY_IMPORT.keys()
    assert {name for name in BELONGS_TO if name not in modules()} == set()


def test_no_module_imports_a_package_that_it_may_not() -> None:
    new = [f"{name} imports {other}" for name, other in sorted(forbidden()) if not excepted(name, other)]
    assert new == []


def test_each_exception_is_still_needed() -> None:
    needed = {(excepted(name, other), other) for name, other in forbidden()}
    assert {(name, other) for name, others in EXCEPTIONS.items() for other in others} - needed == set()


def test_measures_open_no_file() -> None:
    readers = {"core.files", "core.reading", "core.tables", "core.zips"}
    measures = {name: others for name, others in imports().items() if package_of(name) == "measures"}
    assert measures and [name for name, others in measures.items() if others & readers] == []


def test_no_modules_import_each_other() -> None:
    graph = {name: {other for other in others if other} for name, others in imports().items() if name}
    assert len(list(graphlib.TopologicalSorter(graph).static_order())) == len(modules()) - 1


def test_what_is_called_by_name_is_there_and_called_from_one_module() -> None:
    pairs = dict[tuple[str, str], str]()
    for name, path in modules().items():
        for node in ast.walk(ast.parse(path.read_text())):
            texts = (
                [one.value for one in node.elts if isinstance(one, ast.Constant)] if isinstance(node, ast.Tuple) else []
            )
            if len(texts) == 2 and str(texts[0]).startswith("notebook."):
                pairs[texts[0], texts[1]] = name
    assert len(pairs) == 2 and set(pairs.values()) == {CALLED_BY_NAME}
    for module, function in pairs:
        tree = ast.parse(modules()[module].read_text())
        assert function in {node.name for node in tree.body if isinstance(node, ast.FunctionDef)}


def constants(path: Path) -> Iterator[object]:
    """The numbers and texts in a file's code, docstrings left out, and its powers of two."""
    tree = ast.parse(path.read_text())
    docstrings = {id(node.value) for node in ast.walk(tree) if isinstance(node, ast.Expr)}
    for node in ast.walk(tree):
        if isinstance(node, ast.Constant) and id(node) not in docstrings:
            yield node.value
        elif isinstance(node, ast.BinOp) and isinstance(node.op, ast.LShift):
            sides = node.left, node.right
            if all(isinstance(side, ast.Constant) and isinstance(side.value, int) for side in sides):
                yield eval(compile(ast.Expression(node), str(path), "eval"))


def states_a_limit(value: object) -> bool:
    """Whether a number or text is one that `core.limits` has a name for, or a pattern of clock times."""
    if isinstance(value, str):
        return bool(LIMITS_IN_TEXT.search(value)) or MINUTES in value
    return isinstance(value, (int, float)) and value in LIMITS


def test_limits_and_clock_times_are_in_one_place_each() -> None:
    found = {(name, value) for name, path in modules().items() for value in constants(path) if states_a_limit(value)}
    elsewhere = {(name, value) for name, value in found if name not in ("core.limits", "core.times")}
    assert elsewhere == set()
    assert {value for name, value in found if name == "core.limits"} >= {65_535, 7_200}
    assert any(name == "core.times" for name, _ in found)


def test_the_package_alone_loads_nothing_that_takes_long() -> None:
    code = "import sys, ttm_tools; print(*{'numpy', 'pandas', 'geopandas'} & sys.modules.keys())"
    ran = subprocess.run([sys.executable, "-c", code], env={"PYTHONPATH": str(SOURCES)}, capture_output=True, text=True)
    assert (ran.returncode, ran.stdout, ran.stderr) == (0, "\n", "")
