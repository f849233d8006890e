"""Docstrings of public names: each is there, has numpydoc's form, and names no unknown parameter; examples run."""

import doctest
import importlib
import inspect
import re
from collections.abc import Iterator
from pathlib import Path
from typing import Any

import pytest

for package in ("geopandas", "numpydoc", "h5py"):
    pytest.importorskip(package)
from numpydoc.validate import validate  # noqa: E402

import ttm_tools  # noqa: E402

# Signatures have the types, and a summary may say all: sections and types that numpydoc misses are no error. Nor are
# summaries that begin with a name or with "Seconds".
ALLOWED = {"ES01", "EX01", "SA01", "GL01", "PR01", "PR04", "PR08", "RT01", "RT03", "RT04", "SS02", "SS05"}
VALUES = {"settings"}  # an object: its class has the docstring


def public_names() -> list[str]:
    """All public names, with the public methods and properties of classes."""
    found = dict[str, None]()
    for name in ttm_tools.__all__:
        found[name] = None
        value = getattr(ttm_tools, name)
        for kind in value.__mro__ if inspect.isclass(value) else ():
            if kind.__module__.startswith("ttm_tools."):
                members = (one for one, what in vars(kind).items() if callable(what) or isinstance(what, property))
                found.update((f"{name}.{one}", None) for one in members if not one.startswith("_"))
    return [name for name in found if name not in VALUES]


def faults_of(name: str) -> set[str]:
    """What numpydoc says of a name; that parameters are missing counts where some are described."""
    checked = validate(f"ttm_tools.{name}")
    found = {code for code, _ in checked["errors"]}
    return found - (
        ALLOWED - {"PR01"} if "Parameters\n---" in inspect.cleandoc(checked["docstring"] or "") else ALLOWED
    )


def test_each_public_name_has_a_docstring_of_numpydocs_form() -> None:
    names = public_names()
    assert len(names) > 90 and {"Network.explore", "Scenario.add_line", "Matrix.to_html"} <= set(names)
    found = {name: faults_of(name) for name in names}
    assert {name: codes for name, codes in found.items() if codes} == {}


def test_a_parameter_that_no_function_has_would_be_seen(monkeypatch: pytest.MonkeyPatch) -> None:
    text = ttm_tools.grid.__doc__ or ""
    monkeypatch.setattr(ttm_tools.grid, "__doc__", text.replace("    cell_m\n", "    cell_metres\n"))
    assert {"PR01", "PR02"} <= {code for code, _ in validate("ttm_tools.grid")["errors"]}
    monkeypatch.setattr(ttm_tools.grid, "__doc__", None)
    assert "GL08" in {code for code, _ in validate("ttm_tools.grid")["errors"]}


def test_the_reference_lists_every_public_name() -> None:
    page = Path(__file__).resolve().parents[2] / "docs" / "reference" / "api.md"
    if not page.is_file():
        pytest.skip("without docs/reference/api.md")
    listed = re.findall(r"^\.\. auto\w+:: ttm_tools\.(\w+)$", page.read_text(), re.MULTILINE)
    assert sorted(listed) == sorted(set(ttm_tools.__all__) - VALUES)


def examples() -> Iterator[doctest.DocTest]:
    """The examples of all public names that need no program."""
    finder = doctest.DocTestFinder(exclude_empty=True)
    for name in ttm_tools.__all__:
        value: Any = getattr(ttm_tools, name)
        if name not in VALUES | {"open_network"}:
            module = importlib.import_module(value.__module__)
            yield from (test for test in finder.find(value, name, module, vars(module).copy()) if test.examples)


def test_examples_run() -> None:
    found = list(examples())
    results = [doctest.DocTestRunner().run(test) for test in found]
    assert sum(result.failed for result in results) == 0
    assert {test.name for test in found} >= {"Question", "Scenario", "equity", "grid", "allocate", "Decay", "sample"}
