"""The public surface is that of `api.pyi`: names, arguments, defaults and types of `ttm_tools`."""

import shutil
import subprocess
import sys
from pathlib import Path

import pytest

for package in ("geopandas", "mypy", "h5py"):
    pytest.importorskip(package)

HERE = Path(__file__).parent
SOURCES = HERE.parent / "src"
NOT_PUBLIC = [  # constructors that no caller uses, and names of types that are of the stub alone
    *(f"{name}.__init__" for name in ("EngineError", "InputError", "Matrix")),
    "Network.__new__",
    *(
        "Date",
        "Departures",
        "Duration",
        "Labels",
        "Mode",
        "PathLikeStr",
        "Places",
        "Progress",
        "SavedPage",
        "ServedPage",
        "Settings",
        "TimeOfDay",
    ),
]


def test_the_package_is_as_the_stub_says(tmp_path: Path) -> None:
    stub = tmp_path / "stubs" / "ttm_tools"
    stub.mkdir(parents=True)
    shutil.copy(HERE / "api.pyi", stub / "__init__.pyi")
    allowed = tmp_path / "allowed.txt"
    allowed.write_text("".join(f"ttm_tools.{name}\n" for name in NOT_PUBLIC))
    words = [sys.executable, "-m", "mypy.stubtest", "ttm_tools", "--concise", "--ignore-missing-stub"]
    words += ["--allowlist", str(allowed), "--mypy-config-file", str(HERE.parent / "pyproject.toml")]
    paths = {"PYTHONPATH": str(SOURCES), "MYPYPATH": str(stub.parent), "PATH": "/usr/bin:/bin"}
    ran = subprocess.run(words, cwd=tmp_path, env=paths, capture_output=True, text=True)
    assert (ran.stdout, ran.returncode) == ("", 0), ran.stderr
