"""Builds the wheel that `pyproject.toml` describes; with TTM_ENGINE, the path of a built `ttm`, it has that program."""

import os
import re
from pathlib import Path

from setuptools import setup
from wheel.bdist_wheel import bdist_wheel

ENGINE = os.environ.get("TTM_ENGINE")
OLDEST_GLIBC = 17  # 2.17, the oldest that a tag names


class Wheel(bdist_wheel):  # type: ignore[misc]
    """A wheel whose tag says which machine the program runs on, and the oldest C library that it starts with."""

    def get_tag(self) -> tuple[str, str, str]:
        if ENGINE is None:
            tag: tuple[str, str, str] = super().get_tag()
            return tag
        minors = map(int, re.findall(rb"GLIBC_2\.(\d+)", Path(ENGINE).read_bytes()))
        return "py3", "none", f"manylinux_2_{max([OLDEST_GLIBC, *minors])}_{os.uname().machine}"


setup(cmdclass={"bdist_wheel": Wheel}, data_files=[("bin", [os.path.relpath(ENGINE)])] if ENGINE else [])
