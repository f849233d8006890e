import argparse
import os
import webbrowser
from pathlib import Path
from typing import Iterator

from ..core.errors import MissingDependencyError
from ..core.files import output
from ..core.shipped import DATA
from .options import Parser

SUMMARY = "the documentation, in a browser"
HELP = """\
Opens the documentation in a browser, and prints where it is. It needs no network, and its search works offline. The
wheel, the tar file and the Debian package ttm-doc contain it; in a clone, packaging/build.sh writes it.

--sample writes the files of the tutorial's town, town.zip and jobs.csv, to a folder."""
INDEX = "docs/README.html"
SAMPLE = ("town.zip", "jobs.csv")


def describe(parser: Parser) -> None:
    parser.add_flag("--path", "print where the documentation is, and open nothing", "a browser opens")
    what = "write the tutorial's town.zip and jobs.csv to this folder, and open nothing"
    parser.add_text("--sample", "FOLDER", what, without="none is written")
    parser.add_force()


def places() -> Iterator[Path]:
    """The folders where the documentation may be: of a wheel, of a Debian package or tar file, and of a clone."""
    package = DATA.parent
    yield DATA / "html"
    yield from (above / "share" / "doc" / "ttm" / "html" for above in package.parents[3:4])
    yield from (above / "packaging" / "out" / "html" for above in package.parents[2:3])


def outputs(args: argparse.Namespace) -> list[str]:
    """The files that the command writes."""
    return [os.path.join(args.sample, name) for name in SAMPLE] if args.sample else []


def write_sample(paths: list[str]) -> None:
    """Copies the sample's files."""
    if not (DATA / "sample").is_dir():
        raise MissingDependencyError(
            "the sample isn't installed: in a clone, the tutorial generates it by bench/feedgen.py"
        )
    os.makedirs(os.path.dirname(paths[0]), exist_ok=True)
    for path in paths:
        with output(path) as file:
            file.write((DATA / "sample" / os.path.basename(path)).read_bytes())
        print(path)


def run(args: argparse.Namespace) -> None:
    if args.sample:
        write_sample(outputs(args))
        return
    index = next((place / INDEX for place in places() if (place / INDEX).is_file()), None)
    if index is None:
        raise MissingDependencyError(
            "the documentation isn't installed: packaging/build.sh writes it, with Sphinx and MyST"
        )
    print(index)
    if not args.path:
        webbrowser.open(index.as_uri())
