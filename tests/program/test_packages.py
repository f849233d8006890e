"""The Debian packages, the tar file and the wheel of the built program, each built twice: what is in them, whether they
install, and that they run the worked example of README.

`dpkg` installs the packages into an empty folder, and into a Debian 12 of their own if mmdebstrap and a mirror can be
had: otherwise that test is skipped, and so is one that needs root or `man`. Without the packages that `build.sh` needs
all are skipped.
"""

from __future__ import annotations

import hashlib
import os
import re
import shutil
import subprocess
import sys
import tempfile
import zipfile
from collections.abc import Iterator
from pathlib import Path

import pytest

from packed import Packages, files_in

ROOT = Path(__file__).resolve().parents[2]
PYTHON = "/usr/bin/python3"  # that of Debian's packages
PATH = os.environ["PATH"] + ":/usr/sbin"
HELPERS = "/usr/share/bash-completion/bash_completion"
BASH = f"""
source {HELPERS}; source "$1"; COMP_WORDS=("${{@:2}}"); COMP_CWORD=$(($# - 2)); COMP_LINE="${{*:2}}"
COMP_POINT=${{#COMP_LINE}}; complete -p "$2" > /dev/null && "$(complete -p "$2" | sed 's/.*-F //; s/ .*//')" "$2"
echo "${{COMPREPLY[*]}}"
"""
LAYOUT = re.compile("can't break line|cannot adjust line")  # warnings on narrow columns, which lintian ignores, too
VERSION = re.compile(r'^pub const VERSION: &str = "(.*)";$', re.M)

pytestmark = pytest.mark.xdist_group("packages")  # built once


@pytest.fixture(scope="module")
def of(one_build: str) -> Iterator[Packages]:
    """The packages, unpacked."""
    for needed in ("dh", "help2man", "sphinx-build", "shtab"):
        if shutil.which(needed, path=PATH) is None:
            pytest.skip(f"no {needed} on this machine")
    with tempfile.TemporaryDirectory(prefix="ttm-packages-") as folder:
        yield Packages(Path(one_build), Path(folder))


def example() -> str:
    """The worked example of README: what the program prints without arguments."""
    found = re.search(r"^    \$ crates/ttm/out/ttm\n((?:    .*\n)+)", (ROOT / "README.md").read_text(), re.M)
    assert found, "README.md: no worked example"
    return re.sub("^    ", "", found[1], flags=re.M)


def test_same_bytes_again(of: Packages) -> None:
    """the same commit and program give the same bytes"""
    for first, second in zip(of.files, of.made("again"), strict=True):
        assert (first.name, first.read_bytes()) == (second.name, second.read_bytes()), f"{first.name} differs"


def test_program_is_the_built_one(of: Packages) -> None:
    """each has the program byte for byte, but for its symbols"""
    bare = of.room / "stripped"
    shutil.copy(of.program, bare)
    if shutil.which("strip"):
        of.output("strip", "--strip-unneeded", bare)
    wheel = zipfile.ZipFile(of.wheel)
    packed = [wheel.read(name) for name in wheel.namelist() if name.endswith("/bin/ttm")]
    for program in [(of.tree / "usr/bin/ttm").read_bytes(), (of.folder / "bin/ttm").read_bytes(), *packed]:
        assert program == bare.read_bytes()
    assert len(packed) == 1
    assert hashlib.sha256(bare.read_bytes()).hexdigest() in of.share("doc/ttm/PROVED")


def test_every_file_in_both(of: Packages) -> None:
    """the tar file has what the packages have, and no links out of it"""
    names = [sorted(str(path.relative_to(top)) for path in top.rglob("*")) for top in (of.tree / "usr", of.folder)]
    assert names[0] == names[1], set(names[0]) ^ set(names[1])
    assert [path for path in of.folder.rglob("*") if not path.exists()] == []


def newest() -> str:
    """The version at the top of the changelog."""
    found = re.search(r"^## (\S+)", (ROOT / "CHANGELOG.md").read_text(), re.M)
    assert found, "CHANGELOG.md: no version"
    return found[1]


def test_all_have_one_version(of: Packages) -> None:
    """the packages, the tools and the changelog have one version"""
    version = newest()
    assert of.output(PYTHON, of.folder / "bin/ttm-tools", "--version") == f"ttm-tools {version}\n"
    assert [of.field(package, "Version").split("+")[0] for package in range(3)] == [version] * 3
    assert of.tar.name.split("-")[1] == of.wheel.name.split("-")[1] == version


def test_program_has_the_version() -> None:
    """the program has the version of the changelog"""
    version = VERSION.search((ROOT / "crates/command_line/src/version.rt").read_text())
    assert version and version[1] == newest()


def test_toolchain_is_named(of: Packages) -> None:
    """the package names the toolchain at hand, and README lists one of the same logic"""
    at_hand = of.output("rt", "version").strip()
    proved = of.share("doc/ttm/PROVED")
    assert f"\nproved with {at_hand}\n" in proved and "\ncommit " in proved, proved
    logics = re.findall(r"^    rattle-kit-\S+ logic (\S+)$", (ROOT / "README.md").read_text(), re.M)
    assert at_hand.split()[-1] in logics, f"README.md lists no toolchain of {at_hand}"


def test_documents_are_there(of: Packages) -> None:
    """the changelog and the pages of docs are there"""
    for item in (ROOT / "README.md", ROOT / "CHANGELOG.md", *(ROOT / "docs").rglob("*.md")):
        name = item.relative_to(ROOT)
        assert of.share(f"doc/ttm/{name}") == item.read_text(), f"{name} differs"


def test_html_needs_no_network(of: Packages) -> None:
    """the pages are there as HTML, which loads nothing from elsewhere, and the tools find it"""
    pytest.importorskip("sphinx")
    pytest.importorskip("myst_parser")
    folder = of.tree / "usr/share/doc/ttm/html"
    names = [path.relative_to(ROOT).with_suffix(".html") for path in (ROOT / "docs").rglob("*.md")]
    assert [name for name in names if not (folder / name).is_file()] == []
    loaded = re.compile(r'<(?:script|img|iframe)[^>]* src="(?:https?:)?//|<link[^>]* href="(?:https?:)?//')
    assert [path for path in folder.rglob("*.html") if loaded.search(path.read_text())] == []
    assert "percentil" in (folder / "searchindex.js").read_text()
    assert "ttm-tools walks" in (folder / "docs/reference/help.html").read_text()
    found = of.output(sys.executable, of.folder / "bin/ttm-tools", "docs", "--path").strip()
    assert found == str(of.folder / "share/doc/ttm/html/docs/README.html"), found


def test_licence_and_changes_are_said(of: Packages) -> None:
    """each package says which licence it has, who maintains it, and of which commit it is"""
    for package, name in enumerate(("ttm", "python3-ttm-tools", "ttm-doc")):
        assert "No licence was chosen yet" in of.share(f"doc/{name}/copyright")
        assert of.share(f"doc/{name}/changelog.gz").startswith(f"ttm ({of.field(package, 'Version')}) unstable; ")
        maintainer = of.field(package, "Maintainer")
        assert re.fullmatch(r"[^<>]+ <[^<>@ ]+@[^<>@ ]+\.[^<>@ ]+>", maintainer), maintainer


def test_lintian_finds_no_error(of: Packages) -> None:
    """lintian finds no error in the packages"""
    if shutil.which("lintian", path=PATH) is None:
        pytest.skip("no lintian on this machine")
    ran = subprocess.run(["lintian", "--fail-on", "error", *map(str, of.debs)], capture_output=True, text=True)
    assert ran.returncode == 0, ran.stdout + ran.stderr


def test_sample_feed_is_taken(of: Packages) -> None:
    """the sample feed has less than a megabyte and no errors, and the tools write it to a folder"""
    feed = of.tree / "usr/share/doc/ttm/examples/town.zip"
    assert feed.stat().st_size < 1_000_000 and (feed.parent / "jobs.csv").is_file()
    tools, there = of.folder / "bin/ttm-tools", of.room / "sample"
    assert "no errors" in of.output(PYTHON, tools, "prepare", "--check", feed)
    assert of.output(PYTHON, tools, "docs", "--sample", there) == f"{there}/town.zip\n{there}/jobs.csv\n"
    for name in ("town.zip", "jobs.csv"):
        assert (there / name).read_bytes() == (feed.parent / name).read_bytes()


def test_tools_say_that_python_is_not_there(of: Packages) -> None:
    """where there is no Python, the tools say so in a line"""
    room = of.room / "bare"
    room.mkdir()
    command = (of.folder / "bin/ttm-tools").read_text().replace("/usr/bin/python3", "/nonexistent/python3")
    (room / "ttm-tools").write_text(command)
    ran = subprocess.run(["/bin/sh", room / "ttm-tools"], env={"PATH": str(room)}, capture_output=True, text=True)
    assert ran.returncode == 1 and ran.stderr.startswith("ttm-tools: no Python 3.11 or later here"), ran.stderr


def test_folder_gives_the_example(of: Packages) -> None:
    """the program of the tar file gives the worked example"""
    assert of.output(of.folder / "bin/ttm") == example()


def test_tools_of_the_folder_run(of: Packages) -> None:
    """the tools of the tar file say what they take"""
    assert "usage: ttm-tools" in of.output(sys.executable, of.folder / "bin/ttm-tools", "--help")


def test_control_says_what_is_needed(of: Packages) -> None:
    """the program needs the C library alone; the tools depend on what all of them need, and suggest what some need"""
    depends = of.field(0, "Depends")
    assert re.fullmatch(r"libc6( \(>= 2\.\d+\))?(, libgcc-s1( \(>= [\d.]+\))?)?", depends), depends
    assert [of.field(package, "Recommends") for package in range(3)] == [""] * 3  # apt would install them
    depends, suggests, about = (of.field(1, name) for name in ("Depends", "Suggests", "Description"))
    for name in "matplotlib h5py geopandas pyosmium flask jinja2".split():
        assert f"python3-{name}" in suggests and f"python3-{name}" in about and f"python3-{name}" not in depends, name
    for name in ("ttm (>= ", "python3-numpy (>= 1:1.24)", "python3-pandas (>= 1.5)", "python3-pyproj", "python3-scipy"):
        assert name in depends, depends


def test_manuals_have_every_option(of: Packages) -> None:
    """the manual pages have each option of the helps"""
    tools: list[object] = [PYTHON, of.folder / "bin/ttm-tools"]
    names = re.findall(r"^    (\w+)", of.output(*tools, "--help"), re.M)
    assert "walks" in names and "docs" in names, names
    pages: dict[str, list[object]] = {"ttm": [of.program], "ttm-tools": tools}
    pages |= {f"ttm-tools-{name}": [*tools, name] for name in names}
    for name, program in pages.items():
        page = of.share(f"man/man1/{name}.1.gz").replace("\\-", "-")
        options = re.findall(r"(?<![\w-])--[a-z][\w-]*", of.output(*program, "--help"))
        missing = [option for option in options if option not in page]
        assert options and not missing, f"{name}.1: {missing}"


def test_manuals_are_read_without_warnings(of: Packages) -> None:
    """man reads the manual pages without a warning"""
    if not shutil.which("man"):
        pytest.skip("no man on this machine")
    pages = sorted((of.tree / "usr/share/man").rglob("*.gz"))
    assert {page.parent.name for page in pages} == {"man1", "man5", "man7"}
    for page in pages:
        command = ["man", "--warnings", "-E", "UTF-8", "-l", "-Tutf8", "-Z", str(page)]
        environment = {**os.environ, "LC_ALL": "C.UTF-8", "MANWIDTH": "100"}
        ran = subprocess.run(command, env=environment, capture_output=True, text=True)
        warnings = [line for line in ran.stderr.splitlines() if not LAYOUT.search(line)]
        assert (ran.returncode, warnings) == (0, []), page


def test_words_are_completed(of: Packages) -> None:
    """bash completes options, commands and files"""
    if not os.path.isfile(HELPERS):
        pytest.skip("no bash-completion on this machine")
    completions = of.tree / "usr/share/bash-completion/completions"
    wanted = [
        (("ttm", "--wo"), "--workers"),
        (("ttm", "--feed", "doc"), "docs"),
        (("ttm", "--date", "doc"), ""),
        (("ttm", "READ"), "README.md"),
        (("ttm", "--footpaths", "READ"), "README.md"),
        (("ttm-tools", "com"), "compare"),
        (("ttm-tools", "walks", "--lim"), "--limit"),
        (("ttm-tools", "walks", "doc"), "docs"),
        (("ttm-tools", "walks", "--limit", "doc"), ""),
        (("ttm-tools", "access", "READ"), "README.md"),
        (("ttm-tools", "access", "--decay", "lin"), "linear"),
        (("ttm-tools", "access", "--demand", "READ"), "README.md"),
    ]
    for typed, found in wanted:
        script = f"cd {ROOT}; PATH={of.folder}/bin:$PATH; {BASH}"
        completed = of.output("bash", "--norc", "-c", script, "bash", completions / typed[0], *typed)
        assert completed == found + "\n", f"{typed}: {completed}"
    assert of.share("zsh/vendor-completions/_ttm-tools").startswith("#compdef ttm-tools\n")


def test_wheel_says_what_an_index_asks(of: Packages) -> None:
    """twine takes the wheel's metadata, and its name says the least glibc that the program needs"""
    minors = [int(match) for match in re.findall(rb"GLIBC_2\.(\d+)", of.program.read_bytes())]
    assert f"-py3-none-manylinux_2_{max([17, *minors])}_x86_64.whl" in of.wheel.name, of.wheel.name
    if not shutil.which("twine"):
        pytest.skip("no twine on this machine")
    said = of.output("twine", "check", "--strict", of.wheel)
    assert "PASSED" in said, said


def test_wheel_is_installed_by_pip(of: Packages) -> None:
    """installed by pip from the file alone, the program gives the worked example, and the tools find it"""
    venv = of.room / "venv"
    try:
        of.output(PYTHON, "-m", "venv", "--system-site-packages", venv)
    except AssertionError as why:
        pytest.skip(f"no virtual environment can be made: {why}")
    of.output(venv / "bin/pip", "install", "--no-index", "--no-deps", of.wheel, PIP_DISABLE_PIP_VERSION_CHECK="1")
    assert of.output(venv / "bin/ttm") == example()
    data = next((venv / "lib").rglob("ttm_tools/data"))
    assert (data / "PROVED").read_text() == of.share("doc/ttm/PROVED")
    assert of.output(venv / "bin/ttm-tools", "docs", "--path") == f"{data}/html/docs/README.html\n"
    leaflet = data.parent / "web/assets/leaflet"
    shipped = "from ttm_tools.core.shipped import LEAFLET; print(LEAFLET)"
    assert of.output(venv / "bin/python", "-c", shipped) == f"{leaflet}\n"
    of.output("sh", "-c", f"cd {leaflet} && sha256sum --check --strict SHA256SUMS")
    assert "Redistribution and use in source and binary forms" in (leaflet / "LICENSE.txt").read_text()
    found = "import ttm_tools.engine.arguments as it; print(it.program_at(None))"
    assert of.output(venv / "bin/python", "-c", found) == f"{venv}/bin/ttm\n"


def test_wheel_is_installed_for_a_user(of: Packages) -> None:
    """installed by pip for one user, the tools find the program, the documentation and the sample"""
    base = {"PYTHONUSERBASE": str(of.room / "base"), "PIP_DISABLE_PIP_VERSION_CHECK": "1"}
    options = ["--user", "--no-index", "--no-deps", "--break-system-packages", "--no-warn-script-location"]
    of.output(PYTHON, "-m", "pip", "install", *options, of.wheel, **base)
    page = of.output(of.room / "base/bin/ttm-tools", "docs", "--path", **base)
    assert page.startswith(f"{of.room}/base/lib/") and Path(page.strip()).is_file()
    found = "import ttm_tools.engine as it; print(it.program_at(None))"
    assert of.output(PYTHON, "-c", found, **base) == f"{of.room}/base/bin/ttm\n"
    there, examples = of.room / "sample_of_wheel", of.tree / "usr/share/doc/ttm/examples"
    of.output(of.room / "base/bin/ttm-tools", "docs", "--sample", there, **base)
    assert files_in(there / "town.zip") == files_in(examples / "town.zip")  # debhelper writes the zip file again
    assert (there / "jobs.csv").read_bytes() == (examples / "jobs.csv").read_bytes()


def test_installed_by_dpkg(of: Packages) -> None:
    """installed by dpkg into an empty folder, they give the worked example, and are removed whole"""
    of.install("dpkg")


def test_installed_in_debian(of: Packages) -> None:
    """installed in a Debian 12 of their own, they give the worked example, and are removed whole"""
    if not any(shutil.which(name, path=PATH) for name in ("mmdebstrap", "debootstrap")):
        pytest.skip("neither mmdebstrap nor debootstrap on this machine")
    of.install("debian")
