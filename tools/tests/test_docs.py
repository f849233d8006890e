"""The documentation: every link leads somewhere, every page is listed, and the prose keeps to common words."""

import re
from pathlib import Path

import pytest

ROOT = Path(__file__).resolve().parents[2]
DOCS = ROOT / "docs"
PAGES = sorted([*ROOT.glob("*.md"), *DOCS.rglob("*.md"), *(ROOT / "bench").glob("*.md")])
SOURCES = ("crates", "tools", "bench", "packaging", ".ci", "tests")
KINDS = {".rt", ".antt", ".py", ".sh", ".edit", ""}
LINK = re.compile(r"\]\(([^)\s]+)\)")
MENTION = re.compile(r"\b(?:docs|bench|tests/(?:cluster|program))/(?:[\w-]+/)*[\w-]+\.(?:md|png|py|sh)\b")
CODE = re.compile(r"^```.*?^```$|^(?: {4}|\t).*?$|`[^`]*`|\]\([^)]*\)", re.MULTILINE | re.DOTALL)
PRIVATE = re.compile(
    r"\b(?:told|whence|thereby|beside|begun|for who|so many|looked at|put out|bears? the name"
    r"|stands? (?:there|at|beside)|one (?:gets|reaches|reached|walks|changes|waits)|is to (?:be|say|take)"
    r"|several shares|shares? of (?:a|the|all) (?:hundred )?departures|(?:of|more|many|the) tries"
    r"|gives? way|at all(?=[.,;:)]))\b",
    re.IGNORECASE | re.MULTILINE,
)


def prose_of(page: Path) -> str:
    """The text of a page without its code."""
    return CODE.sub("", page.read_text())


def anchors_of(page: Path) -> set[str]:
    """The anchors of a page's headings, as GitHub and MkDocs form them."""
    headings = re.findall(r"^#+ (.*)$", re.sub(r"^```.*?^```$", "", page.read_text(), flags=re.M | re.S), re.M)
    return {re.sub(r"[^\w -]", "", heading.lower()).replace(" ", "-") for heading in headings}


def is_broken(page: Path, link: str) -> bool:
    target, _, anchor = link.partition("#")
    path = (page.parent / target).resolve() if target else page
    return not path.exists() or bool(anchor) and anchor not in anchors_of(path)


@pytest.mark.parametrize("page", PAGES, ids=lambda item: str(item.relative_to(ROOT)))
class TestPage:
    def test_every_link_leads_to_a_file_and_a_heading(self, page: Path) -> None:
        links = [match for match in LINK.findall(page.read_text()) if not re.match(r"\w+:", match)]
        assert [link for link in links if is_broken(page, link)] == []

    def test_its_prose_has_no_private_words(self, page: Path) -> None:
        assert PRIVATE.findall(prose_of(page)) == []


def test_the_index_lists_every_page() -> None:
    index = (DOCS / "README.md").read_text()
    pages = [str(path.relative_to(DOCS)) for path in DOCS.rglob("*.md") if path != DOCS / "README.md"]
    assert [page for page in pages if f"]({page})" not in index] == []


def test_every_picture_is_shown() -> None:
    links = "\n".join(page.read_text() for page in PAGES)
    assert [path.name for path in (DOCS / "images").glob("*.png") if f"images/{path.name})" not in links] == []


def test_files_that_sources_and_pages_mention_exist() -> None:
    files = [
        path for folder in SOURCES for path in (ROOT / folder).rglob("*") if path.is_file() and path.suffix in KINDS
    ]
    mentions = {}
    for file in [*files, *PAGES]:
        parts = file.relative_to(ROOT).parts
        if "out" not in parts and "__pycache__" not in parts:
            mentions.update({match: file for match in MENTION.findall(file.read_text(errors="replace"))})
    assert {item: str(file) for item, file in mentions.items() if not (ROOT / item).exists()} == {}
    assert len(mentions) > 10


def test_broken_links_and_private_words_are_found(tmp_path: Path) -> None:
    page = tmp_path / "page.md"
    page.write_text("# A page\n\nIt is told, `told`, whence.\n\n    told\n\n## Its 2nd: `part`\n")
    assert PRIVATE.findall(prose_of(page)) == ["told", "whence"]
    assert anchors_of(page) == {"a-page", "its-2nd-part"}
    assert [is_broken(page, name) for name in ("#a-page", "page.md#its-2nd-part", "#b", "other.md")] == [0, 0, 1, 1]


@pytest.mark.parametrize("name", ["README.md", "docs/tutorial.md"])
def test_runs_that_beginners_copy_explain_what_they_refuse(name: str) -> None:
    text = re.sub(r"\\\n *", "", (ROOT / name).read_text())
    runs = re.findall(r"^ {4}(?:\$ )?(ttm --feed .*)$", text, re.MULTILINE)
    assert runs and [run for run in runs if "--report" not in run] == []
