"""Settings of Sphinx, which writes the documentation as HTML and some pages as manual pages.

`sphinx-build -c docs -b html . FOLDER`, at the top of the repository, builds the pages. The packages add
`reference/help.md`, which has the output of every `--help` (`packaging/debian/rules`).
"""

import json
import sys
from pathlib import Path
from typing import Any

from myst_parser.parsers.sphinx_ import MystParser

sys.path.insert(0, str(Path(__file__).resolve().parents[1] / "tools" / "src"))
project = "ttm"
extensions = ["myst_parser", "sphinx.ext.autodoc", "numpydoc"]
autodoc_mock_imports = "geopandas shapely xarray h5py scipy osmium flask jinja2 matplotlib".split()
autodoc_member_order = "bysource"
autodoc_typehints = "signature"
numpydoc_show_class_members = autosummary_generate = False
root_doc = "docs/README"
include_patterns = ["*.md", "bench/*.md", "docs/**.md", "docs/**.ipynb"]
myst_heading_anchors = 4
highlight_language = "none"
suppress_warnings = ["misc.highlighting_failure"]
html_theme = "alabaster"
html_theme_options = {"page_width": "76em", "sidebar_width": "16em", "fixed_sidebar": True, "show_powered_by": False}
html_title = "ttm"
html_sidebars = {"**": ["about.html", "searchbox.html", "navigation.html"]}
html_extra_path = ["index.html"]
html_show_sphinx = html_show_copyright = html_show_sourcelink = html_copy_source = False
man_pages = [
    ("docs/reference/formats", "ttm-formats", "the files that ttm reads", "", 5),
    ("docs/reference/scenario-file", "ttm-scenario", "scenario files", "", 5),
    ("docs/reference/matrix", "ttm-matrix", "the matrix that ttm prints", "", 5),
    ("docs/reference/options", "ttm-options", "the options of ttm in detail", "", 7),
    ("docs/reference/conversation", "ttm-conversation", "questions and answers of ttm --ask", "", 7),
    ("docs/reference/errors", "ttm-errors", "errors and exit statuses", "", 7),
    ("docs/howto/report", "ttm-report", "the report of a run", "", 7),
    ("docs/howto/feed", "ttm-feed", "prepare a feed", "", 7),
    ("docs/reference/plan-file", "ttm-plan", "plans of new lines, headways and speeds", "", 5),
    ("docs/reference/study-file", "ttm-study", "the file of a study", "", 5),
]
CONTENTS = {
    "Start": ["tutorial", "faq", "glossary"],
    "How-to": ["howto/*"],
    "Notebooks": ["notebooks/*"],
    "Reference": ["reference/*"],
    "Explanation": ["explanation/*"],
    "Project": ["../README", "../CONTRIBUTING", "../CHANGELOG", "../bench/RESULTS", "../bench/HISTORY"],
}


def add_contents(app: Any, name: str, source: list[str]) -> None:
    """Adds to the first page the tables of contents that the sidebar shows."""
    if name == root_doc:
        for caption, pages in CONTENTS.items():
            lines = ["", "```{toctree}", ":hidden:", ":glob:", f":caption: {caption}", "", *pages, "```", ""]
            source[0] += "\n".join(lines)


class NotebookParser(MystParser):
    """Parses a notebook as Markdown: its texts, code, and what the code has shown."""

    supported = ("notebook",)

    def parse(self, inputstring: str, document: Any) -> None:
        cells = json.loads(inputstring)["cells"]
        super().parse("\n\n".join(map(markdown_of, cells)), document)


def markdown_of(cell: dict[str, Any]) -> str:
    """Returns a cell as Markdown; a picture is part of the page."""
    source = "".join(cell["source"])
    if cell["cell_type"] == "markdown":
        return source
    parts = [f"```python\n{source}\n```"]
    for output in cell["outputs"]:
        data = output.get("data", {})
        if "image/png" in data:
            parts.append(f"![what the code draws](data:image/png;base64,{''.join(data['image/png']).strip()})")
        else:
            text = "".join(output.get("text") or data["text/plain"]).rstrip()
            parts.append(f"```text\n{text}\n```")
    return "\n\n".join(parts)


def setup(app: Any) -> None:
    app.add_source_suffix(".ipynb", "notebook")
    app.add_source_parser(NotebookParser)
    app.connect("source-read", add_contents)
