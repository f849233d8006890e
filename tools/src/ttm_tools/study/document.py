"""A report as blocks: Markdown, whose pictures are in the same folder, and a page of HTML that needs no other file."""

import base64
import html
import re
from dataclasses import dataclass, field
from pathlib import Path
from typing import Iterable, Sequence
from urllib.parse import quote

from ..core.text import markdown as plain, printed
from ..web.styling import font_style

STYLE = """\
body { font: 16px/1.5 Inter, sans-serif; margin: 0; color: #14171a; }
main { max-width: 74em; margin: 2em auto; padding: 0 1em; }
h1 { font-size: 30px; line-height: 36px; letter-spacing: -0.02em; margin: 0 0 12px; }
.lead { font-size: 20px; line-height: 28px; margin: 0 0 12px; }
.loss { color: #a21328; }
.gain { color: #1b5a9c; }
.chips { margin: 12px 0 24px; }
.chips span { display: inline-block; background: #f3f2ee; color: #545b62; font-size: 14px; border-radius: 999px;
  padding: 2px 12px; margin: 0 8px 8px 0; }
.figures { display: grid; gap: 16px; max-width: 60em; }
.figures p { margin: 0; max-width: none; }
h1, h2, h3, p, li { max-width: 60em; overflow-wrap: anywhere; }
.wide { overflow-x: auto; margin: 1em 0; }
.wide:focus-visible { outline: 3px solid #0b57a4; outline-offset: 2px; }
table { border-collapse: collapse; font-size: 0.9em; }
caption { text-align: left; font-weight: bold; padding: 0.4em 0; box-sizing: border-box; }
@media screen { caption { max-width: calc(100vw - 3em); } } /* of a table that is wider than the screen */
th, td { border-bottom: 1px solid #dfe2e4; padding: 0.4em 0.8em; text-align: left; vertical-align: top; }
th { font-weight: 400; color: #545b62; vertical-align: bottom; }
thead th { border-bottom: 1px solid #14171a; }
tr > :first-child { padding-left: 0; }
td.number { text-align: right; white-space: nowrap; font-variant-numeric: tabular-nums; }
code { background: #f2f2f2; overflow-wrap: anywhere; }
td.sum { font-family: monospace; overflow-wrap: anywhere; }
pre { background: #f2f2f2; padding: 0.6em; white-space: pre-wrap; overflow-wrap: anywhere; }
img { max-width: 100%; height: auto; }
@page { size: A4; margin: 15mm; }
@media print {
  body { font-size: 10.5pt; }
  main { max-width: none; margin: 0; padding: 0; }
  h1 { font-size: 20pt; line-height: 24pt; }
  .lead { font-size: 13pt; line-height: 18pt; }
  .chips span { font-size: 8.5pt; padding: 0; margin-right: 3mm; background: none; }
  .figures { gap: 2mm; }
  .figures img { max-height: 125mm; }
  .figures p + p img { max-height: 60mm; }
  .wide { overflow: visible; }
  table { display: table; width: calc(100% - 1mm); font-size: 7.5pt; }
  caption { font-size: 9pt; }
  th, td { padding: 0.5mm 1mm; }
  table.many { font-size: 6.5pt; }
  table.many :is(th, td) { padding: 0.5mm 0.6mm; }
  td.long { overflow-wrap: anywhere; } /* so that all columns are on the sheet */
  thead { display: table-header-group; }
  tr, img { break-inside: avoid; }
  h2, h3, caption { break-after: avoid; }
  img { max-height: 240mm; }
  pre { font-size: 8pt; }
}"""
MANY = 10  # columns; a table of more is printed in smaller letters
LONG = 12  # characters; more may be broken on paper
SUM = re.compile("[0-9a-f]{64}")
PNG = "data:image/png;base64,"


@dataclass
class Document:
    """Blocks of text in the one form and in the other."""

    title: str
    markdown: list[str] = field(default_factory=list)
    body: list[str] = field(default_factory=list)
    folder: Path = Path()  # where its pictures lie

    def heading(self, text: str, level: int = 2) -> None:
        self.markdown.append(f"{'#' * level} {plain(text)}")
        self.body.append(f"<h{level}>{html.escape(text)}</h{level}>")

    def paragraph(self, text: str) -> None:
        self.markdown.append(plain(text))
        self.body.append(f"<p>{html.escape(text)}</p>")

    def block(self, markdown: str, body: str) -> None:
        """A block in both forms as they are."""
        self.markdown.append(markdown)
        self.body.append(body)

    def figures(self, pictures: Sequence[tuple[str, str]]) -> None:
        """Pictures with a text for each, which fit on one sheet together."""
        before = len(self.body)
        for path, text in pictures:
            self.picture(path, text)
        self.body[before:] = ['<div class="figures">', *self.body[before:], "</div>"]

    def items(self, texts: Iterable[str]) -> None:
        listed = list(texts)
        self.markdown.append("\n".join(f"- {plain(text)}" for text in listed))
        self.body.append("<ul>" + "".join(f"<li>{html.escape(text)}</li>" for text in listed) + "</ul>")

    def code(self, lines: Sequence[str]) -> None:
        """Lines as they stand."""
        self.markdown.append("\n".join(f"    {printed(line)}" for line in lines))
        self.body.append("<pre>" + html.escape("\n".join(lines)) + "</pre>")

    def table(self, caption: str, header: Sequence[str], rows: Sequence[Sequence[str]]) -> None:
        """A table; on a narrow screen it is moved to the side, and by keys as well."""
        lines = [header, ["---"] * len(header), *rows]
        self.markdown.append(plain(caption))
        self.markdown.append("\n".join("| " + " | ".join(map(cell, line)) + " |" for line in lines))
        head = "".join(f'<th scope="col">{html.escape(name)}</th>' for name in header)
        body = "".join("<tr>" + "".join(map(data, row)) + "</tr>" for row in rows)
        inner = f"<caption>{html.escape(caption)}</caption><thead><tr>{head}</tr></thead><tbody>{body}</tbody>"
        label, kind = html.escape(caption), ' class="many"' if len(header) > MANY else ""
        self.body.append(
            f'<div class="wide" role="region" aria-label="{label}" tabindex="0"><table{kind}>{inner}</table></div>'
        )

    def link(self, text: str, path: str) -> None:
        self.markdown.append(f"{plain(text)} [{plain(path)}]({quote(path)})")
        self.body.append(f'<p>{html.escape(text)} <a href="{quote(path)}">{html.escape(path)}</a></p>')

    def picture(self, path: str, text: str) -> None:
        """A picture, which the page of HTML has in itself."""
        self.markdown.append(f"![{plain(text)}]({quote(path)})")
        source = PNG + base64.b64encode((self.folder / path).read_bytes()).decode("ascii")
        self.body.append(f'<p><img src="{source}" alt="{html.escape(text)}"></p>')

    def as_markdown(self) -> str:
        return "\n\n".join([f"# {plain(self.title)}", *self.markdown]) + "\n"

    def as_html(self) -> str:
        title = html.escape(self.title)
        head = f'<!DOCTYPE html>\n<html lang="en"><head><meta charset="utf-8"><title>{title}</title>'
        look = '<meta name="viewport" content="width=device-width, initial-scale=1">'
        begin = f"{head}{look}<style>\n{font_style()}{STYLE}\n</style></head><body>\n<main>\n<h1>{title}</h1>"
        return "\n".join([begin, *self.body, "</main>\n</body></html>"]) + "\n"


def cell(text: str) -> str:
    return text if set(text) == {"-"} else plain(text)


def data(text: str) -> str:
    number = text.lstrip("+-").replace(",", "").replace(".", "", 1).isdecimal()
    kind = "number" if number else "sum" if SUM.fullmatch(text) else "long" if len(text) > LONG else ""
    attribute = f' class="{kind}"' if kind else ""
    return f"<td{attribute}>{html.escape(text)}</td>"
