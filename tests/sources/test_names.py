"""Tests of the names' check: what pages name and what isn't there, or isn't reached, is reported; and wrong numbers."""

from __future__ import annotations

from pathlib import Path

import names
import stated
import tables
from small_repository import LOWER, Repository

ARCHITECTURE = """# x

## From a stop time to a cell

`lower::bump` (`lib.rt`, `lost.rt`) calls `absent`.

## Where is it decided …

### Sums

| Crate | What is decided | Defined in | Functions |
|---|---|---|---|
| `lower` | more | Sums, Hopes | `bump`, `Count::up` |
| | less (`src/gone.rt`) | `src/lib.rt` | `bare`, `Count::down`, `MOST` |

### Mains

All in `ttm`:

| What is decided | Defined in | Functions |
|---|---|---|
| mains | | `main` |

## What the program never calls

| Crate | Model | Of |
|---|---|---|
| `lower`, `ttm` | `other` | `Other::up` |

## Else
"""
PROOFS = """# x

## What you have to read

| Read | Files | Lines |
|---|---|---:|
| sums | `studies`: Study | 3 |

## The promises

| Promise | Contract | If it were wrong | Edits, in |
|---|---|---|---|
| **Sums.** Added. | `bump`, `gone` | sums are less | 2: `lower` |
| **Hopes.** Hoped. | `bare` | | 9: `lower`, `ttm` |
| **Nothing.** | | | 4: `lower`, `ttm` |

As `lower/lib.bump.two_more`, not `lower/lib.bump.lost`.
"""
COMPUTED = "**Sum.** What is added by `number`. [lower/Sums, Adds; seen in ttm/Seen]\n"
COUNT = """
pub const MOST: u32 = 9;
pub struct Count {
    number: u32,
}
impl Count {
    // calls bare()
    pub fn up(self) -> u32
        ensures { result ≡ bare() }
    {
        let more = self.number;
        bump(more)
    }
    pub fn down(self) -> u32 {
        self.number
    }
}
pub fn bare() {
}
"""
MAKE = "pub fn make() -> Count {\n    Count { number: 1 }\n}\n"
MAIN = "fn main() {\n    let count = lower::make();\n    count.up();\n}\nfn other() {\n    lower::bare();\n}\n"


def written(root: Path, source: str, **pages: str) -> Repository:
    """A repository whose program, `ttm`, has a crate with this source below it, and these pages."""
    repository = Repository(root, {"lower": "", "ttm": "lower"})
    repository.write("crates/lower/src/lib.rt", LOWER + source)
    repository.write("crates/lower/specs/Sums.antt", "")
    repository.write("crates/ttm/src/main.rt", MAIN)
    for name, text in pages.items():
        repository.write(f"docs/explanation/{name.replace('_', '-')}.md", text)
    return repository


def wrong_names(root: Path, source: str, **pages: str) -> set[str]:
    written(root, source, **pages)
    return {why for why, right in names.judged(root) if not right}


def test_a_name_of_architecture_that_is_not_there_or_is_not_reached_is_reported(tmp_path: Path) -> None:
    assert wrong_names(tmp_path / "r", COUNT + MAKE, architecture=ARCHITECTURE) == {
        "architecture.md: lower has no other",
        "architecture.md: lower has no Other::up",
        "architecture.md: ttm has no Other::up",
        "architecture.md: ttm doesn't come to lower's bare",
        "architecture.md: ttm doesn't come to lower's Count::down",
        "architecture.md: ttm doesn't come to lower's MOST",
        "architecture.md: lower has no spec Hopes",
        "architecture.md: lower has no src/gone.rt",
        "architecture.md: no crate has lost.rt",
        "architecture.md: nothing is called absent",
        "architecture.md: nothing is called Other::up",
        "lower: no test and no planted bug names bare",
        "lower: no test and no planted bug names make",
    }


def test_a_crate_that_architecture_leaves_out_is_reported(tmp_path: Path) -> None:
    page = ARCHITECTURE.replace("`ttm`", "the program")
    assert "architecture.md names no crate ttm" in wrong_names(tmp_path / "r", COUNT + MAKE, architecture=page)


def test_specs_in_brackets_that_are_no_files_are_reported_on_both_pages(tmp_path: Path) -> None:
    wrong = wrong_names(tmp_path / "r", COUNT + MAKE, definitions=COMPUTED, how_it_is_computed=COMPUTED + "`lost`\n")
    for page in ("definitions.md", "how-it-is-computed.md"):
        assert {f"{page}: lower has no spec Adds", f"{page}: ttm has no spec Seen"} <= wrong
    assert "how-it-is-computed.md: nothing is called lost" in wrong
    assert "how-it-is-computed.md: nothing is called number" not in wrong


def test_a_promise_names_functions_with_contracts(tmp_path: Path) -> None:
    repository = written(tmp_path / "r", COUNT + MAKE, proofs=PROOFS)
    judged = list(names.judged_promises(repository.root, names.Sources(repository.root)))
    assert [why for why, right in judged if not right] == [
        "proofs.md: 'Sums': no function gone has a contract",
        "proofs.md: 'Hopes': no function bare has a contract",
        "proofs.md: 'Nothing' names no function",
    ]
    assert "proofs.md: lower has no edit lib.bump.lost" in {
        why for why, right in names.judged_names(repository.root, names.Sources(repository.root)) if not right
    }


def test_numbers_that_are_off_by_more_than_a_twentieth_are_reported(tmp_path: Path) -> None:
    repository = written(tmp_path / "r", COUNT + MAKE)
    repository.write("crates/studies/specs/Study.antt", "use Rattle.lower.specs.Sums.{sum}\n\n\n")
    wrong = [why for why, right in stated.judged(repository.root, PROOFS) if not right]
    assert "proofs.md lists no spec lower/Sums" in wrong
    assert "proofs.md says 9: `lower`, `ttm`, which are 4: **Hopes.** Hoped." in wrong
    assert not [why for why in wrong if "Sums.**" in why or "Nothing.**" in why or ": sums" in why]
    page = PROOFS + "Read 40 files. Of the 4 edits, all of which are bugs, 2 in `crates/*/must-fail`.\n"
    judged = dict(stated.judged_sentences(repository.root, page))
    assert not judged["proofs.md says 40 of 2 spec files"]
    assert judged["proofs.md says 4 of 4 edits"] and judged["proofs.md says 2 of 2 edits in must-fail"]
    assert not judged["proofs.md says nothing of 3 lines of specs"]
    assert [stated.is_about(number, 100) for number in (94, 95, 105, 106)] == [False, True, True, False]


def test_a_table_has_its_rows_without_its_header() -> None:
    text = "| A | B |\n|---|---:|\n| `x` | 1 |\n| | 2 |\n\nelse | no\n"
    assert list(tables.rows_of(text)) == [["`x`", "1"], ["", "2"]]
    assert list(tables.rows_by_crate(text, ["x"])) == [["x", "1"], ["x", "2"]]


def test_modules_and_names_of_the_tools_that_are_not_there_are_reported(tmp_path: Path) -> None:
    (tmp_path / names.TOOLS).mkdir(parents=True)
    module = "MOST: int = 3\nLEAST = 1\n\n\ndef day_of() -> int:\n    return 1\n"
    (tmp_path / names.TOOLS / "days.py").write_text(module)
    rows = "| days | `days.py` | `MOST`, `LEAST`, `day_of`, `day` |\n| others | `lost.py` | |\n"
    judged = list(names.judged_tools(tmp_path, f"\n## The tools\n\n{rows}\n## Folders\n\n| a | `b.py` | `c` |\n"))
    wrong = [why for why, right in judged if not right]
    assert (len(judged), len(wrong)) == (6, 2)
    assert wrong == ["architecture.md: `days.py` has no day", f"architecture.md: no module {names.TOOLS}/lost.py"]


def test_a_method_of_a_type_that_is_not_met_is_not_reached(tmp_path: Path) -> None:
    wrong = wrong_names(tmp_path / "r", COUNT + "pub fn make() -> u32 {\n    MOST\n}\n", architecture=ARCHITECTURE)
    assert "architecture.md: ttm doesn't come to lower's Count::up" in wrong
    assert "architecture.md: ttm doesn't come to lower's bump" in wrong
    assert "architecture.md: ttm doesn't come to lower's MOST" not in wrong


def test_a_function_that_a_file_imports_is_not_another_of_its_name(tmp_path: Path) -> None:
    """The program has a function `bare` too, but the file that calls `bare` imports that of the crate below."""
    repository = written(tmp_path / "r", COUNT + MAKE, architecture=ARCHITECTURE)
    repository.write("crates/ttm/src/main.rt", "use lower::{\n    bare, make,\n};\n\nfn main() {\n    bare();\n}\n")
    repository.write("crates/ttm/src/bare.rt", "pub fn bare() {\n    lower::make();\n}\n")
    walk = names.Sources(repository.root).walk
    assert (walk.comes_to("lower", "bare"), walk.comes_to("ttm", "bare")) == (True, False)
