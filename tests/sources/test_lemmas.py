"""What `lemmas` finds in proofs: lemmas that nothing cites, and those that are proved twice."""

from __future__ import annotations

from pathlib import Path

import lemmas

BASE_FACTS = """-- Facts of numbers.
use Rattle.std.proofs.Common.{◌≡◌, ◌+◌, ◌≤◌, ℕ, arith}

pub cited : (n : ℕ) → n ≤ n + 1
cited n = omega arith

-- alone and forgotten; not cited by this comment
pub alone : (n : ℕ) → n ≤ n + 2
alone n = omega arith

module _ (m : ℕ) where
  twice :
      (n : ℕ) →
      n + m ≤ n + m + m
  twice n = omega arith

  pub again : (n : ℕ) → n ≤ n + m
  again n = let e = twice n in omega arith
"""
UPPER_FACTS = """use Rattle.std.proofs.Common.{◌≡◌, ◌+◌, ◌≤◌, ℕ, arith}
use Rattle.base.proofs.Facts.{again, cited as known}
use Rattle.base.proofs.Facts as facts

pub once_more :
    (n : ℕ) →
    n + m ≤ n + m + m
once_more n = omega arith

pub helped : (n : ℕ) → n ≤ n + 1
helped n = let e = facts.cited n in let f = again n n in known n
"""
ANSWERS = """use Rattle.upper.proofs.Facts.{helped}
use Rattle.upper.proofs.double.Goals as goal

unused : ℕ → ℕ
unused n = n

pub returns : goal.returns
returns c = helped c.count
"""

FACTS = "crates/base/proofs/Facts.antt"
MORE = "crates/upper/proofs/Facts.antt"
ALONE = f"{FACTS}:8: alone is cited by nothing"
UNUSED = "crates/upper/proofs/double/Answers.antt:4: unused is cited by nothing"
ONCE_MORE = f"{MORE}:5: once_more is cited by nothing"
DOUBLED = f"{MORE}:5: once_more stands at {FACTS}:12: twice, too"


def found(root: Path, old: str = "", new: str = "", code: str = "") -> list[str]:
    """What is found in the proofs of two crates, in which a text is replaced."""
    texts = {
        "base/proofs/Facts.antt": BASE_FACTS,
        "upper/proofs/Facts.antt": UPPER_FACTS,
        "upper/proofs/double/Answers.antt": ANSWERS,
        "upper/src/lib.rt": code,
    }
    for name, text in texts.items():
        path = root / "crates" / name
        path.parent.mkdir(parents=True, exist_ok=True)
        path.write_text(text.replace(old, new) if old else text)
    return [what for what, holds in lemmas.judged(root) if not holds]


def test_what_nothing_cites_and_what_stands_twice_is_found(tmp_path: Path) -> None:
    assert found(tmp_path) == [ALONE, ONCE_MORE, UNUSED, DOUBLED]


def test_an_import_alone_is_no_citation(tmp_path: Path) -> None:
    old = "let e = facts.cited n in let f = again n n in known n"
    assert f"{FACTS}:4: cited is cited by nothing" in found(tmp_path, old, "again n n")


def test_a_function_cites_what_it_names_for_its_proof(tmp_path: Path) -> None:
    code = "#[tactic(auto, using(crate::proofs::Facts::once_more))]\nfn double() {}\n"
    assert found(tmp_path, code=code) == [ALONE, UNUSED, DOUBLED]


def test_a_statement_that_differs_stands_once(tmp_path: Path) -> None:
    assert DOUBLED not in found(tmp_path, "(n : ℕ) →\n    n + m", "(k : ℕ) →\n    k + m")
