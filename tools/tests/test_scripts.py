"""The scripts of pages: modules are joined into one script, types are checked, and the logic is tested."""

import shutil
import subprocess
from pathlib import Path

import pytest

from ttm_tools.web.bundling import MODULES, ModuleError, bundled, in_order

HERE = Path(__file__).resolve().parent / "scripts"


def module(folder: Path, name: str, text: str) -> Path:
    path = folder / name
    path.write_text(text)
    return path


def test_a_module_stands_after_those_that_it_imports_and_each_once(tmp_path: Path) -> None:
    module(tmp_path, "a.js", "export const a = 1, also = 2;\n")
    module(tmp_path, "b.js", 'import { a } from "./a.js";\n\nexport function b() {\n  return a;\n}\n')
    module(tmp_path, "side.js", 'import { also } from "./a.js";\n\nconsole.log(also);\n')
    entry = module(tmp_path, "main.js", 'import "./side.js";\nimport {\n  b,\n} from "./b.js";\n\nconsole.log(b());\n')
    text = bundled(entry)
    assert [path.name for path in in_order(entry)] == ["a.js", "side.js", "b.js", "main.js"]
    parts = ['"use strict";', "const a = 1, also = 2;", "console.log(also);", "function b() {\n  return a;\n}"]
    assert text == "\n\n".join([*parts, "console.log(b());\n"])
    assert bundled(entry) == text


@pytest.mark.parametrize(
    "text, fault",
    [
        ('import { b } from "./a.js";\n', "./a.js exports no b"),
        ('import { hidden } from "./a.js";\n', "./a.js exports no hidden"),
        ('import { a } from "./a.js";\nconst hidden = 2;\n', "hidden is declared in"),
        ('import * as all from "./a.js";\n', "'import' is of a form that is not joined"),
        ("export default 1;\n", "'export' is of a form that is not joined"),
    ],
)
def test_modules_that_cannot_be_joined_are_refused(tmp_path: Path, text: str, fault: str) -> None:
    module(tmp_path, "a.js", "export const a = 1;\nconst hidden = 3;\n")
    with pytest.raises(ModuleError, match=fault):
        bundled(module(tmp_path, "main.js", text))


@pytest.mark.parametrize("name", ["page", "explore"])
def test_the_script_of_each_page_has_no_module_of_the_other(name: str) -> None:
    names = {path.parent.name for path in in_order(MODULES / name / "main.js")}
    assert names == {"core", "map", "ui", "page", name}
    files = {path.name for path in in_order(MODULES / name / "main.js")}
    assert ("cells.js" in files) == (name == "page")


@pytest.mark.parametrize("folder", ["core"])
def test_the_core_knows_no_document_and_no_map(folder: str) -> None:
    for path in sorted((MODULES / folder).glob("*.js")):
        text = path.read_text(encoding="utf-8")
        assert not any(word in text for word in ("document.", "window.", "L.", "localStorage")), path.name
        assert {found.parent.name for found in in_order(path)} == {folder}, path.name


def ran(*command: str) -> "subprocess.CompletedProcess[str]":
    if shutil.which(command[0]) is None:
        pytest.skip(f"without {command[0]}")
    return subprocess.run(command, capture_output=True, text=True)


def test_the_types_of_the_scripts_are_right() -> None:
    found = ran("tsc", "-p", str(HERE / "tsconfig.json"))
    assert (found.stdout, found.returncode) == ("", 0)


def test_the_logic_of_the_scripts() -> None:
    found = ran("node", "--test", str(HERE))
    assert found.returncode == 0, found.stdout
