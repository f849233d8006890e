"""Writes what the packages have of each `--help`: a page, manual pages, and completions.

    commands.py VERSION PAGE MAN COMPLETIONS

PAGE is a file, MAN and COMPLETIONS are folders that exist. The program `ttm` is in the folder `engine`.
"""

import argparse
import importlib
import os
import subprocess
import sys
from pathlib import Path
from typing import Iterator

import shtab
from ttm_tools.cli import COMMANDS, parser_of

PROGRAM, NAME = "engine/ttm", "compute travel time matrices over a GTFS feed"
OF_TOOLS = "prepare feeds, measure access, draw maps, run studies"
FILES = ("FILE", "NAME|FILE", "PATH", "FEED", "MATRIX", "ACCESS", "PLAN", "SCENARIO", "POINTS", "STUDY", "HOSTS")
COMPLETED = {"FOLDER": shtab.DIRECTORY, **dict.fromkeys(FILES, shtab.FILE)}
# shtab 1.5.5, that of Debian 12, completes only the first of several choices
FIRST = """_var="${current_action}_choices"
  current_action_choices="${!current_action_choices_var}"
"""
ALL = """_var="${current_action}_choices[@]"
  current_action_choices=$(printf '%s\\n' "${!current_action_choices_var}")
"""
Parsers = dict[str, argparse.ArgumentParser]


def commands_of(parser: argparse.ArgumentParser) -> Parsers:
    """The parser of each command."""
    return next(dict(it.choices) for it in parser._actions if isinstance(it, argparse._SubParsersAction))


def page(commands: Parsers) -> Iterator[str]:
    """The page with the help of the program and of each command."""
    os.environ["COLUMNS"] = "100"
    of_program = subprocess.run([PROGRAM, "--help"], capture_output=True, text=True, check=True).stdout
    yield f"# Help\n\nWhat `--help` prints.\n\n## ttm\n\n```\n{of_program}```\n"
    for name, command in commands.items():
        yield f"## ttm-tools {name}\n\n```\n{command.format_help()}```\n"


def write_manual(folder: Path, name: str, about: str, *options: str) -> None:
    """Writes a manual page by help2man, which runs a command to read the help."""
    include = "debian/ttm.h2m" if name == "ttm" else "debian/ttm-tools.h2m"
    words = ["help2man", "--no-info", "--name", about, "--include", include, "--output", str(folder / f"{name}.1")]
    subprocess.run([*words, *options], check=True)


def for_help2man(text: str) -> str:
    """A help with the headings by which help2man finds its parts."""
    text = text.replace("usage: ", "Usage: ", 1)
    return text.replace("\npositional arguments:\n", "\nArguments:\n").replace("\noptions:\n", "\nOptions:\n")


def write_manuals(folder: Path, parser: argparse.ArgumentParser, version: str) -> None:
    """Writes the manual pages of the program, of the tools, and of each command."""
    os.environ["COLUMNS"] = "1000"
    write_manual(folder, "ttm", NAME, PROGRAM)
    parsers = {"ttm-tools": parser, **{f"ttm-tools-{name}": it for name, it in commands_of(parser).items()}}
    abouts = [OF_TOOLS, *(importlib.import_module(f"ttm_tools.cli.{name}").SUMMARY for name in COMMANDS)]
    for (name, one), about in zip(parsers.items(), abouts, strict=True):
        text = folder / f"{name}.txt"
        text.write_text(for_help2man(one.format_help()), encoding="utf-8")
        options = ["--version-string", f"{name} {version}", "--help-option", " "]
        write_manual(folder, name, about, *options, f"cat {text}")


def complete_files(parser: argparse.ArgumentParser) -> None:
    """Has files and folders completed, by the names of values."""
    for one in (parser, *commands_of(parser).values()):
        for action in one._actions:
            if action.metavar in COMPLETED:
                setattr(action, "complete", COMPLETED[str(action.metavar)])


def main(version: str, of_page: str, manuals: str, completions: str) -> None:
    parser = parser_of()
    Path(of_page).write_text("\n".join(page(commands_of(parser))), encoding="utf-8")
    write_manuals(Path(manuals), parser, version)
    complete_files(parser)
    for shell, name in (("bash", "ttm-tools"), ("zsh", "_ttm-tools")):
        text = shtab.complete(parser, shell).replace(FIRST, ALL)
        Path(completions, name).write_text(text + "\n", encoding="utf-8")


if __name__ == "__main__":
    main(*sys.argv[1:])
