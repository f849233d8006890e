"""`ttm-tools COMMAND ..`: one module for each command, which defines its options and calls the other packages. It has
no logic of its own, and imports no package before it is needed.
"""

import argparse
import contextlib
import importlib
import logging
import re
import sys
import tempfile
import traceback
import warnings
from typing import Iterator, Sequence

from .. import __version__
from ..core.console import one_line
from ..core.errors import ArgumentError, InputError, MissingDependencyError
from ..core.files import is_full, outputs_locked
from ..core.provenance import command_runs
from ..core.signals import Interrupted, unwind_on_signals
from .machine import CommandParser, answering, error_of, give_error, progressing
from .options import Parser
from .streams import fault_of_output, fill_closed, give_up_output

COMMANDS = (
    "run prepare scenarios walks points split join compare access equity bands service explain map page long omx gis "
    "isochrones ground study explore docs"
).split()
NO_MEMORY, OF_ITS_OWN = 3, 70
OUTPUTS = ("out", "picture", "page", "faults")  # options that name a file or folder to write
NEGATIVE = re.compile(r"-[0-9.][-+0-9.,e]*")


def parser_of() -> Parser:
    """All commands with their options."""
    about = "Tools for analysts, before and after a run of ttm. `ttm-tools COMMAND --help` lists a command's options."
    parser = CommandParser(prog="ttm-tools", description=about)
    parser.add_argument("--version", action="version", version=f"ttm-tools {__version__}", help="print the version")
    commands = parser.add_subparsers(dest="command", metavar="COMMAND", required=True)
    for name in COMMANDS:
        module = importlib.import_module(f".{name}", __package__)
        form = argparse.RawDescriptionHelpFormatter
        command = commands.add_parser(name, help=module.SUMMARY, description=module.HELP, formatter_class=form)
        module.describe(command)
        setattr(command, "_negative_number_matcher", NEGATIVE)  # a value such as -0.1,51.5,0.1,51.6 is no option
        command.set_defaults(run=module.run, command=name, parser=command)
        if hasattr(module, "outputs"):
            command.set_defaults(outputs=module.outputs)
    return parser


def status_of(args: argparse.Namespace, is_process: bool = False) -> int:
    """Runs a command, as a process of its own or inside one. An error is reported in one line, and has a status of its
    own.
    """
    try:
        with progressing(args, is_process), protected(args), answering(args):
            status = args.run(args) or 0
        sys.stdout.flush()
        return status
    except BrokenPipeError:
        give_up_output()
        return 1
    except (Exception, Interrupted, KeyboardInterrupt) as fault:
        line, status = outcome_of(fault)
        error = error_of(fault, line, status)
    print(f"ttm-tools {args.command}: {line}", file=sys.stderr)
    try:
        give_error(args, error)
    except OSError:
        give_up_output()
    return status


def outcome_of(fault: BaseException) -> tuple[str, int]:
    """The line that reports why a command failed, and its exit status."""
    if isinstance(fault, (InputError, MissingDependencyError, ArgumentError)):
        return one_line(fault), fault.exit_status
    if isinstance(fault, MemoryError):
        return "out of memory", NO_MEMORY
    if isinstance(fault, OSError):
        return one_line(fault_of_file(fault)), 1
    if isinstance(fault, Interrupted):
        return one_line(fault), fault.exit_status
    if isinstance(fault, Exception):
        return one_line(of_its_own(fault)), OF_ITS_OWN
    return one_line(fault) or "interrupted", 130


def fault_of_file(fault: OSError) -> str:
    """What is wrong with a file, or with the standard output, to which nothing more is written then."""
    name = (is_full(fault) and fault.filename2) or fault.filename
    if name is None:
        give_up_output()
        return fault_of_output(fault)
    return f"{name}: {fault.strerror or fault}"


@contextlib.contextmanager
def protected(args: argparse.Namespace) -> Iterator[None]:
    """Protects files while a command runs: its inputs, and those that it didn't write; its outputs are locked."""
    if args.command in ("study", "explore"):  # they lock and number their own folders
        yield
        return
    outputs = getattr(args, "outputs", outputs_named)(args)
    with command_runs(args.command, getattr(args, "force", False), others_named(args)):
        with outputs_locked(outputs):
            yield


def outputs_named(args: argparse.Namespace) -> list[str]:
    """The files and folders that a command's options name to be written."""
    return [path for path in (getattr(args, name, None) for name in OUTPUTS) if path]


def others_named(args: argparse.Namespace) -> list[str]:
    """The texts among a command's arguments, other than its outputs, that may be paths."""
    values = [value for name, value in vars(args).items() if name not in OUTPUTS]
    texts = [text for value in values for text in (value if isinstance(value, (list, tuple)) else [value])]
    return [text for text in texts if isinstance(text, str)]


def of_its_own(fault: Exception) -> str:
    """Writes a log of an internal error, and says where the log is."""
    message = f"internal error, {type(fault).__name__}: {one_line(fault)[:200]}"
    try:
        handle, path = tempfile.mkstemp(prefix="ttm-tools-", suffix=".log")
        with open(handle, "w", encoding="utf-8", errors="backslashreplace") as file:
            file.write(f"ttm-tools {__version__}, Python {sys.version}\n")
            file.write("".join(traceback.format_exception(fault)))
    except OSError as full:
        return f"{message}; the log could not be written: {full.strerror}"
    return f"{message}; please report it with the log {path}"


@contextlib.contextmanager
def help_written() -> Iterator[None]:
    """Ends the process with one line if the help that its words ask for cannot be written."""
    try:
        try:
            yield
        finally:
            sys.stdout.flush()
    except BrokenPipeError:
        give_up_output()
        sys.exit(1)
    except OSError as fault:
        print(f"ttm-tools: {one_line(fault_of_file(fault))}", file=sys.stderr)
        sys.exit(1)


def main(arguments: Sequence[str] | None = None) -> int:
    """The command's exit status: 0 the whole result, 1 bad input, 2 wrong arguments, 3 out of memory, 128 and a
    signal's number where that ended it.
    """
    if arguments is None:
        fill_closed()
    parser = parser_of()
    if not (sys.argv[1:] if arguments is None else arguments):
        parser.print_help(sys.stderr)
        parser.exit(2, "ttm-tools: error: the following arguments are required: COMMAND\n")
    with help_written():
        args, unknown = parser.parse_known_args(arguments)
    if unknown:
        args.parser.error(f"unrecognized arguments: {' '.join(unknown)}")
    if arguments is None:
        unwind_on_signals()
        logging.disable(logging.CRITICAL)  # libraries would report again what one line reports
        warnings.simplefilter("ignore")
    return status_of(args, is_process=arguments is None)
