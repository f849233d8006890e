"""Options that would do nothing next to others, which a command refuses."""

import argparse

from ..core.errors import ArgumentError
from .options import Parser


WALKING = ("walk", "kmh", "detour", "streets", "near")


def refuse_unused(args: argparse.Namespace, why: str, *names: str) -> None:
    """Refuse options that are given and have no effect.

    Parameters
    ----------
    why
        What follows the option in the message, such as `does nothing with --nearest`.
    names
        The attributes of the options' values.

    Raises
    ------
    ArgumentError
        One of the options is among the words of the command.
    """
    parser: Parser = args.parser
    for word in parser.words:
        option = word.partition("=")[0]
        fitting = {
            full: action.dest for action in parser._actions for full in action.option_strings if full.startswith(option)
        }
        full = option if option in fitting else next(iter(fitting), "")
        if option.startswith("--") and fitting.get(full) in names:
            raise ArgumentError(f"{full} {why}")


def refuse_near_alone(args: argparse.Namespace) -> None:
    """Refuse a distance to streets without a file of streets."""
    if not args.streets:
        refuse_unused(args, "goes with --streets", "near")
