"""The command metzurgo.

It is `python3 -m metzurgo` where the package is found, and `python3 FOLDER` with the
folder of the package.
"""

import argparse
import importlib
import os
import sys
from typing import List, Optional

if not __package__:  # run by its folder: the package is found beside it
    sys.path[0] = os.path.dirname(os.path.dirname(os.path.abspath(__file__)))
    __package__ = "metzurgo"

from . import __version__, commands, shared
from .library import LibraryMissing
from .rig import RigError


def make_parser() -> shared.Parser:
    """The parser of the command and of each subcommand."""
    parser = shared.Parser(prog="metzurgo", formatter_class=argparse.RawDescriptionHelpFormatter)
    parser.tell(
        "judge rigs of SAS expanders and fill their routing tables",
        "Judges a rig of SAS expanders, drives and cables, fills its routing tables, traces"
        " connection requests and writes the SMP frames that load it. Every answer about a"
        " rig comes from the proved library.",
    )
    parser.add_argument(
        "--version",
        action="version",
        version=f"metzurgo {__version__}",
        help="print the version and exit",
    )
    subparsers = parser.add_subparsers(dest="command", metavar="COMMAND", required=True)
    for name in commands.ORDER:
        try:
            module = importlib.import_module(f".commands.{name}", __package__)
        except ModuleNotFoundError as error:
            if error.name != f"{__package__}.commands.{name}":
                raise
            continue
        module.add_parser(subparsers)
    return parser


def main(arguments: Optional[List[str]] = None) -> int:
    """Runs a subcommand and returns the exit status."""
    try:
        args = make_parser().parse_args(arguments)
        if sys.stdout is None:
            print("standard output: it is closed", file=sys.stderr)
            return shared.UNREADABLE
        return run(args)
    except KeyboardInterrupt:
        drop_output()
        return shared.INTERRUPTED


def run(args: argparse.Namespace) -> int:
    """The exit status of a subcommand; its errors go to standard error."""
    try:
        status = answer(args)
        sys.stdout.flush()
        return status
    except shared.CommandError as error:
        print(f"metzurgo {args.command}: {error}", file=sys.stderr)
        return error.status
    except RigError as error:
        print(error, file=sys.stderr)
    except LibraryMissing as error:
        print(f"metzurgo: {error}", file=sys.stderr)
    except BrokenPipeError:  # nobody reads on
        drop_output()
    except MemoryError:
        print(f"metzurgo {args.command}: there is too little memory", file=sys.stderr)
    except OSError as error:
        name = "standard output" if error.filename is None else error.filename or '""'
        print(f"{name}: {error.strerror}", file=sys.stderr)
    return shared.UNREADABLE


def answer(args: argparse.Namespace) -> int:
    """Runs a subcommand. A refusal is an answer, too, and is told here."""
    try:
        status: int = args.run(args)
        return status
    except shared.Refused as error:
        if getattr(args, "json", False):
            shared.print_json(shared.refusal_json(error.rig, error.refusal))
        else:
            print(error, file=sys.stderr)
        return error.status


def drop_output() -> None:
    """Closes standard output, so that Python does not write what is left when it ends."""
    if sys.stdout is not None:
        os.dup2(os.open(os.devnull, os.O_WRONLY), sys.stdout.fileno())


if __name__ == "__main__":
    sys.exit(main())
