"""metzurgo build: the domain file of a text or a card."""

import argparse
from typing import Any, Optional

from .. import shared
from ..answers import WIDEST
from ..rig import RigError
from ..rigtext import FORM
from ..writing import write

EXAMPLE = """\
  $ metzurgo build samples/pair.rig pair.bin
  $ metzurgo build samples/pair.rig | metzurgo judge -
  accepted: 2 expanders, 5 phys, 1 table, 4 words
"""


def add_parser(subparsers: Any) -> None:
    parser = shared.parser(
        subparsers,
        __name__,
        "make a domain file from a rig text or a card",
        "Makes a domain file from a rig text or a card. Every error in a text is reported with"
        " its line, and then nothing is written. What looks like a slip of the pen is a warning."
        " Whether the rig can work is for the subcommand judge to say.",
        EXAMPLE,
        FORM,
    )
    add_json(parser)
    parser.add_argument("--strict", action="store_true", help="make warnings errors")
    parser.add_argument("RIG", help="the rig text or the card, or - for standard input")
    shared.add_form(parser)
    parser.add_argument(
        "OUT", nargs="?", default="-", help="the domain file; standard output where left out"
    )
    parser.set_defaults(run=run, course=WIDEST)


def run(args: argparse.Namespace) -> int:
    named(args.OUT, args.json)
    rig = shared.load(args, quiet=args.strict)
    if args.strict and rig.warnings:
        raise RigError([warning.replace(": warning: ", ": ", 1) for warning in rig.warnings])
    write(args.OUT, rig.file)
    if args.json:
        report(args.OUT, rig.file)
    return shared.ACCEPTED


def add_json(parser: shared.Parser) -> None:
    parser.add_argument(
        "--json", action="store_true", help="print what was written as one JSON object"
    )


def named(path: Optional[str], as_json: bool) -> None:
    """Standard output takes the file or the JSON object, not both."""
    if as_json and path == "-":
        raise shared.CommandError("--json needs a file to write, so that standard output is free")


def report(path: str, file: bytes) -> None:
    shared.print_json({"file": path, "bytes": len(file)})
