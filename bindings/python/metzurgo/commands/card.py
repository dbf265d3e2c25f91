"""metzurgo card: the card of a rig, to be sent in a message."""

import argparse
import base64
import sys
from typing import Any, Optional

from .. import shared
from ..writing import write
from .build import named

EXAMPLE = """\
  $ metzurgo card samples/pair.rig --base64
  IEBQAAAAAAAAEAAEgalAAAAAAAAAgAJFAAAAAAAAChAFAAAAAAAAAgAAACpUAAAAAAAABAAkUAAA
  AAAAALEAgA==
  $ metzurgo card samples/pair.rig | metzurgo judge -
  accepted: 2 expanders, 5 phys, 1 table, 4 words
  $ metzurgo card samples/pair.rig --base64 | metzurgo judge --as card -
  accepted: 2 expanders, 5 phys, 1 table, 4 words
"""


def add_parser(subparsers: Any) -> None:
    parser = shared.parser(
        subparsers,
        __name__,
        "make the card of a rig, to be sent in a message",
        "Makes the card of a rig: the rig as a row of bits, in about a fifth of the bytes of its"
        " domain file. It is written as bytes, or as text with --base64 or --hex; to a terminal as"
        " hexadecimal digits. Every subcommand reads a card as a rig; its text is read with"
        " --as card. Names are not on it.",
        EXAMPLE,
    )
    shared.add_rig(parser)
    parser.add_argument(
        "-o", "--output", metavar="OUT", help="the card; standard output where left out"
    )
    text = parser.add_mutually_exclusive_group()
    text.add_argument("--base64", action="store_true", help="write the card in base64")
    text.add_argument("--hex", action="store_true", help="write it in hexadecimal digits")
    parser.set_defaults(run=run)


def run(args: argparse.Namespace) -> int:
    named(args.output, args.json)
    rig = shared.load(args)
    card = shared.answered(rig, rig.to_card)
    if args.output is not None or not args.json:
        write("-" if args.output is None else args.output, written(card, args))
    if args.json:
        report(args.output, card)
    return shared.ACCEPTED


def written(card: bytes, args: argparse.Namespace) -> bytes:
    """A card as it is written: text where that is asked for or a terminal shows it."""
    if args.base64:
        return base64.encodebytes(card)
    if args.hex or (args.output is None and sys.stdout.isatty()):
        return card.hex().encode("ascii") + b"\n"
    return card


def report(path: Optional[str], card: bytes) -> None:
    text = base64.b64encode(card).decode("ascii")
    shared.print_json({"file": path, "bytes": len(card), "base64": text})
