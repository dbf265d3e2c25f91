"""metzurgo draw: a picture of a rig."""

import argparse
from typing import Any, Optional

from .. import shared
from ..drawing import draw
from ..layout import Request
from ..requests import address_of, start_of
from ..rig import Rig
from ..writing import write

EXAMPLE = """\
  $ metzurgo draw samples/comb.rig --trace B2 A0 -o comb.svg
"""


def add_parser(subparsers: Any) -> None:
    parser = shared.parser(
        subparsers,
        __name__,
        "draw a rig as an SVG picture",
        "Draws an accepted rig as a tree: expanders with name, address and R, links with"
        " their phys, routing attributes and width, and drives at their expander. With"
        " --trace it shows the way of a request and what each expander did with it; the exit"
        " status is 1 where the request does not arrive.",
        EXAMPLE,
    )
    shared.add_rig(parser, json_too=False)
    parser.add_argument(
        "--trace",
        nargs=2,
        metavar=("FROM", "TO"),
        help="show the way of a request from an expander or drive to a name or an address",
    )
    parser.add_argument(
        "-o", "--output", default="-", metavar="FILE", help="the picture; standard output if left out"
    )
    parser.set_defaults(run=run)


def run(args: argparse.Namespace) -> int:
    rig = shared.load(args)
    shared.answered(rig, rig.judge)
    request = traced(rig, args) if args.trace else None
    write(args.output, draw(rig, request).encode("utf-8"))
    arrived = request is None or request.traced.arrived
    return shared.ACCEPTED if arrived else shared.REFUSED


def traced(rig: Rig, args: argparse.Namespace) -> Optional[Request]:
    """The request of --trace, over the tables that the library fills."""
    start, arrival = start_of(rig, args.trace[0])
    address = address_of(rig, args.trace[1])
    tables = shared.tables_of(rig)
    asked = tables, start, arrival, address
    return Request(
        shared.answered(rig, rig.trace, *asked),
        shared.answered(rig, rig.steps, *asked),
        start,
        arrival,
        address,
    )
