"""metzurgo pull: the drive at a phy pulled, with the tables that this touches."""

import argparse
from typing import Any

from .. import shared
from .plug import PROSE, add_event, add_output, happen

EXAMPLE = """\
  $ metzurgo pull samples/plug-and-pull.rig bottom.1 --dry-run
  top phy 0 to middle: 1 word changed
    2  50000000000000c1 -> 0000000000000000
  middle phy 2 to bottom: 1 word changed
    0  50000000000000c1 -> 0000000000000000
  2 tables touched, 2 words changed
"""


def add_parser(subparsers: Any) -> None:
    parser = shared.parser(
        subparsers,
        __name__,
        "pull the drive at a phy, and edit the tables",
        "Pulls the drive at a phy; where nothing is attached, nothing changes." + PROSE,
        EXAMPLE,
    )
    add_event(parser)
    add_output(parser)
    parser.set_defaults(run=run)


def run(args: argparse.Namespace) -> int:
    return happen(args, None)
