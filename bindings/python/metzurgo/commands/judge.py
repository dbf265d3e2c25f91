"""metzurgo judge: whether a rig can work."""

import argparse
from typing import Any

from .. import shared
from ..answers import Refusal
from ..rig import Rig
from ..sentences import line_of, plural, sentence

EXAMPLE = """\
  $ metzurgo judge samples/pair.rig
  accepted: 2 expanders, 5 phys, 1 table, 4 words
"""


def add_parser(subparsers: Any) -> None:
    parser = shared.parser(
        subparsers,
        __name__,
        "say whether a rig can work",
        "Says that a rig is accepted, with its counts. Of a rig that is refused it says in"
        " one sentence what is wrong, where, and what to change; the next line is the"
        " refusal itself: number, expander, phy.",
        EXAMPLE,
    )
    shared.add_rig(parser)
    parser.set_defaults(run=run)


def run(args: argparse.Namespace) -> int:
    try:
        rig = shared.load(args)
    except shared.Refused as error:  # a card
        refused(error.rig, error.refusal, args.json)
        return shared.REFUSED
    try:
        count = rig.judge()
        needed = rig.needed()
    except Refusal as refusal:
        refused(rig, refusal, args.json)
        return shared.REFUSED
    phys = sum(len(expander.phys) for expander in rig.expanders)
    if args.json:
        shared.print_json(
            {
                "accepted": {
                    "expanders": count,
                    "phys": phys,
                    "tables": needed.tables,
                    "words": needed.words,
                }
            }
        )
    else:
        print(
            f"accepted: {plural(count, 'expander')}, {plural(phys, 'phy')},"
            f" {plural(needed.tables, 'table')}, {plural(needed.words, 'word')}"
        )
    return shared.ACCEPTED


def refused(rig: Rig, refusal: Refusal, as_json: bool) -> None:
    if as_json:
        shared.print_json(shared.refusal_json(rig, refusal))
    else:
        line = line_of(rig, refusal)
        print(f"line {line}: {sentence(rig, refusal)}" if line else sentence(rig, refusal))
        print(refusal)
