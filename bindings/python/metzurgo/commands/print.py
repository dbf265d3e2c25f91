"""metzurgo print: the text of a domain file."""

import argparse
import sys
from typing import Any, Dict

from .. import rigtext, shared
from ..answers import WIDEST
from ..rig import Expander, Rig, address_text

EXAMPLE = """\
  $ metzurgo build samples/pair.rig pair.bin
  $ metzurgo print pair.bin
  drive D0 50000000000000a1
  drive D1 50000000000000b1

  expander E0 5000000000000010 R 4 configurable
    phy 0 table to E1.0
    phy 1 direct to D0

  expander E1 5000000000000020 R 0
    phy 0 subtractive to E0.0
    phy 1 direct to D1
    phy 2 direct empty
"""


def add_parser(subparsers: Any) -> None:
    parser = shared.parser(
        subparsers,
        __name__,
        "print a domain file or a card as a rig text",
        "Prints a domain file or a card as a rig text, with E0, E1 and so on for its expanders"
        " and D0, D1 and so on for its drives. A rig text is printed with its own names, without its"
        " comments. Ignored bytes that are not zero are not kept; standard error says so.",
        EXAMPLE,
    )
    parser.add_argument("RIG", help="a domain file, a card or a rig text, or - for standard input")
    shared.add_form(parser)
    parser.add_argument("--json", action="store_true", help="print one JSON object")
    parser.set_defaults(run=run, course=WIDEST)


def run(args: argparse.Namespace) -> int:
    rig = shared.load(args)
    if args.json:
        shared.print_json({"expanders": [expander_json(rig, each) for each in rig.expanders]})
        return shared.ACCEPTED
    if rig.text:
        sys.stdout.write(rigtext.rig_text(rig.text))
        return shared.ACCEPTED
    text, notice = rigtext.print_file(rig.file)
    sys.stdout.write(text)
    if notice:
        print(f"{rig.source}: {notice}", file=sys.stderr)
    return shared.ACCEPTED


def expander_json(rig: Rig, expander: Expander) -> Dict[str, Any]:
    return {
        "expander": expander.number,
        "name": expander.name,
        "address": address_text(expander.address),
        "indexes": expander.indexes,
        "configurable": expander.configurable,
        "phys": [
            {
                "phy": phy.number,
                "result": phy.result,
                "attribute": None if phy.vacant else phy.kind,
                "type": phy.type,
                "attached": address_text(phy.attached) if phy.type else None,
                "name": rig.label(phy.attached) if phy.type else None,
                "attached_phy": phy.attached_phy if phy.type else None,
            }
            for phy in expander.phys
        ],
    }
