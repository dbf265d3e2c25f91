"""metzurgo join: two rigs joined by one cable."""

import argparse
import re
from typing import Any, Dict, Tuple

from .. import shared
from ..rig import Rig
from ..sentences import plural
from ..writing import write
from .build import named

EXAMPLE = """\
  $ metzurgo join samples/bench-left.rig row0.3 samples/bench-right.rig row0.3 -o bench.bin
  joined: 12 expanders, 34 phys, 10 tables, 42 words
  the expanders of samples/bench-right.rig are E6 to E11
  $ metzurgo trace bench.bin E3 51000000000000b2
  arrived at 51000000000000b2 by phy 1 of E11, 6 expanders passed
  E3   (iv) phy 0 is subtractive: on by phy 0 to phy 1 of E0
  E0   (iv) phy 3 is subtractive: on by phy 3 to phy 3 of E6
  E6   (iii) entry 6 of phy 0 has the address: on by phy 0 to phy 0 of E7
  E7   (iii) entry 2 of phy 1 has the address: on by phy 1 to phy 0 of E8
  E8   (iii) entry 0 of phy 1 has the address: on by phy 1 to phy 0 of E11
  E11  (ii) phy 1 has the address attached: arrived
"""


def add_parser(subparsers: Any) -> None:
    parser = shared.parser(
        subparsers,
        __name__,
        "join two rigs by one cable",
        "Joins two rigs by one cable between a subtractive phy of each, and writes the domain"
        " file of the bench: the expanders of A, then those of B. Both phys have to be empty,"
        " and no other subtractive phy of their expanders attached. The tables of A and of B"
        " stay as they are. A refusal of B has the number of expanders of A added to its"
        " expander.",
        EXAMPLE,
    )
    for rig, phy in (("A", "E.P"), ("B", "F.Q")):
        parser.add_argument(rig, help="a rig text, a domain file, a card, or - for standard input")
        parser.add_argument(
            f"{rig}_PHY", metavar=phy, help=f"phy {phy[2]} of expander {phy[0]} of {rig}"
        )
    parser.add_argument(
        "-o", "--output", metavar="OUT", help="the domain file; standard output where left out"
    )
    shared.add_form(parser)
    shared.add_course(parser)
    shared.add_json(parser)
    parser.set_defaults(run=run)


def run(args: argparse.Namespace) -> int:
    out: str = "-" if args.output is None else args.output
    named(out, args.json)
    shared.read_once(("A", args.A), ("B", args.B))
    first, place = part(args, args.A, args.A_PHY)
    second, far = part(args, args.B, args.B_PHY)
    bench: Rig = shared.answered(first, first.join, place, second, far)
    write(out, bench.file)
    if args.json:
        shared.print_json(bench_json(out, bench, first))
    elif out != "-":
        for line in said(bench, first, second):
            print(line)
    return shared.ACCEPTED


def part(args: argparse.Namespace, path: str, phy: str) -> Tuple[Rig, Tuple[int, int]]:
    """One rig, and the phy of it that is named."""
    rig = shared.load(argparse.Namespace(RIG=path, course=args.course, form=args.form))
    return rig, place_of(rig, phy)


def said(bench: Rig, first: Rig, second: Rig) -> Tuple[str, str]:
    """The counts of the joined rig, and how its expanders are numbered."""
    count, needed = len(bench.expanders), bench.needed()
    phys = sum(len(expander.phys) for expander in bench.expanders)
    behind = len(first.expanders)
    names = f"E{behind} to E{count - 1}" if count - 1 > behind else f"E{behind}"
    are = "expanders" if count - 1 > behind else "expander"
    return (
        f"joined: {plural(count, 'expander')}, {plural(phys, 'phy')},"
        f" {plural(needed.tables, 'table')}, {plural(needed.words, 'word')}",
        f"the {are} of {second.source} {'are' if are == 'expanders' else 'is'} {names}",
    )


def bench_json(path: str, bench: Rig, first: Rig) -> Dict[str, Any]:
    return {
        "file": path,
        "bytes": len(bench.file),
        "expanders": len(bench.expanders),
        "second": len(first.expanders),
    }


def place_of(rig: Rig, text: str) -> Tuple[int, int]:
    """The expander and phy of E.P. Numbers that the rig does not have are for the library.

    >>> from metzurgo import PAIR
    >>> place_of(Rig.of_text(PAIR), "bottom.1"), place_of(Rig.of_text(PAIR), "7.0")
    ((1, 1), (7, 0))
    """
    match = re.fullmatch(r"(.+)\.([0-9]{1,3})", text)
    expander = rig.expander(match[1]) if match else None
    if not match or int(match[2]) > 255:
        raise shared.CommandError(f'"{text}" is not EXPANDER.PHY, as in top.3')
    if expander:
        return expander.number, int(match[2])
    if re.fullmatch("[0-9]{1,3}", match[1]) and int(match[1]) <= 255:
        return int(match[1]), int(match[2])
    raise shared.CommandError(f"{rig.source}: there is no expander {match[1]}")
