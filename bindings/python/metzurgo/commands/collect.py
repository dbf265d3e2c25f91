"""metzurgo collect: a domain file from what real expanders answered."""

import argparse
import os
import re
import sys
from typing import Any, Dict, List, Optional, Tuple

from .. import shared
from ..answers import Refusal
from ..library import library
from ..responses import (
    GENERAL,
    PHY_DOES_NOT_EXIST,
    Response,
    ResponseError,
    for_file,
    split,
)
from ..rig import read_bytes
from ..writing import write
from .build import add_json, named, report

EXAMPLE = """\
  $ for e in /dev/bsg/expander-*; do
  >   d=rig/$(basename $e); mkdir -p $d
  >   smp_rep_general --raw $e > $d/general
  >   for p in $(seq 0 127); do smp_discover --raw --phy=$p $e > $d/phy$p; done
  > done
  $ metzurgo collect rig/* --output rig.bin
  $ metzurgo judge rig.bin
"""


def add_parser(subparsers: Any) -> None:
    parser = shared.parser(
        subparsers,
        __name__,
        "make a domain file from the responses of real expanders",
        "Makes a domain file from the output of smp_rep_general --raw and smp_discover --raw."
        " A folder has the responses of one expander. In a list of files each REPORT GENERAL"
        " response begins an expander, and the DISCOVER responses of its phys follow, in any"
        " order. Responses may be short or long, with or without CRC. Responses that say PHY"
        " DOES NOT EXIST are left out; longer responses than a domain file has are cut, and"
        " standard error says so.",
        EXAMPLE,
    )
    parser.add_argument(
        "RESPONSES", nargs="+", help="a folder of one expander, or a file, or - for standard input"
    )
    parser.add_argument(
        "-o",
        "--output",
        default="-",
        metavar="OUT",
        help="the domain file; standard output where left out",
    )
    add_json(parser)
    parser.set_defaults(run=run)


def run(args: argparse.Namespace) -> int:
    named(args.output, args.json)
    shared.read_once(*((f"RESPONSES {at}", path) for at, path in enumerate(args.RESPONSES, 1)))
    try:
        expanders = groups(args.RESPONSES)
        if len(expanders) > 255:
            raise ResponseError("more than 255 expanders cannot be counted in a file")
        units = [unit(responses) for responses in expanders]
    except ResponseError as error:
        raise shared.CommandError(str(error), shared.UNREADABLE) from None
    file = bytes([0x10, len(units)]) + b"".join(units)
    write(args.output, file)
    if args.json:
        report(args.output, file)
    return shared.ACCEPTED


def natural(name: str) -> List[Any]:
    """A key that puts phy2 before phy10.

    >>> sorted(["phy10", "phy2", "general"], key=natural)
    ['general', 'phy2', 'phy10']
    """
    parts = re.split(r"([0-9]+)", name)
    return [(int(part), "") if part.isdecimal() else (-1, part) for part in parts]


def groups(paths: List[str]) -> List[List[Response]]:
    """The responses of each expander, its REPORT GENERAL first."""
    found: List[List[Response]] = []
    for path in paths:
        if os.path.isdir(path):
            names = sorted(os.listdir(path), key=natural)
            members = [
                response
                for name in names
                for response in split(read_bytes(os.path.join(path, name)), f"{path}/{name}")
            ]
            members.sort(key=lambda response: response.function != GENERAL)
            if sum(response.function == GENERAL for response in members) != 1:
                raise ResponseError(f"{path}: a folder has one REPORT GENERAL response")
            found.append(members)
            continue
        for response in split(read_bytes(path), "standard input" if path == "-" else path):
            if response.function == GENERAL:
                found.append([response])
            elif not found:
                raise ResponseError(
                    f"{response.source}: a DISCOVER response comes after the REPORT GENERAL"
                    " response of its expander"
                )
            else:
                found[-1].append(response)
    return found


def kept(response: Response) -> bytes:
    """The frame for the file; standard error says what was changed."""
    frame, changed = for_file(response)
    if changed:
        print(f"{response.source}: {changed}", file=sys.stderr)
    return frame


def unit(responses: List[Response]) -> bytes:
    """The part of an expander: its address, REPORT GENERAL, and DISCOVER by phy."""
    first, *rest = responses
    general = kept(first)
    try:
        count = library().read_general(general).phys
    except Refusal as refusal:
        raise ResponseError(
            f"{first.source}: the REPORT GENERAL response cannot be used ({refusal})"
        ) from None
    phys, address = placed(first, count, rest)
    return address.to_bytes(8, "big") + general + b"".join(phys)


def placed(first: Response, count: int, responses: List[Response]) -> Tuple[List[bytes], int]:
    """The frames of phys 0 to count - 1, and the expander's address.

    A phy that is not vacant says its number. Vacant ones stand in the places that
    are left, in the order in which they are given.
    """
    phys: Dict[int, bytes] = {}
    vacant: List[bytes] = []
    address: Optional[int] = None
    for response in responses:
        if response.result == PHY_DOES_NOT_EXIST:
            continue
        frame = kept(response)
        if response.result:
            vacant.append(frame)
            continue
        found = library().read_discover(frame)
        if found.identifier >= count or found.identifier in phys:
            why = "twice" if found.identifier in phys else f"but the expander has {count} phys"
            raise ResponseError(f"{response.source}: this is phy {found.identifier}, {why}")
        phys[found.identifier] = frame
        address = found.own if address is None else address
    left = [number for number in range(count) if number not in phys]
    if len(vacant) != len(left):
        raise ResponseError(
            f"{first.source}: the expander has {count} phys, and there are responses of"
            f" {len(phys)} and {len(vacant)} vacant ones"
        )
    if address is None:
        raise ResponseError(f"{first.source}: no phy says the address of the expander")
    phys.update(zip(left, vacant))
    return [phys[number] for number in range(count)], address
