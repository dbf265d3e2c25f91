"""metzurgo shelf: a software expander that obeys loading frames."""

import argparse
import errno
import os
import sys
from typing import Any, BinaryIO, Dict, Iterator, List, NamedTuple, Optional

from .. import shared
from ..answers import FUNCTION_ACCEPTED, RESULTS, Needed, Refusal, Route
from ..library import FRAME, library
from ..rig import Rig, address_text
from ..sentences import byte_text, frame_sentence, shelf_sentence
from ..shelf import KINDS, OTHER, TABLE, VACANT, Shelf, kind_of
from .tables import print_tables, table_json

CRC = 4  # bytes

EXAMPLE = """\
  $ metzurgo shelf --indexes 2 --kinds table,other < /dev/null
  shelf phy 0, nothing attached: 2 entries
    2 zeros, disabled
  1 table, 2 entries
  $ metzurgo frames samples/pair.rig top --used | metzurgo shelf samples/pair.rig top
  00h SMP FUNCTION ACCEPTED  phy 0  index 0  50000000000000b1  B1
  top phy 0 to bottom: 4 entries
    0  50000000000000b1  B1
    3 zeros, disabled
  1 table, 4 entries
"""


class Obeyed(NamedTuple):
    """A frame, what was read of it (None where it was refused), and the result or refusal."""

    frame: bytes
    route: Optional[Route]
    result: Optional[int]
    refusal: Optional[Refusal]


def add_parser(subparsers: Any) -> None:
    parser = shared.parser(
        subparsers,
        __name__,
        "hold a software expander that obeys loading frames",
        "Holds a shelf, an expander without cables, for as long as it runs: reads CONFIGURE"
        " ROUTE INFORMATION requests from standard input, in hexadecimal, one a line (lines"
        " that are empty or begin with # are skipped), obeys each, prints its function result"
        " by number and name, and at the end the tables that the shelf then holds. The shelf"
        " has the phys and R of an expander of a rig, or is told them by --indexes and"
        " --kinds. A request has 40 bytes. Where a line has 44, as smp_utils sends them, the"
        " last four are its CRC: the forty before it are taken, and the CRC is not tested."
        " The exit status is 0 where every result was 00h.",
        EXAMPLE,
    )
    parser.add_argument("RIG", nargs="?", help="a rig text, a domain file or a card")
    shared.add_form(parser)
    parser.add_argument("EXPANDER", nargs="?", help="the expander of RIG that the shelf is like")
    shared.add_course(parser)
    shared.add_json(parser)
    parser.add_argument("--indexes", type=number, metavar="R", help="R: 0 to 64 route indexes")
    parser.add_argument(
        "--kinds",
        type=kinds,
        metavar="KIND,KIND...",
        help="the kind of each phy from 0 on, 1 to 16 of them: table, other or vacant",
    )
    parser.add_argument(
        "--raw", action="store_true", help="read bytes in place of lines, 40 a request"
    )
    parser.add_argument(
        "--crc", action="store_true", help="with --raw: four bytes of CRC follow each request"
    )
    parser.add_argument(
        "--quiet", action="store_true", help="leave out the lines of requests with result 00h"
    )
    parser.add_argument("--all", action="store_true", help="print every table and every entry")
    parser.set_defaults(run=run)


def number(text: str) -> int:
    """
    >>> number("64")
    64
    """
    if not (text.isascii() and text.isdecimal()):
        raise argparse.ArgumentTypeError(f'"{text}" is not a number of route indexes')
    return int(text)


def kinds(text: str) -> List[int]:
    """
    >>> kinds("table,vacant,other")
    [1, 0, 2]
    """
    unknown = [word for word in text.split(",") if word.strip() not in KINDS]
    if unknown:
        raise argparse.ArgumentTypeError(f'"{unknown[0]}" is none of table, other, vacant')
    return [KINDS[word.strip()] for word in text.split(",")]


def run(args: argparse.Namespace) -> int:
    if args.crc and not args.raw:
        raise shared.CommandError("--crc goes with --raw; the CRC of a line is found by itself")
    place = placed(args)
    try:
        shelf = Shelf(place.kinds, place.indexes)
    except Refusal as refusal:
        return refused(args, place, refusal)
    rig = place.rig or stand_in(shelf)
    requests = Requests(args.raw, args.crc)
    shown: List[Obeyed] = []
    status = shared.ACCEPTED
    try:
        for frame in requests:
            obeyed = obey(shelf, frame)
            good = obeyed.result == FUNCTION_ACCEPTED
            status = status if good else shared.REFUSED
            if args.quiet and good:
                continue
            if args.json:
                shown.append(obeyed)
            else:
                print(line(rig, obeyed), flush=True)
    except KeyboardInterrupt:
        pass  # the end of the input
    show(args, place, rig, shelf, shown)
    return shared.UNREADABLE if requests.unreadable else status


class Placed(NamedTuple):
    """What a shelf is told, and where that is from: an expander of a rig, or the options."""

    kinds: List[int]
    indexes: int
    rig: Optional[Rig]
    expander: int


def placed(args: argparse.Namespace) -> Placed:
    """What the command line says of the shelf."""
    told = args.indexes is not None and args.kinds is not None
    if told and not args.RIG:
        return Placed(args.kinds, args.indexes, None, 0)
    if not args.EXPANDER or args.indexes is not None or args.kinds is not None:
        raise shared.CommandError("give RIG and EXPANDER, or --indexes and --kinds")
    shared.read_once(("RIG", args.RIG), ("the requests", "-"))
    rig = shared.load(args)
    shared.answered(rig, rig.judge)
    expander = rig.expander(args.EXPANDER)
    if not expander:
        raise shared.CommandError(f"{rig.source}: there is no expander {args.EXPANDER}")
    found = [kind_of(phy) for phy in expander.phys]
    return Placed(found, expander.indexes, rig, expander.number)


def refused(args: argparse.Namespace, place: Placed, refusal: Refusal) -> int:
    """Says that there can be no such shelf."""
    name, where = "The shelf", "metzurgo shelf"
    at = place.rig.line_of(place.expander) if place.rig else None
    if place.rig:
        name = place.rig.expander_name(place.expander)
        where = f"{place.rig.source}: line {at}" if at else place.rig.source
    sentence = shelf_sentence(name, len(place.kinds), place.indexes)
    if args.json:
        shared.print_json({"refused": {**refusal_json(refusal, sentence), "line": at}})
    else:
        print(f"{where}: {refusal}: {sentence}", file=sys.stderr)
    return shared.REFUSED


def refusal_json(refusal: Refusal, sentence: str) -> Dict[str, Any]:
    return {
        "number": refusal.number,
        "expander": refusal.expander,
        "phy": refusal.phy,
        "sentence": sentence,
    }


def stand_in(shelf: Shelf) -> Rig:
    """A rig of the shelf alone, for printing: nothing is attached to its phys."""
    words = {VACANT: "vacant", TABLE: "table empty", OTHER: "direct empty"}
    phys = [f"phy {phy} {words[kind]}" for phy, kind in enumerate(shelf.kinds)]
    head = f"expander shelf 5000000000000001 R {shelf.indexes} configurable"
    return Rig.of_text("\n".join([head, *phys, ""]))


class Requests:
    """The requests of standard input, each without CRC."""

    def __init__(self, raw: bool, crc: bool) -> None:
        self.size = (FRAME + CRC if crc else FRAME) if raw else None
        self.unreadable = False  # a line was not hexadecimal

    def __iter__(self) -> Iterator[bytes]:
        if sys.stdin is None:
            raise OSError(errno.EBADF, os.strerror(errno.EBADF), "standard input")
        try:
            source: BinaryIO = sys.stdin.buffer
            for frame in self.blocks(source, self.size) if self.size else self.lines(source):
                yield frame[:FRAME] if len(frame) == FRAME + CRC else frame
        except OSError as error:
            error.filename = "standard input"
            raise

    def blocks(self, source: BinaryIO, size: int) -> Iterator[bytes]:
        return iter(lambda: source.read(size), b"")

    def lines(self, source: BinaryIO) -> Iterator[bytes]:
        for count, content in enumerate(iter(source.readline, b""), 1):
            text = content.decode("ascii", "replace").strip()
            if not text or text.startswith("#"):
                continue
            try:
                yield bytes.fromhex(text)
            except ValueError:
                self.unreadable = True
                message = "this is not a request in hexadecimal"
                print(f"standard input: line {count}: {message}", file=sys.stderr, flush=True)


def obey(shelf: Shelf, frame: bytes) -> Obeyed:
    try:
        result = shelf.obey(frame)
    except Refusal as refusal:
        return Obeyed(frame, None, None, refusal)
    return Obeyed(frame, library().read_route(frame), result, None)


def line(rig: Rig, obeyed: Obeyed) -> str:
    """The line of a request: its result, and what it asked for."""
    if obeyed.refusal:
        return f"{obeyed.refusal}: {frame_sentence(obeyed.frame, obeyed.refusal)}"
    assert obeyed.route is not None and obeyed.result is not None
    route = obeyed.route
    address = address_text(route.address)
    label = rig.label(route.address)
    parts = [
        f"{byte_text(obeyed.result)} {RESULTS[obeyed.result]:21}",
        f"phy {route.phy}",
        f"index {route.route_index}",
        address,
    ]
    parts += [label] * (label != address) + ["disabled"] * route.disabled
    return "  ".join(parts)


def show(
    args: argparse.Namespace, place: Placed, rig: Rig, shelf: Shelf, obeyed: List[Obeyed]
) -> None:
    """The tables that the shelf holds; in JSON the requests, too."""
    found = shelf.tables(place.expander)
    if not args.json:
        count = shelf.kinds.count(TABLE)
        print_tables(rig, found, Needed(count, count * shelf.indexes), args.all)
        return
    tables = [table_json(rig, table) for table in found]
    for table in tables if place.rig is None else []:
        table["address"] = None  # a shelf that is told its phys has none
    shared.print_json({"requests": [request_json(each) for each in obeyed], "tables": tables})


def request_json(obeyed: Obeyed) -> Dict[str, Any]:
    refusal, route = obeyed.refusal, obeyed.route
    return {
        "frame": obeyed.frame.hex(),
        "result": obeyed.result,
        "name": None if obeyed.result is None else RESULTS[obeyed.result],
        "phy": route.phy if route else None,
        "index": route.route_index if route else None,
        "entry": address_text(route.address) if route else None,
        "disabled": route.disabled if route else None,
        "refused": refusal_json(refusal, frame_sentence(obeyed.frame, refusal))
        if refusal
        else None,
    }
