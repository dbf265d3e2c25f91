"""metzurgo frames: the SMP requests that load the tables of a rig."""

import argparse
import sys
from typing import Any, Iterator, List, NamedTuple

from .. import shared
from ..library import library
from ..rig import Expander, Rig, Table, address_text

EXAMPLE = """\
  $ metzurgo frames samples/pair.rig --used
  # top 5000000000000010
  4090000900000000000000000000000050000000000000b100000000000000000000000000000000
  $ metzurgo frames samples/pair.rig --used --smp-utils
  smp_conf_route_info --sa=0x5000000000000010 --phy=0 --index=0 --routed=0x50000000000000b1
"""


class Entry(NamedTuple):
    """An entry to load."""

    expander: Expander
    phy: int
    route_index: int
    address: int
    disabled: bool


def add_parser(subparsers: Any) -> None:
    parser = shared.parser(
        subparsers,
        __name__,
        "write the SMP requests that load the tables",
        "Writes the CONFIGURE ROUTE INFORMATION requests that load the routing tables of a"
        " rig, or of one expander, one request for each entry, without CRC: in hexadecimal, a"
        " request a line, after a line with the expander's name and address; as bytes (--raw);"
        " or as command lines of smp_utils (--smp-utils), which take the device from"
        " --device, or from the environment variable SMP_UTILS_DEVICE.",
        EXAMPLE,
    )
    shared.add_rig(parser)
    parser.add_argument("EXPANDER", nargs="?", help="only the requests to this expander")
    form = parser.add_mutually_exclusive_group()
    form.add_argument(
        "--raw",
        action="store_true",
        help="write the bytes, 40 a request; EXPANDER has to be given where several have tables",
    )
    form.add_argument(
        "--smp-utils", action="store_true", help="print command lines of smp_conf_route_info"
    )
    parser.add_argument(
        "--length",
        type=int,
        choices=(0, 9),
        default=9,
        help="REQUEST LENGTH, byte 3: 9, which SAS-2 expanders expect and which is written"
        " where this is left out, or 0",
    )
    parser.add_argument("--used", action="store_true", help="leave out the entries that are zero")
    parser.add_argument("--device", default="", help="the device at the end of a command line")
    parser.set_defaults(run=run)


def run(args: argparse.Namespace) -> int:
    if args.smp_utils and args.length != 9:
        raise shared.CommandError("--length 0 cannot be had with --smp-utils, which writes 9")
    if args.json and (args.raw or args.smp_utils):
        raise shared.CommandError("--json cannot be had with --raw or --smp-utils")
    rig = shared.load(args)
    tables = chosen(rig, args.EXPANDER, shared.tables_of(rig).tables)
    if args.raw and len({table.expander for table in tables}) > 1:
        raise shared.CommandError("several expanders have tables: --raw needs EXPANDER")
    total = sum(len(table.words) for table in tables)
    entries = shared.progress(entries_of(rig, tables, args.used), total, "entries")
    if args.json:
        print_json(entries, args.length)
    elif args.raw:
        for entry in entries:
            sys.stdout.buffer.write(frame(entry, args.length))
    elif args.smp_utils:
        for entry in entries:
            print(command_line(entry, args.device))
    else:
        print_hex(entries, args.length)
    return shared.ACCEPTED


def chosen(rig: Rig, name: str, tables: List[Table]) -> List[Table]:
    """The tables of the expander named, or all."""
    if not name:
        return tables
    expander = rig.expander(name)
    if not expander:
        raise shared.CommandError(f"{rig.source}: there is no expander {name}")
    return [table for table in tables if table.expander == expander.number]


def entries_of(rig: Rig, tables: List[Table], used: bool) -> Iterator[Entry]:
    for table in tables:
        expander = rig.expanders[table.expander]
        for index, (address, disabled) in enumerate(zip(table.words, table.disabled)):
            if address or not used:
                yield Entry(expander, table.phy, index, address, disabled)


def frame(entry: Entry, length: int) -> bytes:
    """The request that loads an entry."""
    return library().write_route(
        entry.phy, entry.route_index, entry.address, entry.disabled, length
    )


def print_hex(entries: Iterator[Entry], length: int) -> None:
    last = None
    for entry in entries:
        if entry.expander.number != last:
            last = entry.expander.number
            print(f"# {entry.expander.name} {address_text(entry.expander.address)}")
        print(frame(entry, length).hex())


def print_json(entries: Iterator[Entry], length: int) -> None:
    shared.print_json(
        {
            "frames": [
                {
                    "expander": entry.expander.number,
                    "name": entry.expander.name,
                    "address": address_text(entry.expander.address),
                    "phy": entry.phy,
                    "index": entry.route_index,
                    "entry": address_text(entry.address),
                    "disabled": entry.disabled,
                    "frame": frame(entry, length).hex(),
                }
                for entry in entries
            ]
        }
    )


def command_line(entry: Entry, device: str) -> str:
    """The command line of smp_utils that sends the request."""
    parts = [
        "smp_conf_route_info",
        f"--sa=0x{address_text(entry.expander.address)}",
        f"--phy={entry.phy}",
        f"--index={entry.route_index}",
        f"--routed=0x{address_text(entry.address)}",
    ]
    return " ".join(parts + ["--disable"] * entry.disabled + [device] * bool(device))
