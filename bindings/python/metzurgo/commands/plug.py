"""metzurgo plug: a drive plugged into a phy, with the tables that this touches."""

import argparse
from typing import Any, Dict, List, NamedTuple, Optional, Tuple

from .. import shared, stored
from ..requests import address_of
from ..rig import Event, Rig, Table, Tables, address_text
from ..sentences import phys_text, plural
from ..writing import are_same, write_all
from .build import named
from .join import place_of

EXAMPLE = """\
  $ metzurgo plug samples/plug-and-pull.rig bottom.2 50000000000000c2 --dry-run
  top phy 0 to middle: 1 word changed
    3  0000000000000000 -> 50000000000000c2
  middle phy 2 to bottom: 1 word changed
    1  0000000000000000 -> 50000000000000c2
  2 tables touched, 2 words changed
  $ metzurgo build samples/plug-and-pull.rig rig.bin
  $ metzurgo tables rig.bin --stored > rig.tables
  $ metzurgo plug rig.bin E1.1 50000000000000b2 --tables rig.tables
  E0 phy 0 to E1: 1 word changed
    0  50000000000000b1 -> 50000000000000b2
  1 table touched, 1 word changed
"""
PROSE = (
    " The domain file RIG is edited in place, unless -o names another; of a text, a card or"
    " standard input the domain file goes where -o says. The tables are those that the library"
    " fills, or stored ones, which are edited in place. Each table that the event touches, that is"
    " each with the expander in one of its levels, is written afresh and printed with the entries"
    " that changed; all others stay as they were. Where the event is refused nothing is written."
)


def add_parser(subparsers: Any) -> None:
    parser = shared.parser(
        subparsers,
        __name__,
        "plug a drive into a phy, and edit the tables",
        "Plugs a drive into a phy that is empty or has a drive, which it replaces." + PROSE,
        EXAMPLE,
    )
    add_event(parser)
    parser.add_argument("ADDRESS", help="the address of the drive, or its name in the text")
    add_output(parser)
    parser.set_defaults(run=run)


def add_event(parser: shared.Parser) -> None:
    """RIG and E.P."""
    parser.add_argument("RIG", help="a domain file, a rig text, a card, or - for standard input")
    parser.add_argument("PHY", metavar="E.P", help="phy P of expander E")


def add_output(parser: shared.Parser) -> None:
    """Where the edited file and tables go."""
    parser.add_argument(
        "-o",
        "--output",
        metavar="OUT",
        help="the edited domain file; RIG itself where it is a domain file and this is left out",
    )
    shared.add_tables(parser, "edit")
    parser.add_argument(
        "--dry-run", action="store_true", help="say what would be edited, and write nothing"
    )
    shared.add_form(parser)
    shared.add_course(parser)
    shared.add_json(parser)


def run(args: argparse.Namespace) -> int:
    return happen(args, args.ADDRESS)


def happen(args: argparse.Namespace, drive: Optional[str]) -> int:
    """One event; drive is None for a pull."""
    rig = shared.load(args)
    out = output_of(args, rig)
    differ(out, args.tables)
    tables = shared.tables_of(rig, args.tables)
    place = place_of(rig, args.PHY)
    before = entries_of(tables)
    if drive is None:
        event: Event = shared.answered(rig, rig.pull, tables, place)
    else:
        address = address_of(rig, drive)
        if address == 0:
            raise shared.CommandError("no drive has address zero; metzurgo pull pulls one")
        event = shared.answered(rig, rig.plug, tables, place, address)
    if not args.dry_run:
        contents = {args.tables: "".join(stored.lines(tables, rig.needed())).encode("ascii")}
        write_all({**(contents if args.tables is not None else {}), out: rig.file})
    if args.json:
        shared.print_json(event_json(rig, event, before, None if args.dry_run else out))
    elif args.dry_run or out != "-":
        for line in said(rig, event, before):
            print(line)
    return shared.ACCEPTED


def output_of(args: argparse.Namespace, rig: Rig) -> str:
    """Where the edited file goes: -o, or RIG itself where it is a domain file."""
    if args.tables == "-":
        raise shared.CommandError("--tables is edited in place, and cannot be standard input")
    if args.dry_run or args.output is not None:
        out: str = "-" if args.output is None else args.output
        if not args.dry_run:
            named(out, args.json)
        return out
    source = "standard input" if args.RIG == "-" else "a text" if rig.text else "a card"
    if args.RIG == "-" or rig.text or rig.card is not None:
        raise shared.CommandError(f"{source} is not edited in place: -o names the domain file")
    path: str = args.RIG
    return path


def differ(out: str, tables: Optional[str]) -> None:
    """The edited file and the stored tables are two files."""
    if tables is not None and are_same(out, tables):
        raise shared.CommandError(
            f"{out} cannot be both the domain file and the stored tables: name two files"
        )


# What changed.


class Change(NamedTuple):
    """An entry of a table before and after an event, each an address and its disable bit."""

    index: int
    before: Tuple[int, bool]
    after: Tuple[int, bool]


def entries_of(tables: Tables) -> Dict[int, List[Tuple[int, bool]]]:
    """The entries of each table, by the place of its first word."""
    return {table.first: list(zip(table.words, table.disabled)) for table in tables.tables}


def changes(table: Table, before: Dict[int, List[Tuple[int, bool]]]) -> List[Change]:
    now = zip(table.words, table.disabled)
    each = enumerate(zip(before[table.first], now))
    return [Change(index, old, new) for index, (old, new) in each if old != new]


def said(rig: Rig, event: Event, before: Dict[int, List[Tuple[int, bool]]]) -> List[str]:
    """The touched tables with the entries that changed, and the counts."""
    groups: Dict[Tuple[Any, ...], List[Table]] = {}
    for table in event.tables:
        attached = rig.expanders[table.expander].phys[table.phy].attached
        key = (table.expander, attached, tuple(changes(table, before)))
        groups.setdefault(key, []).append(table)
    lines: List[str] = []
    for (expander, attached, found), group in groups.items():
        phys = phys_text([table.phy for table in group])
        words = sum(change.before[0] != change.after[0] for change in found)
        each = " in each" if len(group) > 1 and words else ""
        count = plural(words, "word") if words else "no word"
        name = f"{rig.expander_name(expander)} {phys} to {rig.label(attached)}"
        lines.append(f"{name}: {count} changed{each}")
        width = max((len(str(change.index)) for change in found), default=0)
        lines += [f"  {change.index:{width}}  {change_text(change)}" for change in found]
    moved = event.moved
    total = f"{plural(moved.words, 'word') if moved.words else 'no word'} changed"
    return [*lines, f"{plural(moved.tables, 'table')} touched, {total}"]


def change_text(change: Change) -> str:
    """
    >>> change_text(Change(0, (0, True), (0xB1, False)))
    '0000000000000000 -> 00000000000000b1'
    >>> change_text(Change(0, (0xB1, True), (0xB1, False)))
    '00000000000000b1 disabled -> 00000000000000b1'
    """

    def text(entry: Tuple[int, bool]) -> str:
        word, disabled = entry
        state = "" if disabled == (word == 0) else " disabled" if disabled else " enabled"
        return address_text(word) + state

    return f"{text(change.before)} -> {text(change.after)}"


def event_json(
    rig: Rig, event: Event, before: Dict[int, List[Tuple[int, bool]]], path: Optional[str]
) -> Dict[str, Any]:
    def entry(value: Tuple[int, bool]) -> Dict[str, Any]:
        return {"address": address_text(value[0]), "disabled": value[1]}

    return {
        "file": path,
        "tables": event.moved.tables,
        "words": event.moved.words,
        "touched": [
            {
                "expander": table.expander,
                "name": rig.expander_name(table.expander),
                "phy": table.phy,
                "changed": [
                    {
                        "index": change.index,
                        "before": entry(change.before),
                        "after": entry(change.after),
                    }
                    for change in changes(table, before)
                ],
            }
            for table in event.tables
        ],
    }
