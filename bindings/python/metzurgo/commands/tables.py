"""metzurgo tables: the routing tables of a rig."""

import argparse
import sys
from typing import Any, Dict, List, Tuple

from .. import shared, stored
from ..answers import Needed
from ..rig import Rig, Table, address_text
from ..sentences import phys_text, plural

EXAMPLE = """\
  $ metzurgo tables samples/pair.rig
  top phy 0 to bottom: 4 entries
    0  50000000000000b1  B1
    3 zeros, disabled
  1 table, 4 entries
"""


def add_parser(subparsers: Any) -> None:
    parser = shared.parser(
        subparsers,
        __name__,
        "print the routing tables of a rig",
        "Prints each routing table with its entries: index, address, name. Phys of one wide"
        " link whose tables are equal stand together, and the zeros at the end of a table"
        " are counted. With --stored they are printed as lines that are kept in a file, for the"
        " subcommands plug, pull and trace.",
        EXAMPLE,
    )
    shared.add_rig(parser)
    parser.add_argument("--all", action="store_true", help="print every table and every entry")
    shared.add_tables(parser, "print")
    parser.add_argument(
        "--stored",
        action="store_true",
        help="print the tables to be stored: a line for each entry, with expander, phy, index and"
        " address, as the program routes lists them",
    )
    parser.set_defaults(run=run)


def run(args: argparse.Namespace) -> int:
    shared.read_once(("RIG", args.RIG), ("--tables", args.tables))
    rig = shared.load(args)
    every = shared.tables_of(rig, args.tables)
    tables = every.tables
    if args.stored:
        if args.json:
            raise shared.CommandError("--stored is a form of its own, and --json another")
        sys.stdout.writelines(stored.lines(every, rig.needed()))
        return shared.ACCEPTED
    if args.json:
        shared.print_json({"tables": [table_json(rig, table) for table in tables]})
        return shared.ACCEPTED
    print_tables(rig, tables, rig.needed(), args.all)
    return shared.ACCEPTED


def print_tables(rig: Rig, tables: List[Table], needed: Needed, every: bool) -> None:
    """Tables of a rig, and how many there are with those of R 0."""
    groups = [[table] for table in tables] if every else together(rig, tables)
    for group in groups:
        for line in lines(rig, group, every):
            print(line)
    print(f"{plural(needed.tables, 'table')}, {plural(needed.words, 'entry', 'entries')}")


def table_json(rig: Rig, table: Table) -> Dict[str, Any]:
    expander = rig.expanders[table.expander]
    phy = expander.phys[table.phy]
    return {
        "expander": expander.number,
        "name": expander.name,
        "address": address_text(expander.address),
        "phy": table.phy,
        "to": rig.label(phy.attached) if phy.type else None,
        "entries": [
            {
                "address": address_text(word),
                "name": rig.label(word) if word else None,
                "disabled": disabled,
            }
            for word, disabled in zip(table.words, table.disabled)
        ],
    }


def together(rig: Rig, tables: List[Table]) -> List[List[Table]]:
    """Tables of one wide link that are equal, in the order of their lowest phys."""

    groups: Dict[Tuple[Any, ...], List[Table]] = {}
    for table in tables:
        phy = rig.expanders[table.expander].phys[table.phy]
        alone = table.phy if phy.type == 0 else None
        key = (table.expander, alone, phy.attached, tuple(table.words), tuple(table.disabled))
        groups.setdefault(key, []).append(table)
    return list(groups.values())


def lines(rig: Rig, group: List[Table], every: bool) -> List[str]:
    """The lines of one table, or of several equal ones."""
    table = group[0]
    expander = rig.expanders[table.expander]
    phy = expander.phys[table.phy]
    to = f" to {rig.label(phy.attached)}" if phy.type else ", nothing attached"
    phys = phys_text([other.phy for other in group])
    found = [f"{expander.name} {phys}{to}: {plural(len(table.words), 'entry', 'entries')}"]
    entries = list(zip(table.words, table.disabled))
    shown = len(entries)
    while not every and shown and entries[shown - 1] == (0, True):
        shown -= 1
    width = len(str(max(shown - 1, 0)))
    for index, (word, disabled) in enumerate(entries[:shown]):
        name = "" if word == 0 else f"  {rig.label(word)}"
        if word and rig.label(word) == address_text(word):
            name = ""
        off = "  disabled" if disabled else ""
        found.append(f"  {index:{width}}  {address_text(word)}{name}{off}")
    if shown < len(entries):
        found.append(f"  {plural(len(entries) - shown, 'zero')}, disabled")
    return found
