"""metzurgo exercise: a rig made from its solution."""

import argparse
from typing import Any, List

from .. import shared
from ..answers import Refusal
from ..library import library
from ..rig import address_text, parse_address
from ..writing import write
from .build import add_json, named, report

MOST_INDEXES = 65535  # R has 16 bits
MOST_DRIVES = 127  # the second expander has 128 phys, of which one leads to the first

EXAMPLE = """\
  $ metzurgo exercise 5000000000000010 5000000000000020 50000000000000b1 0 0 | metzurgo tables -
  E0 phy 0 to E1: 3 entries
    0  50000000000000b1
    2 zeros, disabled
  1 table, 3 entries
  $ metzurgo exercise 5000000000000010 5000000000000020 50000000000000b1 0 0 -o exercise.bin
"""


def add_parser(subparsers: Any) -> None:
    parser = shared.parser(
        subparsers,
        __name__,
        "make a rig from the table that students are to find",
        "Makes the domain file of a rig of two expanders with the addresses FIRST and SECOND,"
        " whose one table is the words: phy 0 of the first expander leads to the second, which"
        " has the drives. R is the number of words. Where no rig of that kind has this table,"
        " the refusal is 24.",
        EXAMPLE,
    )
    parser.add_argument("FIRST", type=address, help="the address of the first expander")
    parser.add_argument("SECOND", type=address, help="the address of the second expander")
    parser.add_argument(
        "WORD",
        nargs="*",
        type=address,
        help="an entry of the table: a drive's address, or 0 for a disabled entry",
    )
    parser.add_argument(
        "-o",
        "--output",
        metavar="OUT",
        default="-",
        help="the domain file; standard output where left out",
    )
    add_json(parser)
    parser.set_defaults(run=run)


def address(text: str) -> int:
    """An address, or 0.

    >>> address("0"), hex(address("50000000000000B1h"))
    (0, '0x50000000000000b1')
    """
    value = 0 if text == "0" else parse_address(text)
    if value is None:
        raise argparse.ArgumentTypeError(
            f'"{text}" is neither an address (16 hexadecimal digits) nor 0'
        )
    return value


def run(args: argparse.Namespace) -> int:
    named(args.output, args.json)
    try:
        file = library().make(args.FIRST, args.SECOND, args.WORD)
    except Refusal as refusal:
        told = reason(args.FIRST, args.SECOND, args.WORD)
        if args.json:
            place = {"expander": refusal.expander, "phy": refusal.phy, "line": None}
            shared.print_json({"refused": {"number": refusal.number, **place, "sentence": told}})
            return shared.REFUSED
        raise shared.CommandError(f"{refusal}: {told}", shared.REFUSED) from None
    write(args.output, file)
    if args.json:
        report(args.output, file)
    return shared.ACCEPTED


def reason(first: int, second: int, words: List[int]) -> str:
    """Why the library made no rig.

    >>> reason(1, 2, [0] * 127 + [3])
    'Word 127 is not zero, and the second expander has phys for words 0 to 126.'
    """
    if 0 in (first, second):
        which = "first" if first == 0 else "second"
        return f"The address of the {which} expander is zero."
    if first == second:
        return f"Both expanders have the address {address_text(first)}."
    if first in words:
        at = words.index(first)
        return (
            f"Word {at} is the address of the first expander:"
            " a table has no entry for its own expander."
        )
    if second in words:
        at = words.index(second)
        return (
            f"Word {at} is the address of the second expander, which is attached at the first:"
            " a table has no entry for what is attached."
        )
    if len(words) > MOST_INDEXES:
        return (
            f"There are {len(words)} words, and an expander has at most {MOST_INDEXES} route"
            " indexes."
        )
    late = next(at for at, word in enumerate(words) if word and at >= MOST_DRIVES)
    return (
        f"Word {late} is not zero, and the second expander has phys for words 0 to"
        f" {MOST_DRIVES - 1}."
    )
