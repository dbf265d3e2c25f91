"""Where a request starts, and which address it asks for, by the words of a command line."""

import re
from typing import Tuple

from .answers import NO_PHY
from .rig import Rig
from .shared import CommandError


def start_of(rig: Rig, name: str) -> Tuple[int, int]:
    """The start expander and arrival phy of FROM.

    FROM is an expander, a drive (which comes in by the lowest phy that it is attached
    to) or EXPANDER.PHY. Whether a request may come in there is for the library to say.

    >>> from metzurgo import PAIR
    >>> rig = Rig.of_text(PAIR)
    >>> start_of(rig, "top"), start_of(rig, "B1"), start_of(rig, "bottom.1")
    ((0, 255), (1, 1), (1, 1))
    """
    expander = rig.expander(name)
    if expander:
        return expander.number, NO_PHY
    match = re.fullmatch(r"(.+)\.([0-9]{1,3})", name)
    if match:
        expander = rig.expander(match[1])
        if expander and int(match[2]) < len(expander.phys):
            return expander.number, int(match[2])
        raise CommandError(f"{rig.source}: there is no phy {name}")
    address = rig.address(name)
    if address is None:
        raise CommandError(f"{rig.source}: {unknown(rig, name)}")
    for expander in rig.expanders:
        for phy in expander.phys:
            if phy.at_drive and phy.attached == address:
                return expander.number, phy.number
    raise CommandError(f"{rig.source}: no phy is attached to {name}, so no request can start there")


def address_of(rig: Rig, name: str) -> int:
    """The address of TO: a name, or an address that nobody need have.

    >>> from metzurgo import PAIR
    >>> hex(address_of(Rig.of_text(PAIR), "B1"))
    '0x50000000000000b1'
    """
    address = rig.address(name)
    if address is None:
        raise CommandError(f"{rig.source}: {unknown(rig, name)}")
    return address


def unknown(rig: Rig, name: str) -> str:
    return (
        f'"{name}" is neither the name of a drive or expander nor an address'
        " (16 hexadecimal digits)"
    )
