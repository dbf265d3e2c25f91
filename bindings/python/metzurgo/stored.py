"""Stored tables: the words and disable bits of a rig's tables, as lines of text.

A line is expander, phy, index and entry, as the program routes lists them. Behind an entry
stands `disabled` or `enabled` where its bit is not the one that the library gives it, which is
disabled where the entry is 0. The last line has the counts.

>>> from metzurgo import PAIR
>>> rig = Rig.of_text(PAIR)
>>> tables = rig.tables()
>>> tables.bits[0] |= 0x80
>>> print("".join(lines(tables, rig.needed())), end="")
0 0 0 50000000000000b1 disabled
0 0 1 0000000000000000
0 0 2 0000000000000000
0 0 3 0000000000000000
tables 1 entries 4
"""

import re
from typing import Iterator, List, Tuple

from .answers import Needed
from .rig import Rig, RigError, Tables, address_text, read_bytes

LINE = re.compile(r"([0-9]+) ([0-9]+) ([0-9]+) ([0-9A-Fa-f]{16})(?: (enabled|disabled))?")
LAST = re.compile(r"tables ([0-9]+) entries ([0-9]+)")


def lines(tables: Tables, needed: Needed) -> Iterator[str]:
    """The lines of all tables, each with its newline."""
    for table in tables.tables:
        place = f"{table.expander} {table.phy}"
        for index, (word, disabled) in enumerate(zip(table.words, table.disabled)):
            state = "" if disabled == (word == 0) else " disabled" if disabled else " enabled"
            yield f"{place} {index} {address_text(word)}{state}\n"
    yield f"tables {needed.tables} entries {needed.words}\n"


def read(rig: Rig, tables: Tables, text: str, source: str) -> None:
    """Puts the entries of stored tables into those of a rig, whose places they have to have.

    RigError where the lines are not the tables of this rig.

    >>> from metzurgo import PAIR
    >>> rig = Rig.of_text(PAIR)
    >>> tables = rig.tables()
    >>> stored = "".join(lines(tables, rig.needed())).replace("b1", "c1 disabled")
    >>> read(rig, tables, stored, "stored")
    >>> hex(tables.words[0]), tables.bits[0]
    ('0x50000000000000c1', 240)
    >>> read(rig, tables, stored.replace("0 0 1 ", "0 1 1 "), "stored")
    Traceback (most recent call last):
    ...
    metzurgo.rig.RigError: stored: line 2: entry 1 of phy 0 of top is due here
    """
    found = text.splitlines()
    needed = rig.needed()
    due = [(each, index) for each in tables.tables for index in range(len(each.words))]
    entries: List[Tuple[int, bool]] = []
    for number, (line, (table, index)) in enumerate(zip(found, due), 1):
        match = LINE.fullmatch(line)
        if not match:
            wrong = "this is not EXPANDER PHY INDEX ENTRY, as in 0 0 3 50000000000000b1"
            raise RigError([f"{source}: line {number}: {wrong}"])
        if tuple(map(int, match.groups()[:3])) != (table.expander, table.phy, index):
            name = rig.phy_name(table.expander, table.phy)
            raise RigError([f"{source}: line {number}: entry {index} of {name} is due here"])
        word = int(match[4], 16)
        entries.append((word, match[5] == "disabled" if match[5] else word == 0))
    last = LAST.fullmatch(found[len(due)]) if len(found) == len(due) + 1 else None
    if not last or tuple(map(int, last.groups())) != needed:
        wrong = (
            f"the tables of {rig.source} are {needed.words} lines of entries, then the line"
            f' "tables {needed.tables} entries {needed.words}"'
        )
        raise RigError([f"{source}: {wrong}"])
    for at, (word, disabled) in enumerate(entries):
        tables.words[at] = word
        set_disabled(tables, at, disabled)


def load(rig: Rig, tables: Tables, path: str) -> None:
    """The same of a file; a hyphen is standard input."""
    source = "standard input" if path == "-" else path
    try:
        text = read_bytes(path).decode("utf-8-sig")
    except UnicodeDecodeError:
        raise RigError([f"{source}: this is not a text"]) from None
    read(rig, tables, text, source)


def set_disabled(tables: Tables, word: int, disabled: bool) -> None:
    """Sets or clears the bit of a word: most significant bit first."""
    bit = 0x80 >> word % 8
    if disabled:
        tables.bits[word // 8] |= bit
    else:
        tables.bits[word // 8] &= ~bit & 0xFF
