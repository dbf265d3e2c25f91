"""What the calls of the library answer, unpacked.

An answer is one 64-bit number. A refusal has bit 63 set and holds its number, the
expander and the phy.

>>> checked(2)
2
>>> checked(1 << 63 | 14 << 16 | 3 << 8 | 5)
Traceback (most recent call last):
...
metzurgo.answers.Refusal: refused 14 3 5
"""

from typing import Any, List, NamedTuple, Optional, Tuple

REFUSED = 1 << 63
VACANT = 1 << 62
NO_PHY = 255  # no phy, and in a request's start: the expander itself
NO_INDEX = 65535

OUTCOMES = ("arrived", "NO DESTINATION", "BAD DESTINATION")
RULES = ("", "i", "ii", "iii", "iv", "v")
# The SMP function results of a shelf, by the names of the standard.
RESULTS = {
    0x00: "SMP FUNCTION ACCEPTED",
    0x10: "PHY DOES NOT EXIST",
    0x11: "INDEX DOES NOT EXIST",
    0x16: "PHY VACANT",
}
FUNCTION_ACCEPTED = 0x00


class Setting(NamedTuple):
    """The limits of a course: most expanders, most phys, longest chain in expanders.

    >>> hex(Setting(16, 32, 4).packed())
    '0x102004'
    >>> Setting(256, 1, 1).packed()
    0
    """

    expanders: int
    phys: int
    chain: int

    def packed(self) -> int:
        """The number that the calls take; 0, which they refuse with 22, where it has none."""
        if any(not 0 <= limit <= 255 for limit in self):
            return 0
        return self.expanders << 16 | self.phys << 8 | self.chain

    def __str__(self) -> str:
        return f"{self.expanders},{self.phys},{self.chain}"


WIDEST = Setting(64, 128, 64)


class Refusal(Exception):
    """A call was refused: its number, and its place, an expander and a phy."""

    # The expander and phy that the call named, where the refusal is about these.
    named: Optional[Tuple[int, int]] = None

    def __init__(self, number: int, expander: int, phy: int) -> None:
        super().__init__(f"refused {number} {expander} {phy}")
        self.number, self.expander, self.phy = number, expander, phy


def checked(answer: int) -> int:
    """The answer, unless it is a refusal, which is raised."""
    if answer & REFUSED:
        raise Refusal(answer >> 16 & 0xFF, answer >> 8 & 0xFF, answer & 0xFF)
    return answer


class Needed(NamedTuple):
    """How many tables a file has, and how many words they take together."""

    tables: int
    words: int

    @classmethod
    def of(cls, answer: int) -> "Needed":
        """
        >>> Needed.of(3 << 32 | 12)
        Needed(tables=3, words=12)
        """
        return cls(answer >> 32, answer & 0xFFFFFFFF)


class Moved(NamedTuple):
    """How many tables an event touched, and how many words it changed."""

    tables: int
    words: int

    @classmethod
    def of(cls, answer: int) -> "Moved":
        """
        >>> Moved.of(3 << 32 | 2)
        Moved(tables=3, words=2)
        """
        return cls(answer >> 32, answer & 0xFFFFFFFF)


class Place(NamedTuple):
    """The expander, phy and route index that a table word belongs to."""

    expander: int
    phy: int
    route_index: int

    @classmethod
    def of(cls, answer: int) -> "Place":
        """
        >>> Place.of(2 << 24 | 7 << 16 | 300)
        Place(expander=2, phy=7, route_index=300)
        """
        return cls(answer >> 24, answer >> 16 & 0xFF, answer & 0xFFFF)


class Route(NamedTuple):
    """The fields of a CONFIGURE ROUTE INFORMATION request."""

    length: int  # REQUEST LENGTH
    phy: int
    route_index: int
    address: int
    disabled: bool

    @classmethod
    def of(cls, answer: int, address: int) -> "Route":
        """
        >>> Route.of(1 << 32 | 9 << 24 | 3 << 16 | 5, 16)
        Route(length=9, phy=3, route_index=5, address=16, disabled=True)
        """
        disabled = answer >> 32 & 1 == 1
        return cls(answer >> 24 & 0xFF, answer >> 16 & 0xFF, answer & 0xFFFF, address, disabled)


class Traced(NamedTuple):
    """How a request ended: outcome, last expander, phy (255: none), expanders passed."""

    outcome: int
    expander: int
    phy: int
    passed: List[int]

    @property
    def arrived(self) -> bool:
        return self.outcome == 0

    @classmethod
    def of(cls, answer: int, passed: Any) -> "Traced":
        """
        >>> Traced.of(2 << 24 | 1 << 16 | 255 << 8 | 1, [1, 0, 0])
        Traced(outcome=2, expander=1, phy=255, passed=[1])
        """
        end = (answer >> 24, answer >> 16 & 0xFF, answer >> 8 & 0xFF)
        return cls(*end, list(passed[: answer & 0xFF]))


class Step(NamedTuple):
    """What an expander did with a request."""

    bad: bool  # BAD DESTINATION here
    rule: int  # 1 to 5, for (i) to (v)
    phy: Optional[int]  # the phy picked
    route_index: Optional[int]  # of the entry that matched
    next: Optional[int]  # the expander that the request goes on to
    arrival: Optional[int]  # and the phy by which it comes in there

    @classmethod
    def of(cls, answer: int) -> "Step":
        """
        >>> Step.of(3 << 40 | 4 << 32 | 9 << 16 | 1 << 8 | 0)
        Step(bad=False, rule=3, phy=4, route_index=9, next=1, arrival=0)
        >>> Step.of(1 << 48 | 2 << 40 | 1 << 32 | 65535 << 16 | 255 << 8 | 255)
        Step(bad=True, rule=2, phy=1, route_index=None, next=None, arrival=None)
        """

        def byte(shift: int) -> Optional[int]:
            value = answer >> shift & 0xFF
            return None if value == NO_PHY else value

        index: Optional[int] = answer >> 16 & 0xFFFF
        if index == NO_INDEX:
            index = None
        return cls(answer >> 48 & 1 == 1, answer >> 40 & 0xFF, byte(32), index, byte(8), byte(0))


class General(NamedTuple):
    """The fields of a REPORT GENERAL response; the last two are None in a short one."""

    indexes: int
    phys: int
    configurable: bool
    long: bool
    table_to_table: Optional[bool]
    configures_others: Optional[bool]

    @classmethod
    def of(cls, answer: int) -> "General":
        """
        >>> General.of(4 << 16 | 2 << 8 | 1)[:4]
        (4, 2, True, False)
        >>> General.of(1 << 34 | 1 << 33 | 4 << 16 | 2 << 8)[2:]
        (False, True, True, False)
        """
        long = answer >> 34 & 1 == 1
        return cls(
            answer >> 16 & 0xFFFF,
            answer >> 8 & 0xFF,
            answer & 1 == 1,
            long,
            answer >> 33 & 1 == 1 if long else None,
            answer >> 32 & 1 == 1 if long else None,
        )


class Discovered(NamedTuple):
    """The fields of a DISCOVER response; of a vacant phy the result alone is not zero."""

    result: int
    identifier: int
    type: int
    attribute: int
    own: int
    attached: int
    attached_phy: int

    @classmethod
    def of(cls, answer: int, own: int, attached: int) -> "Discovered":
        """
        >>> Discovered.of(VACANT | 0x16, 0, 0).result
        22
        >>> Discovered.of(3 << 32 | 2 << 24 | 1 << 16 | 7, 16, 32)
        Discovered(result=0, identifier=3, type=2, attribute=1, own=16, attached=32, attached_phy=7)
        """
        if answer & VACANT:
            return cls(answer & 0xFF, 0, 0, 0, 0, 0, 0)
        return cls(
            0,
            answer >> 32 & 0xFF,
            answer >> 24 & 0xFF,
            answer >> 16 & 0xFF,
            own,
            attached,
            answer & 0xFF,
        )
