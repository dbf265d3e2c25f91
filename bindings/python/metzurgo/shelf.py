"""A shelf: a software expander that obeys loading frames, for labs without hardware.

>>> from metzurgo.answers import RESULTS
>>> shelf = Shelf([TABLE, OTHER], indexes=4)
>>> frame = library().write_route(phy=0, index=3, address=0xB1)
>>> RESULTS[shelf.obey(frame)]
'SMP FUNCTION ACCEPTED'
>>> shelf.entry(0, 3), shelf.disabled(0, 3), shelf.disabled(0, 0)
(177, False, True)
>>> RESULTS[shelf.obey(library().write_route(phy=1, index=0, address=0xB1))]
'INDEX DOES NOT EXIST'
>>> shelf.entry(1, 0)
"""

from typing import List, Optional, Sequence

from .arguments import Bytes
from .library import KIND, library
from .rig import Expander, Phy, Table

VACANT, TABLE, OTHER = 0, 1, 2
KINDS = {"vacant": VACANT, "table": TABLE, "other": OTHER}


def kind_of(phy: Phy) -> int:
    """What a shelf is told of a phy of a rig."""
    if phy.vacant:
        return VACANT
    return TABLE if phy.kind == "table" else OTHER


class Shelf:
    """A shelf with a phy for each kind, and R indexes; fresh, all entries zero and disabled.

    Refusal, with 3, where a shelf cannot be told that.

    >>> Shelf([], 4)
    Traceback (most recent call last):
    ...
    metzurgo.answers.Refusal: refused 3 0 0
    """

    def __init__(self, kinds: Sequence[int], indexes: int) -> None:
        self.kinds, self.indexes = list(kinds), indexes
        self._calls = library()
        self._words = self._calls.shelf_words()
        told = bytes(map(KIND.number, kinds))
        self._calls.shelf_fresh(self._words, len(told), indexes, told)

    @classmethod
    def of(cls, expander: Expander) -> "Shelf":
        """A shelf with the phys and R of an expander of a rig."""
        return cls([kind_of(phy) for phy in expander.phys], expander.indexes)

    def obey(self, frame: Bytes) -> int:
        """The function result of a frame of 40 bytes; Refusal where it cannot be read.

        Nothing changes unless the result is 00h.
        """
        return self._calls.shelf_obey(self._words, frame)

    def entry(self, phy: int, index: int) -> Optional[int]:
        """The address of an entry; None where there is no such entry."""
        if self.disabled(phy, index) is None:
            return None
        return self._calls.shelf_entry(self._words, phy, index)

    def disabled(self, phy: int, index: int) -> Optional[bool]:
        """Whether an entry is disabled; None where there is no such entry."""
        answer = self._calls.shelf_disabled(self._words, phy, index)
        return None if answer == 2 else answer == 1

    def tables(self, expander: int = 0) -> List[Table]:
        """The tables, as those of an expander of a rig; those of R 0 are left out.

        >>> [(table.phy, table.words) for table in Shelf([TABLE, OTHER, TABLE], 2).tables()]
        [(0, [0, 0]), (2, [0, 0])]
        """
        phys = [phy for phy, kind in enumerate(self.kinds) if kind == TABLE and self.indexes]
        words: List[int] = []
        bits = bytearray((len(phys) * self.indexes + 7) // 8)
        for phy in phys:
            for index in range(self.indexes):
                if self.disabled(phy, index):
                    bits[len(words) // 8] |= 0x80 >> len(words) % 8
                words.append(self.entry(phy, index) or 0)
        starts = range(0, len(words), self.indexes or 1)
        return [
            Table(expander, phy, first, words[first : first + self.indexes], bits)
            for phy, first in zip(phys, starts)
        ]
