"""The compact form: an accepted rig decoded once, to be traced over many times.

>>> from metzurgo import PAIR
>>> rig = Rig.of_text(PAIR)
>>> form = Form.of(rig)
>>> len(form), form.expanders, form.needed
(14, 2, Needed(tables=1, words=4))
>>> tables, b1 = form.tables(), rig.names["B1"]
>>> ends = form.trace_many(tables, [(0, 255, b1), (1, 1, b1), (0, 255, 0)])
>>> ends[0]
End(outcome=0, expander=1, phy=1, passed_count=2)
>>> ends[0].arrived, ends[1].arrived, ends[2]
(True, False, Refusal('refused 17 0 0'))
"""

from array import array
from typing import Iterable, Iterator, List, NamedTuple, Sequence, Tuple, Union

from .answers import NO_PHY, WIDEST, Needed, Refusal, Setting, Traced, checked
from .arguments import array_of
from .library import ADDRESS, library
from .rig import Rig, Table, Tables

NO_FORM = 1  # the refusal of words that are the form of no accepted rig


class End(NamedTuple):
    """How a request of a list ended: as Traced, with the expanders passed counted."""

    outcome: int
    expander: int
    phy: int  # 255: none
    passed_count: int

    @property
    def arrived(self) -> bool:
        return self.outcome == 0

    @classmethod
    def of(cls, answer: int) -> "End":
        """
        >>> End.of(1 << 24 | 3 << 16 | 255 << 8 | 2)
        End(outcome=1, expander=3, phy=255, passed_count=2)
        """
        return cls(answer >> 24, answer >> 16 & 0xFF, answer >> 8 & 0xFF, answer & 0xFF)


class TablePhy(NamedTuple):
    """A table phy that a form has, and R of its expander."""

    expander: int
    phy: int
    indexes: int


class Form:
    """An accepted rig as 64-bit words, with the setting that accepts it.

    Refusal, with 1, where the words are the form of no accepted rig.

    >>> Form([0x5000000000000010, 1 << 40, 0, 1 << 63]).expanders
    1
    >>> Form([0x5000000000000010, 1 << 40, 0])
    Traceback (most recent call last):
    ...
    metzurgo.answers.Refusal: refused 1 0 0
    """

    def __init__(self, words: Iterable[int], setting: Setting = WIDEST) -> None:
        self.words: Sequence[int] = array_of(words)
        self.setting = setting
        self._calls = library()
        try:
            self._calls.compact_tables(setting, self.words, 0)
        except Refusal as refusal:
            # No words were lent for tables, which is refused where there are any.
            if refusal.number in (NO_FORM, 22):
                raise
        self.expanders = 0
        self._tables: List[TablePhy] = []
        self._read()

    @classmethod
    def of(cls, rig: Rig) -> "Form":
        """The form of a rig; Refusal where it cannot work."""
        return cls(library().compact(rig.setting, rig.file), rig.setting)

    def __len__(self) -> int:
        return len(self.words)

    def _read(self) -> None:
        """Counts expanders and finds table phys, in words that are a form.

        An expander has its address, a word with R and the number of phys, and two words for
        each phy; the second has from the top 1 bit for vacant, 2 of type, 2 of attribute.
        """
        at = 0
        while at < len(self.words):
            general = self.words[at + 1]
            indexes, phys = general >> 48, general >> 40 & 0xFF
            for phy in range(phys):
                word = self.words[at + 3 + 2 * phy]
                if word >> 63 == 0 and word >> 59 & 3 == 2:
                    self._tables.append(TablePhy(self.expanders, phy, indexes))
            self.expanders += 1
            at += 2 + 2 * phys

    @property
    def needed(self) -> Needed:
        """How many tables there are, and how many words they take together."""
        return Needed(len(self._tables), sum(table.indexes for table in self._tables))

    def tables(self) -> Tables:
        """All tables, as Rig.tables gives them.

        >>> from metzurgo import PAIR
        >>> form = Form.of(Rig.of_text(PAIR))
        >>> [hex(word) for word in form.tables().tables[0].words][:2]
        ['0x50000000000000b1', '0x0']
        """
        words, bits = self._calls.compact_tables(self.setting, self.words, self.needed.words)
        view = memoryview(words).cast("B").cast("Q")
        return Tables(words, bits, list(self._stretches(view, bits)))

    def _stretches(self, view: "memoryview", bits: Sequence[int]) -> Iterator[Table]:
        first = 0
        for expander, phy, indexes in self._tables:
            if indexes:
                yield Table(expander, phy, first, view[first : first + indexes], bits)
            first += indexes

    def trace(self, tables: Tables, start: int, arrival: int, address: int) -> Traced:
        """Follows a request over tables, as Rig.trace does.

        >>> from metzurgo import PAIR
        >>> form = Form.of(Rig.of_text(PAIR))
        >>> form.trace(form.tables(), 1, 255, 0x50000000000000A1)
        Traced(outcome=0, expander=0, phy=1, passed=[1, 0])
        """
        lent = (self.words, tables.words, tables.bits)
        return self._calls.compact_trace(
            self.setting, *lent, start, arrival, address, self.expanders
        )

    def trace_many(
        self, tables: Tables, requests: Iterable[Tuple[int, int, int]]
    ) -> List[Union[End, Refusal]]:
        """Follows a list of requests in one call, each a start, an arrival phy and an address.

        Gives the end of each, or its own refusal, with 15 or 17.
        """
        words = array("Q")
        for start, arrival, address in requests:
            words.extend((first_word(start, arrival), ADDRESS.number(address)))
        return [end_of(answer) for answer in self.answers(tables, words)]

    def answers(self, tables: Tables, requests: Sequence[int]) -> Sequence[int]:
        """The answers to requests of two words each, first_word and address, as they are packed."""
        lent = (self.words, tables.words, tables.bits)
        answers: Sequence[int] = self._calls.compact_trace_many(self.setting, *lent, requests)
        return answers


def first_word(start: int, arrival: int = NO_PHY) -> int:
    """The first word of a request; one that is refused with 15 where a number has none.

    >>> first_word(2, 7), first_word(2), first_word(256, 7), first_word(0, -1)
    (519, 767, 65536, 65536)
    """
    if 0 <= start <= 255 and 0 <= arrival <= 255:
        return start << 8 | arrival
    return 65536


def end_of(answer: int) -> Union[End, Refusal]:
    """The end of a request of a list, or its refusal.

    >>> end_of(1 << 63 | 15 << 16)
    Refusal('refused 15 0 0')
    """
    try:
        return End.of(checked(answer))
    except Refusal as refusal:
        return refusal
