"""A rig: its domain file, the names of its devices, and the calls on it."""

import base64
import binascii
import errno
import os
import re
import sys
from array import array
from typing import (
    Any,
    Callable,
    Dict,
    Iterable,
    Iterator,
    List,
    NamedTuple,
    Optional,
    Sequence,
    Tuple,
    Union,
)

from . import rigtext
from .answers import WIDEST, Discovered, Moved, Needed, Refusal, Setting, Step, Traced
from .arguments import Bytes, bytes_of, words_of
from .library import Library, counted, library

ATTRIBUTES = ("direct", "subtractive", "table")
NOTHING, END_DEVICE, EDGE_EXPANDER, FANOUT_EXPANDER = 0, 1, 2, 3
COUNTS = 3  # the refusal of more expanders or phys than the setting allows
START = 15  # the refusal of a place where no request can start
LENT = (16, 18)  # the refusals of too few words and disable bits
EVENT = 20  # the refusal of a phy that no drive can be plugged into or pulled from
JOIN = 21  # the refusal of a phy that cannot join two rigs
FORMS = ("text", "file", "card")  # what a rig is loaded from


class RigError(Exception):
    """A rig cannot be loaded: one message for each error, with file and line."""

    def __init__(self, messages: List[str]) -> None:
        super().__init__("\n".join(messages))
        self.messages = messages


class CardRefused(Refusal):
    """No file can be made of a card. The rig has the card, and no file."""

    def __init__(self, rig: "Rig", refusal: Refusal) -> None:
        super().__init__(refusal.number, refusal.expander, refusal.phy)
        self.rig = rig


class JoinRefused(Refusal):
    """A join was refused. The rig is the one that the refusal is about."""

    def __init__(self, rig: "Rig", refusal: Refusal) -> None:
        super().__init__(refusal.number, refusal.expander, refusal.phy)
        self.rig = rig


class EventRefused(Refusal):
    """An event was refused. The rig is the one that the refusal is about, edited or not."""

    def __init__(self, rig: "Rig", refusal: Refusal) -> None:
        super().__init__(refusal.number, refusal.expander, refusal.phy)
        self.rig = rig


class Phy(NamedTuple):
    """A phy, as the library reads its DISCOVER response."""

    number: int
    result: int  # the function result: not 0 where the phy is vacant
    identifier: int  # what the response says of its number
    type: int
    attribute: int
    own: int
    attached: int  # the attached address, 0 where nothing is attached
    attached_phy: int
    line: Optional[int] = None  # of the text

    @property
    def vacant(self) -> bool:
        return self.result != 0

    @property
    def kind(self) -> str:
        """The routing attribute in words."""
        if self.attribute < len(ATTRIBUTES):
            return ATTRIBUTES[self.attribute]
        return f"reserved attribute {self.attribute}"

    @property
    def at_expander(self) -> bool:
        return self.type in (EDGE_EXPANDER, FANOUT_EXPANDER)

    @property
    def at_drive(self) -> bool:
        return self.type == END_DEVICE


class Expander(NamedTuple):
    """An expander, as the library reads its REPORT GENERAL response."""

    number: int
    name: str
    address: int
    indexes: int
    configurable: bool
    phys: List[Phy]
    line: Optional[int] = None  # of the text


class Table:
    """The table of one phy: its stretch of the words and bits of all tables."""

    def __init__(self, expander: int, phy: int, first: int, words: Any, bits: Any) -> None:
        self.expander, self.phy = expander, phy
        self.first = first  # the place of its word 0 among all words
        self.words: Sequence[int] = words
        self._bits = bits

    @property
    def disabled(self) -> List[bool]:
        """Which of its words are disabled: the bits, most significant first."""
        places = range(self.first, self.first + len(self.words))
        return [self._bits[at // 8] >> (7 - at % 8) & 1 == 1 for at in places]


class Tables(NamedTuple):
    """All tables of a rig, with the words and bits as they are lent to a trace.

    >>> from metzurgo import PAIR
    >>> tables = Rig.of_text(PAIR).tables()
    >>> [hex(word) for word in tables.words][:2], list(tables.bits)
    (['0x50000000000000b1', '0x0'], [112])
    >>> tables.tables[0].disabled
    [False, True, True, True]
    """

    words: Any
    bits: Any
    tables: List[Table]


class Event(NamedTuple):
    """What an event did: its counts, and the tables that it touched; those of R 0 are left out."""

    moved: Moved
    tables: List[Table]


class Passed(NamedTuple):
    """An expander that a request passed, the phy it came in by (255: none), and what it did."""

    expander: int
    arrival: int
    step: Step


def address_text(address: int) -> str:
    """
    >>> address_text(0x5000000000000010)
    '5000000000000010'
    """
    return f"{address:016x}"


def read_bytes(path: str) -> bytes:
    """The bytes of a file; a hyphen is standard input."""
    if path == "-":
        if sys.stdin is None:
            raise OSError(errno.EBADF, os.strerror(errno.EBADF), "standard input")
        try:
            return sys.stdin.buffer.read()
        except OSError as error:
            error.filename = "standard input"
            raise
    with open(path, "rb") as source:
        return source.read()


def is_text(path: str, content: bytes) -> bool:
    """Whether content is a text and not a domain file, which begins with byte 10h.

    >>> is_text("-", b"drive A1 50000000000000a1"), is_text("-", bytes([0x10, 1]))
    (True, False)
    """
    if path.endswith(".rig"):
        return True
    try:
        text = content.decode("utf-8")
    except UnicodeDecodeError:
        return False
    return text != "" and all(character >= " " or character in "\t\n\r\f" for character in text)


def is_card(content: bytes) -> bool:
    """Whether content that is no text begins as a card does: 0010, any six bits, 000000.

    >>> is_card(bytes([0x20, 0x40, 0x50])), is_card(bytes([0x20, 0x41])), is_card(bytes([0x10, 1]))
    (True, False, False)
    """
    return len(content) >= 2 and content[0] >> 4 == 2 and content[1] & 0x3F == 0


def card_bytes(content: bytes) -> bytes:
    """The bytes of a card that is given as it is, in base64 or in hexadecimal.

    Base64 of a card begins with I, J, K or L, hexadecimal with 2; a card as it is has as its
    second byte a character of neither.

    >>> card_bytes(b"IEBQ\\n") == card_bytes(b"204050\\n") == card_bytes(bytes([0x20, 0x40, 0x50]))
    True
    """
    digits = b"".join(content.split())
    if re.fullmatch(rb"2[0-9A-Fa-f]*", digits) and len(digits) % 2 == 0:
        return bytes.fromhex(digits.decode("ascii"))
    try:
        return base64.b64decode(digits, validate=True) or content
    except binascii.Error:
        return content


def form_of(path: str, content: bytes) -> str:
    """What content is taken for: one of FORMS."""
    if is_text(path, content):
        return "text"
    return "card" if is_card(content) else "file"


def parse_address(text: str) -> Optional[int]:
    """An address of 16 hexadecimal digits, with or without 0x or h; None where it is none.

    >>> parse_address("0x50000000000000b1") == parse_address("50000000000000B1h")
    True
    >>> parse_address("B1")
    """
    try:
        return rigtext.address(0, text)
    except rigtext.TextError:
        return None


class Rig:
    """A rig: the domain file, and names for what is in it.

    The names are those of the text. A plain domain file has E0, E1 and so on for its
    expanders; its drives go by their addresses (and by D0, D1 and so on, as they are
    printed).
    """

    def __init__(self, file: Bytes, source: str = "rig", setting: Setting = WIDEST) -> None:
        self.file, self.source, self.setting = bytes_of(file, "file"), source, setting
        self.text: Optional[rigtext.Rig] = None
        self.card: Optional[bytes] = None  # where the rig was loaded from a card
        self.warnings: List[str] = []
        self._expanders: Optional[List[Expander]] = None
        self._starts: Dict[Tuple[int, Optional[int]], int] = {}
        self._names: Optional[Dict[str, int]] = None
        self._labels: Optional[Dict[int, str]] = None
        self._called: List[str] = []  # names that are given to its expanders

    # Loading.

    @classmethod
    def of_text(cls, text: str, source: str = "rig", setting: Setting = WIDEST) -> "Rig":
        """The rig of a text; RigError where the text has errors."""
        reader = rigtext.Reader(text)
        if reader.errors:
            raise RigError([f"{source}: {error}" for error in reader.errors])
        rig = cls(reader.rig.file(), source, setting)
        rig.text = reader.rig
        rig.warnings = [f"{source}: {warning}" for warning in reader.warnings]
        return rig

    @classmethod
    def of_card(cls, card: Bytes, source: str = "card", setting: Setting = WIDEST) -> "Rig":
        """The rig of a card; CardRefused where no file can be made of it.

        A card with more expanders or phys than the setting allows is a rig that is refused
        when it is judged, as a domain file is.

        >>> from metzurgo import PAIR
        >>> Rig.of_card(Rig.of_text(PAIR).to_card()).expanders[1].name
        'E1'
        """
        rig = cls(b"", source, setting)
        rig.card = bytes_of(card, "card")
        try:
            rig.file = library().file_of_card(setting, card)
        except Refusal as refusal:
            if refusal.number != COUNTS:
                raise CardRefused(rig, refusal) from None
            try:
                rig.file = library().file_of_card(WIDEST, card)
            except Refusal:
                raise CardRefused(rig, refusal) from None
        return rig

    @classmethod
    def load(
        cls,
        path: "Union[str, os.PathLike[str]]",
        setting: Setting = WIDEST,
        form: Optional[str] = None,
    ) -> "Rig":
        """The rig of a text, a domain file or a card; a hyphen is standard input.

        The content says which it is, unless form does. OSError where it cannot be read,
        RigError where it is a text with errors, CardRefused where no file can be made of a card.
        """
        path = os.fspath(path)
        content = read_bytes(path)
        source = "standard input" if path == "-" else path
        given, form = form, form or form_of(path, content)
        if form == "card":
            return cls.of_card(card_bytes(content) if given else content, source, setting)
        if form == "file":
            return cls(content, source, setting)
        try:
            text = content.decode("utf-8-sig")
        except UnicodeDecodeError:
            raise RigError([f"{source}: this is not a text"]) from None
        return cls.of_text(text, source, setting)

    # What is in the file. The library reads every frame.

    @property
    def expanders(self) -> List[Expander]:
        """The expanders, as far as the file can be read; names and lines are the text's."""
        if self._expanders is None:
            self._expanders = self._read_expanders()
        return self._expanders

    def _read_expanders(self) -> List[Expander]:
        calls: Library = library()
        expanders: List[Expander] = []
        at = 2
        try:
            while len(expanders) < counted(self.file):
                self._starts[len(expanders), None] = at
                long = self.file[at + 11 : at + 12] == bytes([rigtext.LONG_EXPANDER])
                unit = self.file[at : at + rigtext.expander_size(long)]
                general = calls.read_general(unit[8:])
                at += len(unit)
                number = len(expanders)
                name, line, _ = self._text_of(number)
                address = int.from_bytes(unit[:8], "big")
                phys: List[Phy] = []
                expanders.append(
                    Expander(
                        number, name, address, general.indexes, general.configurable, phys, line
                    )
                )
                while len(phys) < general.phys:
                    self._starts[number, len(phys)] = at
                    long = self.file[at + 3 : at + 4] == bytes([rigtext.LONG_PHY])
                    frame = self.file[at : at + rigtext.phy_size(long)]
                    phys.append(self._phy(number, len(phys), calls.read_discover(frame)))
                    at += len(frame)
        except Refusal:
            pass  # The rest cannot be read; judging says why.
        return expanders

    def start(self, expander: int, phy: Optional[int] = None) -> Optional[int]:
        """Where an expander's unit begins in the file, or a phy's; None where none was found."""
        self.expanders  # reads the file
        return self._starts.get((expander, phy))

    def _text_of(self, number: int) -> Tuple[str, Optional[int], List[rigtext.Phy]]:
        """The name, line and phys that the text has for an expander."""
        if number < len(self._called):
            return self._called[number], None, []
        if self.text is None or number >= len(self.text.expanders):
            return f"E{number}", None, []
        expander = self.text.expanders[number]
        return expander.name, expander.line, expander.phys

    def _phy(self, expander: int, number: int, found: Discovered) -> Phy:
        _, _, phys = self._text_of(expander)
        line = phys[number].line if number < len(phys) else None
        attached = (found.attached, found.attached_phy) if found.type else (0, 0)
        seen = (found.result, found.identifier, found.type, found.attribute, found.own)
        return Phy(number, *seen, *attached, line)

    # Names.

    @property
    def names(self) -> Dict[str, int]:
        """The address of each name."""
        if self._names is None:
            self._names = {expander.name: expander.address for expander in self.expanders}
            drives = self.text.drives if self.text else rigtext.read_file(self.file)[0].drives
            for drive in drives:
                self._names.setdefault(drive.name, drive.address or 0)
        return self._names

    def label(self, address: int) -> str:
        """What a device is called: its name in the text, or its address."""
        if self._labels is None:
            self._labels = {}
            addresses = {expander.address for expander in self.expanders}
            for name, bearer in self.names.items():
                if self.text or bearer in addresses:
                    self._labels.setdefault(bearer, name)
        return self._labels.get(address, address_text(address))

    def address(self, name: str) -> Optional[int]:
        """The address of a name, or an address as it is written; None where it is neither."""
        found = self.names.get(name)
        return parse_address(name) if found is None else found

    def expander(self, name: str) -> Optional[Expander]:
        """The expander of a name, a number or an address."""
        address = self.address(name)
        for expander in self.expanders:
            if expander.name == name or expander.address == address:
                return expander
        if name.isdecimal() and int(name) < len(self.expanders):
            return self.expanders[int(name)]
        return None

    def phy_name(self, expander: int, phy: int) -> str:
        """A phy in words: phy 0 of top."""
        return f"phy {phy} of {self.expander_name(expander)}"

    def expander_name(self, number: int) -> str:
        return self._text_of(number)[0]

    def line_of(self, expander: int, phy: Optional[int] = None) -> Optional[int]:
        """The line of the text for an expander, or for one of its phys."""
        _, line, phys = self._text_of(expander)
        if phy is not None:
            return phys[phy].line if phy < len(phys) else None
        return line

    # Calls.

    def to_card(self) -> bytes:
        """The rig's card; Refusal where causes 1 to 6 refuse the file."""
        return library().card_of_file(self.setting, self.file)

    def judge(self) -> int:
        """The number of expanders; Refusal where the rig cannot work."""
        return library().judge(self.setting, self.file)

    def needed(self) -> Needed:
        return library().needed(self.setting, self.file)

    def tables(self, watch: Optional[Callable[[Iterable[int]], Iterable[int]]] = None) -> Tables:
        """All tables, in the order of expanders and phys; those of R 0 are left out.

        The first words of the tables go through watch, which can count them.
        """
        calls = library()
        words, bits = calls.tables(self.setting, self.file)
        view = memoryview(words).cast("B").cast("Q")
        tables: List[Table] = []

        def firsts() -> Iterator[int]:
            first = 0
            while first < len(words):
                yield first
                first += len(tables[-1].words)

        for first in watch(firsts()) if watch else firsts():
            place = calls.word_place(self.setting, self.file, first)
            last = first + self.expanders[place.expander].indexes
            tables.append(Table(place.expander, place.phy, first, view[first:last], bits))
        return Tables(words, bits, tables)

    # Drives plugged and pulled. The rig and its tables are edited.

    def plug(self, tables: Tables, place: Tuple[int, int], address: int) -> Event:
        """Plugs a drive into a phy, in place of one that is there.

        The place is an expander and a phy. The tables that the event touches are written afresh,
        and the others stay as they are. EventRefused where nothing can be plugged in there, or
        where the rig would then be refused; neither rig nor tables change then.

        >>> from metzurgo import PAIR
        >>> rig = Rig.of_text(PAIR)
        >>> tables = rig.tables()
        >>> rig.plug(tables, (1, 2), 0x50000000000000C1).moved
        Moved(tables=1, words=1)
        >>> hex(tables.words[1]), rig.expanders[1].phys[2].at_drive
        ('0x50000000000000c1', True)
        >>> rig.plug(tables, (1, 0), 0x50000000000000C2)
        Traceback (most recent call last):
        ...
        metzurgo.rig.EventRefused: refused 20 0 0
        """
        if address == 0:
            raise ValueError("no drive has address zero")
        return self._event(tables, place, address)

    def pull(self, tables: Tables, place: Tuple[int, int]) -> Event:
        """Pulls the drive at a phy, where there is one, as plug plugs one in.

        >>> from metzurgo import PAIR
        >>> rig = Rig.of_text(PAIR)
        >>> tables = rig.tables()
        >>> event = rig.pull(tables, (1, 1))
        >>> [(table.expander, table.phy) for table in event.tables], list(tables.words)
        ([(0, 0)], [0, 0, 0, 0])
        """
        return self._event(tables, place, 0)

    def _event(self, tables: Tables, place: Tuple[int, int], address: int) -> Event:
        lent = (self.setting, self.file, tables.words, tables.bits)
        try:
            touched = self._touched(tables, place, address)
            self.file, moved = library().event(*lent, place, address)
        except Refusal as refusal:
            raise self._event_refused(refusal, place, address) from None
        self.card = self._expanders = self._names = self._labels = None
        self._starts = {}
        return Event(moved, touched)

    def _touched(self, tables: Tables, place: Tuple[int, int], address: int) -> List[Table]:
        """The tables that the library writes, where it is lent words that no table can have."""
        nobody = self._nobody(address)
        words = words_of(array("Q", [nobody]) * len(tables.words))
        bits = type(tables.bits)()
        library().event(self.setting, self.file, words, bits, place, address)
        return [table for table in tables.tables if words[table.first] != nobody]

    def _nobody(self, address: int) -> int:
        """An address that no device has, nor the one of an event."""
        devices = {address}
        for expander in self.expanders:
            devices.add(expander.address)
            devices.update(phy.attached for phy in expander.phys)
        return next(other for other in range(1, len(devices) + 2) if other not in devices)

    def _event_refused(
        self, refusal: Refusal, place: Tuple[int, int], address: int
    ) -> EventRefused:
        """The refusal with the rig that it is about, in the order of the tests."""
        found = EventRefused(self, refusal)
        try:
            self.judge()
        except Refusal:
            return found
        if refusal.number == EVENT:
            found.named = place
        elif refusal.number not in LENT:
            found.rig = self._edited(place, address)
        return found

    def _edited(self, place: Tuple[int, int], address: int) -> "Rig":
        """The edited rig that the library judged, for its sentence."""
        file = bytearray(self.file)
        start = self.start(*place) or 0
        file[start + 12] &= 0x8F
        if address:
            file[start + 12] |= END_DEVICE << 4
            file[start + 24 : start + 33] = address.to_bytes(8, "big") + bytes(1)
        rig = Rig(bytes(file), f"{self.source} after the event", self.setting)
        rig.text, rig._called = self.text, self._called
        return rig

    # Two rigs.

    def join(self, place: Tuple[int, int], other: "Rig", far: Tuple[int, int]) -> "Rig":
        """The rig of this one and another, joined by a cable between a phy of each.

        A place is an expander and a phy, by the numbers of its own rig. The expanders of the
        other rig stand behind those of this one. JoinRefused where they cannot be joined.

        >>> from metzurgo import PAIR
        >>> left = PAIR.replace("direct to A1", "subtractive").replace("drive A1", "drive Z")
        >>> right = Rig.of_text(left.replace(" 50", " 51"))
        >>> bench = Rig.of_text(left).join((0, 1), right, (0, 1))
        >>> bench.judge(), len(bench.tables().words)
        (4, 8)
        >>> bench.join((0, 1), right, (0, 1))
        Traceback (most recent call last):
        ...
        metzurgo.rig.JoinRefused: refused 21 0 0
        """
        try:
            file = library().join(self.setting, self.file, place, other.file, far)
        except Refusal as refusal:
            raise self._join_refused(refusal, place, other, far) from None
        return Rig(file, f"{self.source} and {other.source}", self.setting)

    def _join_refused(
        self, refusal: Refusal, place: Tuple[int, int], other: "Rig", far: Tuple[int, int]
    ) -> JoinRefused:
        """The refusal with the rig that it is about, in the order of the tests."""
        for rig, before in ((self, 0), (other, len(self.expanders))):
            try:
                library().judge(self.setting, rig.file)
            except Refusal:
                found = JoinRefused(rig, refusal)
                found.named = (refusal.expander - before, refusal.phy)
                return found
        if refusal.number == JOIN:
            rig, named = (other, far) if self._is_open(place) else (self, place)
            found = JoinRefused(rig, refusal)
            found.named = named
            return found
        joined = Rig(self._joined(place, other, far), "the joined rig", self.setting)
        joined._called = [f"{each.name} of the first rig" for each in self.expanders]
        joined._called += [f"{each.name} of the second rig" for each in other.expanders]
        return JoinRefused(joined, refusal)

    def _is_open(self, place: Tuple[int, int]) -> bool:
        """Whether 21 does not hold of a phy."""
        from .sentences import tell_join

        return tell_join(self, *place) is None

    def _joined(self, place: Tuple[int, int], other: "Rig", far: Tuple[int, int]) -> bytes:
        """The joined file that the library judged, for its sentence."""
        count = len(self.expanders) + len(other.expanders)
        file = bytearray([0x10, count]) + self.file[2:] + other.file[2:]
        behind = len(self.file) - 2
        for start, rig, there in (
            (self.start(*place) or 0, other, far),
            (behind + (other.start(*far) or 0), self, place),
        ):
            file[start + 12] = file[start + 12] & 0x8F | EDGE_EXPANDER << 4
            address = rig.expanders[there[0]].address.to_bytes(8, "big")
            file[start + 24 : start + 33] = address + bytes([there[1]])
        return bytes(file)

    def trace(self, tables: Tables, start: int, arrival: int, address: int) -> Traced:
        """Follows a request over tables."""
        lent = (self.setting, self.file, tables.words, tables.bits)
        try:
            return library().trace(*lent, start, arrival, address)
        except Refusal as refusal:
            if refusal.number == START:
                refusal.named = (start, arrival)
            raise

    def steps(self, tables: Tables, start: int, arrival: int, address: int) -> List[Passed]:
        """What each expander does that a request passes."""
        passed: List[Passed] = []
        expander, by = start, arrival
        while len(passed) < len(self.expanders):
            step = library().step(
                self.setting, self.file, tables.words, tables.bits, expander, by, address
            )
            passed.append(Passed(expander, by, step))
            if step.next is None or step.arrival is None:
                break
            expander, by = step.next, step.arrival
        return passed
