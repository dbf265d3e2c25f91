"""The calls of libmetzurgo.so (include/metzurgo.h), by ctypes.

The library is looked for by the environment variable METZURGO_LIBRARY, then beside
this package, then in target/lib of the checkout that this file stands in, then where
the system keeps libraries.
"""

import ctypes
import ctypes.util
import os
from ctypes import c_uint8, c_uint16, c_uint64
from pathlib import Path
from types import SimpleNamespace
from typing import Any, Dict, List, Optional, Sequence, Tuple

from .answers import (
    NO_INDEX,
    NO_PHY,
    Discovered,
    General,
    Moved,
    Needed,
    Place,
    Route,
    Setting,
    Step,
    Traced,
    checked,
)
from .arguments import (
    Bits,
    Bytes,
    Content,
    Course,
    Flag,
    Held,
    Lent,
    Number,
    Parameter,
    ShelfWords,
    Words,
    bytes_of,
    words_of as words_of,
)

FILE_NAME = "libmetzurgo.so"
FRAME = 40  # the bytes of a CONFIGURE ROUTE INFORMATION request
LONGEST_FORM = 16512  # the words of the longest form
LONGEST_CARD = 80578  # the bytes of the longest card
LONGEST_CARD_FILE = 428290  # and of the longest file that is made of a card
LONGEST_EXERCISE = 6782  # and of the longest file of an exercise

# The third argument is what a number out of range is given as: no rig, frame or shelf has it.
ADDRESS = Number("address", c_uint64)
ROUTE_INDEX = Number("index", c_uint16)
KIND = Number("kinds", c_uint8, 255)  # of a phy of a shelf
_ARRIVAL = Number("arrival", c_uint8, NO_PHY - 1)  # NO_PHY is the expander itself
_EXPANDER = Number("expander", c_uint8, 255)
_PHY = Number("phy", c_uint8, NO_PHY)
_PLACE = [_EXPANDER, _PHY]
_REQUEST = [Number("start", c_uint8, 255), _ARRIVAL, ADDRESS]
_ENTRY = [_PHY, Number("index", c_uint16, NO_INDEX)]
_LENGTH = Number("length", c_uint8, 255)
_WORD = Number("word", c_uint64, (1 << 64) - 1)

_SETTING = Course()
_FILE = Content("file")
_FRAME = Content("frame")
_SHELF = Held()
_ROOM = Lent("room", c_uint8)
_FILLED = [Lent("words", c_uint64), Lent("bits", c_uint8)]
_TABLES = [Words("words"), Bits()]

# Each call and its parameters. Every answer is a 64-bit number.
PARAMETERS: Dict[str, List[Parameter]] = {
    "metzurgo_version": [],
    "metzurgo_wire": [_SETTING, _FILE, Lent("words", c_uint64)],
    "metzurgo_judge": [_SETTING, _FILE],
    "metzurgo_needed": [_SETTING, _FILE],
    "metzurgo_word_place": [_SETTING, _FILE, _WORD],
    "metzurgo_tables": [_SETTING, _FILE, *_FILLED],
    "metzurgo_trace": [_SETTING, _FILE, *_TABLES, *_REQUEST, _ROOM],
    "metzurgo_step": [_SETTING, _FILE, *_TABLES, _EXPANDER, _ARRIVAL, ADDRESS],
    "metzurgo_compact": [_SETTING, _FILE, Lent("form", c_uint64)],
    "metzurgo_compact_tables": [_SETTING, Words("form"), *_FILLED],
    "metzurgo_compact_trace": [_SETTING, Words("form"), *_TABLES, *_REQUEST, _ROOM],
    "metzurgo_compact_trace_many": [
        _SETTING,
        Words("form"),
        *_TABLES,
        Words("requests"),
        Lent("answers", c_uint64),
    ],
    "metzurgo_event": [_SETTING, Lent("file", c_uint8), *_FILLED, *_PLACE, ADDRESS],
    "metzurgo_card_of_file": [_SETTING, _FILE, _ROOM],
    "metzurgo_file_of_card": [_SETTING, Content("card"), _ROOM],
    "metzurgo_join": [_SETTING, Content("first"), *_PLACE, Content("second"), *_PLACE, _ROOM],
    "metzurgo_make": [Number("first", c_uint64), Number("second", c_uint64), Words("words"), _ROOM],
    "metzurgo_write_route": [_ROOM, _LENGTH, _PHY, ROUTE_INDEX, ADDRESS, Flag("disabled")],
    "metzurgo_read_route": [_FRAME],
    "metzurgo_read_route_address": [_FRAME],
    "metzurgo_read_general": [_FRAME],
    "metzurgo_read_general_sas2": [_FRAME],
    "metzurgo_read_discover": [_FRAME],
    "metzurgo_discover_own": [_FRAME],
    "metzurgo_discover_attached": [_FRAME],
    "metzurgo_shelf_size": [],
    "metzurgo_shelf_fresh": [
        _SHELF,
        Number("phys", c_uint8, 255),
        Number("indexes", c_uint16, NO_INDEX),
        Content("kinds"),
    ],
    "metzurgo_shelf_obey": [_SHELF, _FRAME],
    "metzurgo_shelf_entry": [_SHELF, *_ENTRY],
    "metzurgo_shelf_disabled": [_SHELF, *_ENTRY],
}
# The same with the types that the header has.
CALLS = {
    name: [kind for parameter in parameters for kind in parameter.types]
    for name, parameters in PARAMETERS.items()
}


class Call:
    """A call of the library, with an argument for each of its parameters."""

    def __init__(self, function: Any, name: str) -> None:
        self.function, self.parameters = function, PARAMETERS[name]
        function.argtypes, function.restype = CALLS[name], c_uint64

    def __call__(self, *arguments: Any) -> int:
        given: List[Any] = []
        for parameter, argument in zip(self.parameters, arguments):
            given.extend(parameter.given(argument))
        answer: int = self.function(*given)
        return answer


class LibraryMissing(Exception):
    """There is no libmetzurgo.so, or not one with these calls."""


def candidates() -> List[str]:
    """Where the library is looked for, in order."""
    given = os.environ.get("METZURGO_LIBRARY")
    if given:
        return [given]
    package = Path(__file__).resolve().parent
    places = [package / FILE_NAME, package.parent / FILE_NAME]
    if len(package.parents) > 2:
        places.append(package.parents[2] / "target" / "lib" / FILE_NAME)
    return [str(place) for place in places if place.exists()] + [
        ctypes.util.find_library("metzurgo") or FILE_NAME
    ]


def find_library() -> str:
    """The file that is loaded."""
    return candidates()[0]


def counted(file: Bytes) -> int:
    """The number of expanders that the header of a file counts: a buffer has so many elements."""
    content = bytes_of(file, "file")
    return content[1] if len(content) > 1 else 0


class Library:
    """The calls, with their answers unpacked. A refusal is raised.

    >>> library = Library()
    >>> library.write_route(phy=0, index=3, address=0xB1, disabled=True).hex()[:26]
    '40900000000000030000000080'
    """

    def __init__(self, path: Optional[str] = None) -> None:
        self.path = path or find_library()
        try:
            loaded = ctypes.CDLL(self.path)
            calls = {name: Call(getattr(loaded, name), name) for name in CALLS}
        except (OSError, AttributeError) as error:
            raise LibraryMissing(
                f"{self.path}: the library cannot be loaded ({error});"
                " METZURGO_LIBRARY names another file"
            ) from error
        self._calls = SimpleNamespace(**calls)

    def version(self) -> Tuple[int, int, int]:
        answer = self._calls.metzurgo_version()
        return answer >> 16, answer >> 8 & 0xFF, answer & 0xFF

    # Calls on a file.

    def judge(self, setting: Setting, file: Bytes) -> int:
        """The number of expanders."""
        return checked(self._calls.metzurgo_judge(setting, file))

    def wire(self, setting: Setting, file: Bytes) -> List[int]:
        """The neighbours of each expander, as bits of a word. Loops are not refused."""
        words = (c_uint64 * counted(file))()
        checked(self._calls.metzurgo_wire(setting, file, words))
        return list(words)

    def needed(self, setting: Setting, file: Bytes) -> Needed:
        return Needed.of(checked(self._calls.metzurgo_needed(setting, file)))

    def word_place(self, setting: Setting, file: Bytes, word: int) -> Place:
        return Place.of(checked(self._calls.metzurgo_word_place(setting, file, word)))

    def tables(self, setting: Setting, file: Bytes) -> Tuple[Any, Any]:
        """The words of all tables, and their disable bits, as they are lent to a trace."""
        needed = self.needed(setting, file)
        words = (c_uint64 * needed.words)()
        bits = (c_uint8 * ((needed.words + 7) // 8))()
        checked(self._calls.metzurgo_tables(setting, file, words, bits))
        return words, bits

    def trace(
        self,
        setting: Setting,
        file: Bytes,
        words: Any,
        bits: Any,
        start: int,
        arrival: int,
        address: int,
    ) -> Traced:
        """Follows a request over words and bits."""
        passed = (c_uint8 * counted(file))()
        request = (start, arrival, address, passed)
        answer = self._calls.metzurgo_trace(setting, file, words, bits, *request)
        return Traced.of(checked(answer), passed)

    def step(
        self,
        setting: Setting,
        file: Bytes,
        words: Any,
        bits: Any,
        expander: int,
        arrival: int,
        address: int,
    ) -> Step:
        """What one expander does with a request."""
        request = (expander, arrival, address)
        answer = self._calls.metzurgo_step(setting, file, words, bits, *request)
        return Step.of(checked(answer))

    # Drives plugged and pulled.

    def event(
        self,
        setting: Setting,
        file: Bytes,
        words: Any,
        bits: Any,
        place: Tuple[int, int],
        address: int,
    ) -> Tuple[bytes, Moved]:
        """The file with a drive plugged into a phy, or pulled (address 0), and what that moved.

        Words and bits are edited where they are.
        """
        expander, phy = place
        content = bytes_of(file, "file")
        edited = (c_uint8 * len(content)).from_buffer_copy(content)
        call = self._calls.metzurgo_event
        answer = checked(call(setting, edited, words, bits, expander, phy, address))
        return bytes(edited), Moved.of(answer)

    # Compact forms. Forms and requests are words, as words_of takes them.

    def compact(self, setting: Setting, file: Bytes) -> List[int]:
        """The form of a domain file."""
        room = (c_uint64 * LONGEST_FORM)()
        answer = checked(self._calls.metzurgo_compact(setting, file, room))
        return room[: answer & 0xFFFFFFFF]

    def compact_tables(self, setting: Setting, form: Sequence[int], count: int) -> Tuple[Any, Any]:
        """The words of all tables over a form, so many of them, and their disable bits."""
        words = (c_uint64 * count)()
        bits = (c_uint8 * ((count + 7) // 8))()
        checked(self._calls.metzurgo_compact_tables(setting, form, words, bits))
        return words, bits

    def compact_trace(
        self,
        setting: Setting,
        form: Sequence[int],
        words: Any,
        bits: Any,
        start: int,
        arrival: int,
        address: int,
        expanders: int,
    ) -> Traced:
        """Follows a request over a form of so many expanders, and over words and bits."""
        passed = (c_uint8 * expanders)()
        request = (start, arrival, address, passed)
        answer = self._calls.metzurgo_compact_trace(setting, form, words, bits, *request)
        return Traced.of(checked(answer), passed)

    def compact_trace_many(
        self, setting: Setting, form: Sequence[int], words: Any, bits: Any, requests: Sequence[int]
    ) -> Any:
        """The answers to a list of requests, two words each."""
        answers = (c_uint64 * (len(requests) // 2))()
        call = self._calls.metzurgo_compact_trace_many
        checked(call(setting, form, words, bits, requests, answers))
        return answers

    # Two rigs.

    def join(
        self,
        setting: Setting,
        first: Bytes,
        place: Tuple[int, int],
        second: Bytes,
        other: Tuple[int, int],
    ) -> bytes:
        """The file of two rigs joined by a cable between a phy of each: expander and phy."""
        (expander, phy), (far_expander, far_phy) = place, other
        first, second = bytes_of(first, "first"), bytes_of(second, "second")
        room = (c_uint8 * (len(first) + len(second)))()
        near, far = (first, expander, phy), (second, far_expander, far_phy)
        return bytes(room[: checked(self._calls.metzurgo_join(setting, *near, *far, room))])

    # Rig cards.

    def card_of_file(self, setting: Setting, file: Bytes) -> bytes:
        """The card of a domain file."""
        room = (c_uint8 * LONGEST_CARD)()
        return bytes(room[: checked(self._calls.metzurgo_card_of_file(setting, file, room))])

    def file_of_card(self, setting: Setting, card: Bytes) -> bytes:
        """The domain file of a card: short frames, and zero what a card does not say."""
        room = (c_uint8 * LONGEST_CARD_FILE)()
        return bytes(room[: checked(self._calls.metzurgo_file_of_card(setting, card, room))])

    # Exercises.

    def make(self, first: int, second: int, words: Sequence[int]) -> bytes:
        """The domain file of two expanders, with these addresses, whose one table is the words."""
        room = (c_uint8 * LONGEST_EXERCISE)()
        return bytes(room[: checked(self._calls.metzurgo_make(first, second, words, room))])

    # Calls on one frame.

    def write_route(
        self, phy: int, index: int, address: int, disabled: bool = False, length: int = 0
    ) -> bytes:
        """A CONFIGURE ROUTE INFORMATION request."""
        frame = (c_uint8 * FRAME)()
        # The call refuses no index, so one that it cannot be given goes with a phy that it refuses.
        if not ROUTE_INDEX.holds(index):
            phy, index = NO_PHY, 0
        checked(self._calls.metzurgo_write_route(frame, length, phy, index, address, disabled))
        return bytes(frame)

    def read_route(self, frame: Bytes) -> Route:
        """The fields of a CONFIGURE ROUTE INFORMATION request."""
        answer = checked(self._calls.metzurgo_read_route(frame))
        return Route.of(answer, self._calls.metzurgo_read_route_address(frame))

    def read_general(self, frame: Bytes) -> General:
        return General.of(checked(self._calls.metzurgo_read_general_sas2(frame)))

    def read_discover(self, frame: Bytes) -> Discovered:
        return Discovered.of(
            checked(self._calls.metzurgo_read_discover(frame)),
            self._calls.metzurgo_discover_own(frame),
            self._calls.metzurgo_discover_attached(frame),
        )

    # Calls on a shelf.

    def shelf_words(self) -> ShelfWords:
        return ShelfWords(self._calls.metzurgo_shelf_size() // 8)

    def shelf_fresh(self, shelf: ShelfWords, phys: int, indexes: int, kinds: Bytes) -> None:
        checked(self._calls.metzurgo_shelf_fresh(shelf, phys, indexes, kinds))

    def shelf_obey(self, shelf: ShelfWords, frame: Bytes) -> int:
        """The function result."""
        return checked(self._calls.metzurgo_shelf_obey(shelf, frame))

    def shelf_entry(self, shelf: ShelfWords, phy: int, index: int) -> int:
        answer: int = self._calls.metzurgo_shelf_entry(shelf, phy, index)
        return answer

    def shelf_disabled(self, shelf: ShelfWords, phy: int, index: int) -> int:
        answer: int = self._calls.metzurgo_shelf_disabled(shelf, phy, index)
        return answer


_loaded: List[Library] = []


def library() -> Library:
    """The library, loaded once."""
    if not _loaded:
        _loaded.append(Library())
    return _loaded[0]
