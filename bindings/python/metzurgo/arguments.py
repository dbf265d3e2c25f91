"""What the calls of the library are given for the arguments of the package.

ctypes cuts a number to the bits of its parameter, and says nothing. So each argument is converted
here. A number that a parameter cannot hold is given as one that it can hold and that the call
refuses for its range, when it comes to that test. Where the call refuses none, as of addresses,
ValueError is raised; what is no number, no bytes or no words is a TypeError. Both name the
argument, and nothing is called.
"""

import ctypes
import operator
from array import array
from ctypes import POINTER, c_char_p, c_size_t, c_uint8, c_uint32, c_uint64, c_void_p
from typing import Any, Iterable, Optional, Sequence, Tuple, Union

Bytes = Union[bytes, bytearray, memoryview]


def bytes_of(argument: Bytes, name: str = "bytes") -> bytes:
    """Bytes as the calls read them.

    >>> bytes_of(bytearray(2)), bytes_of(memoryview(b"12"))
    (b'\\x00\\x00', b'12')
    >>> bytes_of(3, "file")
    Traceback (most recent call last):
    ...
    TypeError: file: bytes are due, and not int
    """
    if isinstance(argument, (bytes, bytearray, memoryview)):
        return bytes(argument)
    raise TypeError(f"{name}: bytes are due, and not {type(argument).__name__}")


def words_of(words: Sequence[int], name: str = "words") -> Any:
    """Words as they are lent: those of an array are lent where they are.

    >>> list(words_of([1, 2])), list(words_of(array("Q", [3])))
    ([1, 2], [3])
    >>> words_of([1 << 64], "form")
    Traceback (most recent call last):
    ...
    ValueError: form: a word is no number of 64 bits
    """
    if is_lent(words, c_uint64):
        return words
    held = words if isinstance(words, array) and words.typecode == "Q" else array_of(words, name)
    lent = c_uint64 * len(held)
    return lent.from_buffer(held) if held else lent()


def array_of(words: Iterable[int], name: str = "words") -> "array[int]":
    """Words in an array of their own."""
    try:
        return array("Q", iter(words))
    except OverflowError:
        raise ValueError(f"{name}: a word is no number of 64 bits") from None
    except TypeError as error:
        raise TypeError(f"{name}: {error}") from None


def is_lent(argument: Any, kind: Any) -> bool:
    """Whether an argument is an array of ctypes with elements of a kind."""
    return isinstance(argument, ctypes.Array) and argument._type_ is kind


class ShelfWords:
    """The words of a shelf, all zero: one without phys. The library reads and writes them."""

    def __init__(self, count: int) -> None:
        self.lent = (c_uint64 * count)()


class Parameter:
    """A parameter of a call, with its name and the types that the header has for it."""

    def __init__(self, name: str, *types: Any) -> None:
        self.name, self.types = name, types

    def given(self, argument: Any) -> Tuple[Any, ...]:
        """What the call is given: one value for each type."""
        raise NotImplementedError


class Number(Parameter):
    """An unsigned number; and what stands for those out of range, where the call refuses it.

    >>> start, address = Number("start", c_uint8, 255), Number("address", c_uint64)
    >>> start.number(7), start.number(263), start.number(-1)
    (7, 255, 255)
    >>> address.number(-1)
    Traceback (most recent call last):
    ...
    ValueError: address: -0x1 is no number of 64 bits
    >>> address.number(None)
    Traceback (most recent call last):
    ...
    TypeError: address: 'NoneType' object cannot be interpreted as an integer
    """

    def __init__(self, name: str, kind: Any, refused: Optional[int] = None) -> None:
        super().__init__(name, kind)
        self.bits, self.refused = 8 * ctypes.sizeof(kind), refused

    def integer(self, argument: Any) -> int:
        try:
            return operator.index(argument)
        except TypeError as error:
            raise TypeError(f"{self.name}: {error}") from None

    def holds(self, argument: Any) -> bool:
        """Whether a number is one of so many bits."""
        return self.integer(argument) >> self.bits == 0

    def number(self, argument: Any) -> int:
        """The number that stands for an argument."""
        number = self.integer(argument)
        if self.holds(number):
            return number
        if self.refused is None:
            raise ValueError(f"{self.name}: {number:#x} is no number of {self.bits} bits")
        return self.refused

    def given(self, argument: Any) -> Tuple[int]:
        return (self.number(argument),)


class Flag(Parameter):
    """A bit, which any true value sets."""

    def __init__(self, name: str) -> None:
        super().__init__(name, c_uint8)

    def given(self, argument: Any) -> Tuple[int]:
        return (1 if argument else 0,)


class Course(Parameter):
    """A Setting, which knows itself what stands for limits out of range."""

    def __init__(self) -> None:
        super().__init__("setting", c_uint32)

    def given(self, argument: Any) -> Tuple[int]:
        return (argument.packed(),)


class Content(Parameter):
    """Bytes that the call reads."""

    def __init__(self, name: str) -> None:
        super().__init__(name, c_char_p, c_size_t)

    def given(self, argument: Any) -> Tuple[bytes, int]:
        content = bytes_of(argument, self.name)
        return content, len(content)


class Words(Parameter):
    """Words that the call reads."""

    def __init__(self, name: str) -> None:
        super().__init__(name, POINTER(c_uint64), c_size_t)

    def given(self, argument: Any) -> Tuple[Any, int]:
        words = words_of(argument, self.name)
        return words, len(words)


class Bits(Parameter):
    """Disable bits that the call reads: as they are lent, or other bytes."""

    def __init__(self) -> None:
        super().__init__("bits", POINTER(c_uint8), c_size_t)

    def given(self, argument: Any) -> Tuple[Any, int]:
        if not is_lent(argument, c_uint8):
            content = bytes_of(argument, self.name)
            argument = (c_uint8 * len(content)).from_buffer_copy(content)
        return argument, len(argument)


class Lent(Parameter):
    """An array of ctypes that the call writes."""

    def __init__(self, name: str, kind: Any) -> None:
        super().__init__(name, POINTER(kind), c_size_t)
        self.kind = kind

    def given(self, argument: Any) -> Tuple[Any, int]:
        if not is_lent(argument, self.kind):
            wanted, found = f"c_uint{8 * ctypes.sizeof(self.kind)}", type(argument).__name__
            raise TypeError(f"{self.name}: an array of {wanted} is due, and not {found}")
        return argument, len(argument)


class Held(Parameter):
    """The words of a shelf."""

    def __init__(self) -> None:
        super().__init__("shelf", c_void_p)

    def given(self, argument: Any) -> Tuple[Any]:
        if not isinstance(argument, ShelfWords):
            found = type(argument).__name__
            raise TypeError(f"shelf: words of shelf_words are due, and not {found}")
        return (argument.lent,)
