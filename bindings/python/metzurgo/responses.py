"""SMP responses as smp_rep_general --raw and smp_discover --raw write them.

A file holds one response, or several after each other (smp_discover --multiple). Its
function (byte 1) and RESPONSE LENGTH (byte 3) say how many bytes a response has; four
bytes of CRC may follow each. Of a phy that is vacant, smp_discover writes the first
four bytes alone, and with --multiple a line of text after them.
"""

import re
from typing import List, NamedTuple, Optional, Set, Tuple

GENERAL, DISCOVER = 0x00, 0x10  # functions
PHY_DOES_NOT_EXIST = 0x10  # a function result
SHORT = {GENERAL: 28, DISCOVER: 52}
LONG = {GENERAL: 0x10, DISCOVER: 0x0F}  # RESPONSE LENGTH of the long form in a domain file
NAMES = {GENERAL: "REPORT GENERAL", DISCOVER: "DISCOVER"}
CRC = 4
REMARK = re.compile(rb"  phy +[0-9]+: inaccessible \([^)\n]*\)\n")


class Response(NamedTuple):
    """A response, without CRC."""

    frame: bytes
    source: str  # the file that it is from

    @property
    def function(self) -> int:
        return self.frame[1]

    @property
    def result(self) -> int:
        return self.frame[2]


class ResponseError(Exception):
    """A file does not hold responses, or they make no rig."""


def sizes(head: bytes) -> List[int]:
    """The bytes that a response can have, by its first four.

    >>> sizes(bytes([0x41, 0x00, 0, 0x00])), sizes(bytes([0x41, 0x10, 0, 0x0F]))
    ([28], [64])
    >>> sizes(bytes([0x41, 0x10, 0x16, 0x00]))
    [52, 4]
    >>> sizes(bytes([0x40, 0x10, 0, 0]))
    []
    """
    if len(head) < 4 or head[0] != 0x41 or head[1] not in SHORT:
        return []
    if head[3]:
        return [4 + 4 * head[3]]
    return [SHORT[head[1]]] + ([4] if head[2] else [])


def split(content: bytes, source: str) -> List[Response]:
    """The responses of a file, with or without CRC.

    >>> one = bytes([0x41, 0x10, 0x16, 0x00])
    >>> [response.result for response in split(one + one, "file")]
    [22, 22]
    >>> len(split(one + bytes.fromhex("01020304"), "file"))
    1
    >>> len(split(one + b"  phy   3: inaccessible (Phy vacant)\\n" + one, "file"))
    2
    """
    content = REMARK.sub(b"", content)
    for tail in (0, CRC):
        found = divide(content, tail)
        if found is not None:
            return [Response(content[at : at + size], source) for at, size in found]
    if not content:
        raise ResponseError(f"{source}: the file is empty")
    if not sizes(content[:4]):
        raise ResponseError(
            f"{source}: this is no response to REPORT GENERAL or DISCOVER"
            f" (it begins with {content[:4].hex(' ')})"
        )
    stated = " or ".join(map(str, sizes(content[:4])))
    raise ResponseError(
        f"{source}: the response states {stated} bytes, and the file has {len(content)}"
    )


def divide(content: bytes, tail: int) -> Optional[List[Tuple[int, int]]]:
    """Where the responses of a file begin, and their sizes, each with a tail behind it."""
    hopeless: Set[int] = set()
    found: List[Tuple[int, int]] = []
    choices = [iter(sizes(content[:4]))]
    at = 0
    while choices:
        size = next(choices[-1], None)
        if size is None:
            hopeless.add(at)
            choices.pop()
            if found:
                at = found.pop()[0]
            continue
        end = at + size + tail
        if end == len(content):
            return found + [(at, size)]
        if end < len(content) and end not in hopeless:
            found.append((at, size))
            at = end
            choices.append(iter(sizes(content[at : at + 4])))
    return None


def for_file(response: Response) -> Tuple[bytes, Optional[str]]:
    """The frame as it stands in a domain file, and what was changed, or None.

    A vacant phy's four bytes are filled up with zeros. A response longer than those
    that a domain file has is cut to the short form, with byte 3 zero: its fields are
    at the same places.

    >>> frame, changed = for_file(Response(bytes([0x41, 0x10, 0, 0x1C]) + bytes(112), "phy3"))
    >>> len(frame), frame[3], changed
    (52, 0, 'a DISCOVER response of 116 bytes is cut to 52')
    """
    frame, function = response.frame, response.function
    short = SHORT[function]
    if frame[3] in (0, LONG[function]):
        return frame + bytes(max(0, short - len(frame))), None
    if len(frame) < short:
        raise ResponseError(
            f"{response.source}: a {NAMES[function]} response of {len(frame)} bytes"
            f" is shorter than {short}"
        )
    changed = f"a {NAMES[function]} response of {len(frame)} bytes is cut to {short}"
    return frame[:3] + b"\x00" + frame[4:short], changed
