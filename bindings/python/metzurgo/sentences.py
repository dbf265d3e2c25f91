"""A sentence for each refusal: what is wrong, where, and what to change.

The library refuses; these sentences say it in the names of the text. Where a number
has several causes, the fields that the library read tell which one it was.
"""

from typing import Callable, Dict, List, NamedTuple, Optional

from .answers import Refusal
from .library import library
from .rig import Expander, Phy, Rig, address_text


class Told(NamedTuple):
    """What is wrong, what to change, and the line of the text."""

    wrong: str
    change: str
    line: Optional[int] = None


# What each number means in general, and what to change.
GENERAL: Dict[int, Told] = {
    1: Told(
        "the file ends too early, or has bytes after its last phy",
        "make the file as long as its counts and frames say",
    ),
    2: Told(
        "a fixed byte of the file or of a frame is wrong",
        "put in the response that the expander sent",
    ),
    3: Told(
        "there are too few or too many expanders or phys, or a shelf is told what it cannot be",
        "keep to the limits of the course, and of a shelf",
    ),
    4: Told("an expander's address is zero or used already", "give it an address of its own"),
    5: Told(
        "a phy's identifier or own address does not fit its place",
        "put the responses in the order of the phys, each with its own expander",
    ),
    6: Told(
        "a type or attribute is reserved, or an attached address is zero",
        "use type 0 to 3, attribute 0 to 2, and the address of what is attached",
    ),
    7: Told(
        "a cable to an expander is on a direct phy, or its far end does not name it back",
        "cable table or subtractive phys, and describe both ends of the cable alike",
    ),
    8: Told(
        "a drive has an expander's address, or is at an earlier expander too",
        "attach each drive to one expander, under an address of its own",
    ),
    9: Told(
        "two phys to one address have different attributes, or two subtractive phys lead to"
        " different addresses",
        "give the phys of a wide link one attribute, and an expander one subtractive neighbour",
    ),
    10: Told("a table phy is on an expander that is not configurable", "make it configurable"),
    11: Told("the cables form a loop", "pull one cable of the loop"),
    12: Told("an expander is not joined to expander 0", "cable it to one that is"),
    14: Told(
        "a table phy has more entries to hold than its expander has route indexes",
        "set R higher, or attach fewer devices beyond that phy",
    ),
    15: Told(
        "a request starts at no expander of the file or at a phy that no drive is attached to,"
        " or a loading frame names a phy above 127",
        "start at an expander or at a drive, and load phys 0 to 127",
    ),
    16: Told("a lent buffer is too short", "lend as many elements as the call needs"),
    17: Told("the requested address is zero", "ask for the address of a device"),
    18: Told("there are fewer disable bits than table words", "lend one bit for each table word"),
    19: Told(
        "the card's version, a zero bit, a result or its length is wrong",
        "make the card again from its domain file",
    ),
    20: Told(
        "the phy of the event does not exist, is vacant or is attached to an expander",
        "name a phy that is empty or has a drive",
    ),
    21: Told(
        "a phy of the joining cable does not exist, is vacant, is not subtractive or is attached,"
        " or its expander has an attached subtractive phy",
        "join the rigs at two empty subtractive phys",
    ),
    22: Told(
        "the course's setting is out of its range",
        "set most expanders to 1 to 64, most phys to 1 to 128 and the longest chain to 1 to 64",
    ),
    23: Told(
        "a chain of cabled expanders is longer than the course allows",
        "shorten it, or judge by a course that allows it",
    ),
    24: Told(
        "no rig of two expanders has this table",
        "leave out the two expanders' addresses, and have at most 127 words up to the last that is"
        " not zero",
    ),
}


def sentence(rig: Rig, refusal: Refusal) -> str:
    """What is wrong, with the names of the text, and what to change.

    >>> from metzurgo import PAIR
    >>> rig = Rig.of_text(PAIR.replace(" configurable", ""))
    >>> sentence(rig, Refusal(10, 0, 0))
    'Phy 0 of top is a table phy, and top is not configurable: make top configurable.'
    """
    told = tell(rig, refusal)
    return f"{told.wrong[:1].upper()}{told.wrong[1:]}: {told.change}."


def tell(rig: Rig, refusal: Refusal) -> Told:
    """The sentence's parts: by the fields of the place, or in general."""
    teller = TELLERS.get(refusal.number)
    if rig.card is not None and not rig.file:
        teller = CARD_TELLERS.get(refusal.number, teller)
    if refusal.named:
        teller = NAMED_TELLERS.get(refusal.number, teller)
    place = refusal.named or (refusal.expander, refusal.phy)
    told = teller(rig, *place) if teller else None
    unknown = Told(f"the call was refused with {refusal.number}", "see docs/FILE-FORMAT.md")
    return told if told is not None else GENERAL.get(refusal.number, unknown)


def line_of(rig: Rig, refusal: Refusal) -> Optional[int]:
    """The line of the text that a refusal is about."""
    return tell(rig, refusal).line


def frame_sentence(frame: bytes, refusal: Refusal) -> str:
    """Why a CONFIGURE ROUTE INFORMATION request is refused, and what to change.

    >>> frame_sentence(bytes(39), Refusal(1, 0, 0))
    'The frame has 39 bytes: a request has 40, and 44 with CRC.'
    >>> frame_sentence(bytes([0x40, 0x91]) + bytes(38), Refusal(2, 0, 0))
    'Byte 1 of the frame is 91h: it has to be 90h.'
    >>> frame_sentence(bytes(9) + b"\\xc8" + bytes(30), Refusal(15, 0, 0))
    'The frame names phy 200: phys are 0 to 127.'
    """
    if refusal.number == 1:
        return f"The frame has {plural(len(frame), 'byte')}: a request has 40, and 44 with CRC."
    if refusal.number == 2:
        for at, allowed in ROUTE_FIXED.items():
            if frame[at] not in allowed:
                should = " or ".join(map(byte_text, allowed))
                return f"Byte {at} of the frame is {byte_text(frame[at])}: it has to be {should}."
    if refusal.number == 15:
        return f"The frame names phy {frame[9]}: phys are 0 to 127."
    return f"The frame was refused with {refusal.number}: see docs/FILE-FORMAT.md."


def shelf_sentence(name: str, phys: int, indexes: int) -> str:
    """Why a shelf cannot be told so many phys and route indexes, and what to change.

    >>> shelf_sentence("top", 24, 64)
    'top has 24 phys: a shelf has 1 to 16.'
    >>> shelf_sentence("The shelf", 4, 65)
    'The shelf has R 65: a shelf has R 0 to 64.'
    """
    if not 1 <= phys <= 16:
        return f"{name} has {plural(phys, 'phy')}: a shelf has 1 to 16."
    return f"{name} has R {indexes}: a shelf has R 0 to 64."


# Words.


def plural(count: int, one: str, many: str = "") -> str:
    """
    >>> plural(1, "table"), plural(4, "entry", "entries")
    ('1 table', '4 entries')
    """
    return f"{count} {one if count == 1 else many or one + 's'}"


def phys_text(numbers: List[int]) -> str:
    """
    >>> phys_text([3]), phys_text([0, 1, 2, 3]), phys_text([0, 2, 3])
    ('phy 3', 'phys 0-3', 'phys 0, 2-3')
    """
    runs: List[List[int]] = []
    for number in numbers:
        if runs and runs[-1][-1] + 1 == number:
            runs[-1].append(number)
        else:
            runs.append([number])
    parts = [f"{run[0]}-{run[-1]}" if len(run) > 1 else str(run[0]) for run in runs]
    return ("phy " if len(numbers) == 1 else "phys ") + ", ".join(parts)


def byte_text(value: int) -> str:
    """
    >>> byte_text(17)
    '11h'
    """
    return f"{value:02X}h"


def phy_at(rig: Rig, expander: int, phy: int) -> Optional[Phy]:
    """The phy of a place, as far as the file could be read."""
    if expander < len(rig.expanders) and phy < len(rig.expanders[expander].phys):
        return rig.expanders[expander].phys[phy]
    return None


def owner(rig: Rig, address: int) -> Optional[Expander]:
    """The first expander that has an address."""
    return next((found for found in rig.expanders if found.address == address), None)


# The fixed bytes of a CONFIGURE ROUTE INFORMATION request, in the order in which they are tested.
ROUTE_FIXED = {0: (0x40,), 1: (0x90,), 3: (0x00, 0x09)}


# The tellers, by number. Each says None where the fields do not show the cause.


def unit_of(rig: Rig, expander: int, phy: int) -> Optional[int]:
    """The phy of the place of 1 and 2, or None where it is the expander's own unit."""
    return phy if rig.start(expander, phy) is not None else None


def unit_name(rig: Rig, expander: int, phy: Optional[int]) -> str:
    if phy is None:
        return f"the REPORT GENERAL response of {rig.expander_name(expander)}"
    return f"the DISCOVER response of {rig.phy_name(expander, phy)}"


def tell_length(rig: Rig, expander: int, phy: int) -> Optional[Told]:
    if len(rig.file) < 2:
        return Told(
            f"the file has {plural(len(rig.file), 'byte')} and ends within its header",
            "a domain file begins with 10h and the number of its expanders",
        )
    altered = rig.text is not None and rig.text.cut is not None
    if expander == rig.file[1]:
        change = "remove them, or count the expanders that they belong to in the header"
        return Told("bytes follow the last phy that the file counts", change)
    part = unit_of(rig, expander, phy)
    name = unit_name(rig, expander, part)
    change = "remove the line that cuts the file" if altered else "put the whole response in"
    if part is None and rig.start(expander) == len(rig.file):
        counted = plural(rig.file[1], "expander")
        return Told(
            f"the header counts {counted}, and the file ends before expander {expander}",
            "remove the line that cuts the file"
            if altered
            else "count the expanders that are there, or add those that are missing",
        )
    return Told(f"the file ends within {name}", change, rig.line_of(expander, part))


FIXED = {
    None: {3: (0x00, 0x10), 0: (0x41,), 1: (0x00,), 2: (0x00,)},
    "phy": {3: (0x00, 0x0F), 0: (0x41,), 1: (0x10,)},
}


def tell_fixed(rig: Rig, expander: int, phy: int) -> Optional[Told]:
    if rig.file[0] != 0x10:
        return Told(
            f"the first byte of the file is {byte_text(rig.file[0])}",
            "a domain file begins with 10h",
        )
    part = unit_of(rig, expander, phy)
    start = rig.start(expander, part)
    if start is None:
        return None
    at = start + (8 if part is None else 0)
    for number, allowed in FIXED[None if part is None else "phy"].items():
        if at + number < len(rig.file) and rig.file[at + number] not in allowed:
            should = " or ".join(map(byte_text, allowed))
            return Told(
                f"byte {number} of {unit_name(rig, expander, part)}"
                f" is {byte_text(rig.file[at + number])}",
                f"it has to be {should}",
                rig.line_of(expander, part),
            )
    return None


def tell_counts(rig: Rig, expander: int, phy: int) -> Optional[Told]:
    most, phys, _ = rig.setting
    count = rig.file[1]
    if not 1 <= count <= most:
        return Told(
            f"the header counts {plural(count, 'expander')}",
            f"there have to be 1 to {most} in this course",
        )
    if expander >= len(rig.expanders):
        return None
    start = rig.start(expander) or 0
    counted = rig.file[start + 17]
    name = rig.expander_name(expander)
    return Told(
        f"expander {name} has {plural(counted, 'phy')}",
        f"an expander has 1 to {phys} in this course",
        rig.line_of(expander),
    )


def tell_address(rig: Rig, expander: int, phy: int) -> Optional[Told]:
    start = rig.start(expander)
    if start is None:
        return None
    address = int.from_bytes(rig.file[start : start + 8], "big")
    name, line = rig.expander_name(expander), rig.line_of(expander)
    if address == 0:
        return Told(f"the address of {name} is zero", f"give {name} its SAS address", line)
    other = owner(rig, address)
    if not other or other.number >= expander:
        return None
    return Told(
        f"expander {name} has the address of {other.name}, {address_text(address)}",
        f"give {name} an address of its own",
        line,
    )


def tell_identity(rig: Rig, expander: int, phy: int) -> Optional[Told]:
    found = phy_at(rig, expander, phy)
    if not found:
        return None
    name = rig.phy_name(expander, phy)
    if found.identifier != phy:
        return Told(
            f"the response of {name} says that it is phy {found.identifier}",
            f"put the response of phy {phy} there",
            found.line,
        )
    own = rig.expander_name(expander)
    return Told(
        f"the response of {name} bears the address {address_text(found.own)} as its own,"
        f" and {own} has {address_text(rig.expanders[expander].address)}",
        f"put a response of {own} there",
        found.line,
    )


def tell_codes(rig: Rig, expander: int, phy: int) -> Optional[Told]:
    found = phy_at(rig, expander, phy)
    if not found:
        return None
    name = rig.phy_name(expander, phy)
    if found.type > 3:
        return Told(
            f"the attached device type at {name} is {found.type}, a reserved code",
            "it has to be 0 (nothing), 1 (drive), 2 or 3 (expander)",
            found.line,
        )
    if found.attribute > 2:
        return Told(
            f"the routing attribute of {name} is {found.attribute}, a reserved code",
            "it has to be 0 (direct), 1 (subtractive) or 2 (table)",
            found.line,
        )
    return Told(
        f"something with address zero is attached to {name}",
        "give the address of what is attached, or make the phy empty",
        found.line,
    )


def tell_cable(rig: Rig, expander: int, phy: int) -> Optional[Told]:
    found = phy_at(rig, expander, phy)
    if not found:
        return None
    name, line = rig.phy_name(expander, phy), found.line
    if found.kind == "direct":
        return Told(
            f"{name} is a direct phy, and it is cabled to the expander"
            f" {rig.label(found.attached)}",
            "make it a table or subtractive phy, or attach a drive there",
            line,
        )
    far = owner(rig, found.attached)
    if not far:
        return Told(
            f"{name} is cabled to an expander {address_text(found.attached)},"
            " which the rig does not have",
            "add that expander, or pull the cable",
            line,
        )
    other = phy_at(rig, far.number, found.attached_phy)
    if not other:
        return Told(
            f"{name} is cabled to phy {found.attached_phy} of {far.name}, which has no such phy",
            f"cable it to a phy of {far.name}",
            line,
        )
    far_name = rig.phy_name(far.number, other.number)
    says = (
        "is vacant"
        if other.vacant
        else f"says that phy {other.attached_phy} of {rig.label(other.attached)} is there"
        if other.at_expander
        else "says that no expander is there"
    )
    return Told(
        f"{name} is cabled to {far_name}, which {says}",
        f"let {far_name} name {name}",
        line,
    )


def tell_drive(rig: Rig, expander: int, phy: int) -> Optional[Told]:
    found = phy_at(rig, expander, phy)
    if not found:
        return None
    name = rig.phy_name(expander, phy)
    bearer = owner(rig, found.attached)
    if bearer:
        return Told(
            f"the drive at {name} has the address of the expander {bearer.name}",
            "give the drive an address of its own, or describe the cable as one to an expander",
            found.line,
        )
    for other in rig.expanders[:expander]:
        for earlier in other.phys:
            if earlier.at_drive and earlier.attached == found.attached:
                drive = rig.label(found.attached)
                return Told(
                    f"drive {drive} is attached to {name} and to"
                    f" {rig.phy_name(other.number, earlier.number)}",
                    "attach a drive to one expander only",
                    found.line,
                )
    return None


def tell_attributes(rig: Rig, expander: int, phy: int) -> Optional[Told]:
    found = phy_at(rig, expander, phy)
    if not found:
        return None
    name = rig.phy_name(expander, phy)
    for other in rig.expanders[expander].phys[:phy]:
        if other.vacant or not other.type:
            continue
        if other.attached == found.attached and other.attribute != found.attribute:
            return Told(
                f"{name} is {found.kind} and phy {other.number} is {other.kind},"
                f" and both lead to {rig.label(found.attached)}",
                "give both the same attribute",
                found.line,
            )
        if other.kind == found.kind == "subtractive" and other.attached != found.attached:
            return Told(
                f"{name} and phy {other.number} are both subtractive, and lead to"
                f" {rig.label(found.attached)} and {rig.label(other.attached)}",
                "make one of them a table phy",
                found.line,
            )
    return None


def tell_configurable(rig: Rig, expander: int, phy: int) -> Optional[Told]:
    name = rig.expander_name(expander)
    return Told(
        f"{rig.phy_name(expander, phy)} is a table phy, and {name} is not configurable",
        f"make {name} configurable",
        rig.line_of(expander, phy),
    )


def neighbours(rig: Rig) -> List[List[int]]:
    """The neighbours of each expander, as the wiring call gives them."""
    words = library().wire(rig.setting, rig.file)
    return [[other for other in range(64) if word >> other & 1] for word in words]


def tell_loop(rig: Rig, expander: int, phy: int) -> Optional[Told]:
    ring = loop(neighbours(rig))
    if not ring:
        return None
    names = ", ".join(map(rig.expander_name, ring))
    if len(ring) == 1:
        return Told(f"a cable joins {names} to itself", "pull it")
    return Told(f"the cables between {names} form a loop", "pull one of them")


def loop(near: List[List[int]]) -> List[int]:
    """The expanders of a loop, in its order.

    >>> loop([[1], [0, 2, 3], [1, 3], [1, 2]])
    [1, 2, 3]
    >>> loop([[1], [0]])
    []
    """
    for start, others in enumerate(near):
        if start in others:
            return [start]
    for start in range(len(near)):
        parent = {start: start}
        order = [start]
        for at in order:
            for other in near[at]:
                if other not in parent:
                    parent[other] = at
                    order.append(other)
                elif parent[at] != other and parent[other] != at:
                    ring = common(parent, at, other)
                    if ring[0] == start:
                        return ring
    return []


def common(parent: Dict[int, int], first: int, second: int) -> List[int]:
    """The ring that a cable between two expanders closes in a tree."""

    def up(at: int) -> List[int]:
        path = [at]
        while parent[path[-1]] != path[-1]:
            path.append(parent[path[-1]])
        return path

    one, two = up(first), up(second)
    while len(one) > 1 and len(two) > 1 and one[-2:-1] == two[-2:-1]:
        one.pop()
        two.pop()
    return one[::-1] + two[:-1]


def tell_island(rig: Rig, expander: int, phy: int) -> Optional[Told]:
    name = rig.expander_name(expander)
    return Told(
        f"no chain of cables joins {name} to {rig.expander_name(0)}",
        f"cable {name}, or an expander that it is joined to, to the others",
        rig.line_of(expander),
    )


def tell_list(rig: Rig, expander: int, phy: int) -> Optional[Told]:
    if not phy_at(rig, expander, phy):
        return None
    name = rig.expander_name(expander)
    least = least_indexes(rig, expander)
    change = f"set R of {name} to {least} or more, or attach fewer devices beyond it"
    if least is None:
        change = "attach fewer devices beyond it"
    return Told(
        f"{rig.phy_name(expander, phy)} has more entries to hold than the R of {name},"
        f" which is {rig.expanders[expander].indexes}",
        change,
        rig.line_of(expander, phy),
    )


def least_indexes(rig: Rig, expander: int) -> Optional[int]:
    """The smallest R of an expander at which the library refuses none of its tables with 14."""
    start = rig.start(expander)
    if start is None:
        return None

    def enough(indexes: int) -> bool:
        assert start is not None
        file = bytearray(rig.file)
        file[start + 14 : start + 16] = indexes.to_bytes(2, "big")
        try:
            library().judge(rig.setting, bytes(file))
        except Refusal as refusal:
            return (refusal.number, refusal.expander) != (14, expander)
        return True

    low, high = rig.expanders[expander].indexes + 1, 65535
    if not enough(high):
        return None
    while low < high:
        middle = (low + high) // 2
        low, high = (low, middle) if enough(middle) else (middle + 1, high)
    return low


def tell_start(rig: Rig, expander: int, phy: int) -> Optional[Told]:
    """Why no request can start at a place."""
    change = "a request may start only at an expander or at a phy with an end device"
    missing = missing_phy(rig, expander, phy)
    if missing:
        return missing._replace(change=change)
    found = rig.expanders[expander].phys[phy]
    name = rig.phy_name(expander, phy)
    if found.vacant:
        return Told(f"{name} is vacant", change, found.line)
    if found.at_expander:
        return Told(f"{name} leads to the expander {rig.label(found.attached)}", change, found.line)
    return Told(f"{name} is empty", change, found.line)


def tell_event(rig: Rig, expander: int, phy: int) -> Optional[Told]:
    """Why no drive can be plugged into a phy or pulled from it."""
    missing = missing_phy(rig, expander, phy)
    if missing:
        return missing
    found = rig.expanders[expander].phys[phy]
    name, change = rig.phy_name(expander, phy), GENERAL[20].change
    if found.vacant:
        return Told(f"{name} is vacant", change, found.line)
    if found.at_expander:
        cabled = f"{name} is cabled to the expander {rig.label(found.attached)}"
        return Told(cabled, change, found.line)
    return None


def tell_join(rig: Rig, expander: int, phy: int) -> Optional[Told]:
    """Why a phy cannot be cabled to another rig; None where it can."""
    missing = missing_phy(rig, expander, phy)
    if missing:
        return missing
    found = rig.expanders[expander].phys[phy]
    name, change = rig.phy_name(expander, phy), GENERAL[21].change
    if found.vacant:
        return Told(f"{name} is vacant", change, found.line)
    if found.kind != "subtractive":
        return Told(f"{name} is a {found.kind} phy", change, found.line)
    if found.type:
        attached = f"{name} is attached to {rig.label(found.attached)}"
        return Told(attached, change, found.line)
    for other in rig.expanders[expander].phys:
        if not other.vacant and other.type and other.kind == "subtractive":
            return Told(
                f"phy {other.number} of {rig.expander_name(expander)} is subtractive, too, and"
                f" attached to {rig.label(other.attached)}",
                "join the rigs at an expander without an attached subtractive phy",
                other.line,
            )
    return None


def missing_phy(rig: Rig, expander: int, phy: int) -> Optional[Told]:
    """That there is no such expander, or no such phy of it."""
    count = len(rig.expanders)
    if not 0 <= expander < count:
        most = f"expanders 0 to {count - 1}" if count > 1 else "expander 0 alone"
        return Told(f"there is no expander {expander}", f"the rig has {most}")
    count = len(rig.expanders[expander].phys)
    if not 0 <= phy < count:
        most = f"phys 0 to {count - 1}" if count > 1 else "phy 0 alone"
        name = rig.expander_name(expander)
        return Told(f"expander {name} has no phy {phy}", f"it has {most}", rig.line_of(expander))
    return None


def tell_setting(rig: Rig, expander: int, phy: int) -> Optional[Told]:
    return Told(f"the course's setting {rig.setting} is out of its range", GENERAL[22].change)


def tell_chain(rig: Rig, expander: int, phy: int) -> Optional[Told]:
    chain = longest(neighbours(rig))
    names = ", ".join(map(rig.expander_name, chain))
    return Told(
        f"the chain {names} has {plural(len(chain), 'expander')},"
        f" and the course allows {rig.setting.chain}",
        GENERAL[23].change,
    )


def longest(near: List[List[int]]) -> List[int]:
    """A longest chain of a tree.

    >>> longest([[1], [0, 2, 3], [1], [1, 4], [3]])
    [4, 3, 1, 0]
    """

    def furthest(start: int) -> List[int]:
        paths = [[start]]
        for path in paths:
            before = path[-2] if len(path) > 1 else None
            paths.extend(path + [other] for other in near[path[-1]] if other != before)
        return max(paths, key=len)

    return furthest(furthest(0)[-1]) if near else []


# Cards that no file can be made of.


def tell_card(rig: Rig, expander: int, phy: int) -> Optional[Told]:
    card = rig.card or b""
    if len(card) < 2:
        return Told(f"the card has {plural(len(card), 'byte')}", "put the whole card in")
    if card[0] >> 4 != 2:
        return Told(f"the card begins with the bits {card[0] >> 4:04b}", "it has to be 0010")
    if card[1] & 0x3F:
        return Told(
            f"bits 10 to 15 of the card are {card[1] & 0x3F:06b}", "they have to be 000000"
        )
    return Told(
        "the card is cut or has bytes too many, or a bit that fills its last byte is set, or a"
        " vacant phy has result zero",
        "put the whole card in, as it was made",
    )


def tell_card_counts(rig: Rig, expander: int, phy: int) -> Optional[Told]:
    return Told("the card has more expanders or phys than the course allows", GENERAL[3].change)


def tell_card_address(rig: Rig, expander: int, phy: int) -> Optional[Told]:
    name = rig.expander_name(expander)
    return Told(
        f"the address of {name} is zero on the card, or an earlier expander has it",
        GENERAL[4].change,
    )


def tell_card_codes(rig: Rig, expander: int, phy: int) -> Optional[Told]:
    return Told(
        f"{rig.phy_name(expander, phy)} has a reserved type or attribute on the card, or is"
        " attached to address zero",
        GENERAL[6].change,
    )


CARD_TELLERS: Dict[int, Callable[[Rig, int, int], Optional[Told]]] = {
    3: tell_card_counts,
    4: tell_card_address,
    6: tell_card_codes,
    19: tell_card,
}

# Of refusals whose place is that of the call alone.
NAMED_TELLERS: Dict[int, Callable[[Rig, int, int], Optional[Told]]] = {15: tell_start}

TELLERS: Dict[int, Callable[[Rig, int, int], Optional[Told]]] = {
    1: tell_length,
    2: tell_fixed,
    3: tell_counts,
    4: tell_address,
    5: tell_identity,
    6: tell_codes,
    7: tell_cable,
    8: tell_drive,
    9: tell_attributes,
    10: tell_configurable,
    11: tell_loop,
    12: tell_island,
    14: tell_list,
    20: tell_event,
    21: tell_join,
    22: tell_setting,
    23: tell_chain,
}
