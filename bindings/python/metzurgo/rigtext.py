"""The text form of a rig (docs/RIG-TEXT.md): texts read, domain files printed as texts.

All errors in a text are kept, each with its line. What looks like a slip of the pen is
a warning, or an error where the reader is strict. Whether a rig can work is not tested
here: that is for the library.

>>> file = build("expander only 5000000000000010\\n  phy 0 direct empty\\n")
>>> len(file), print_file(file)[0]
(90, 'expander E0 5000000000000010 R 0\\n  phy 0 direct empty\\n')
"""

import re
from typing import Any, Callable, Dict, Iterator, List, Optional, Set, Tuple, Union

FORM = """\
the lines of a text (docs/RIG-TEXT.md describes them; # starts a comment):

  drive NAME ADDRESS
  expander NAME ADDRESS [R NUMBER] [configurable] [fanout] [long]
  phy NUMBER ATTRIBUTE [to NAME.PHY | to DRIVE | empty] [long]
  phy NUMBER vacant [RESULT] [long]

An attribute is direct, subtractive or table. What stands after an expander's
address or a phy's number may stand in any order. A cable between expanders may be
named at one end or at both. FIRST-LAST in place of a phy number means several. On
an expander's line long makes its REPORT GENERAL response a long one, on a phy's
line its DISCOVER response.

lines that alter the file after it is laid out, for files that are to be refused:

  set header byte 0 VALUE          set header count VALUE
  set NAME byte 0..3 VALUE         set NAME phys VALUE
  set NAME.PHY byte 0|1|3 VALUE    set NAME.PHY FIELD VALUE
  cut LENGTH                       append BYTES

FIELD is identifier, type, attribute, own, attached or attached-phy."""

# Fields by their names; a field is a number, or True or False.
Fields = Dict[str, Any]
Settable = Dict[str, Optional[int]]

ATTRIBUTES = ("direct", "subtractive", "table")
END_DEVICE, EDGE_EXPANDER, FANOUT_EXPANDER = 1, 2, 3
VACANT = 0x16  # the SMP function result PHY VACANT
MOST = 255  # expanders and phys: their counts are one byte
NAME = r"[A-Za-z][A-Za-z0-9_-]*"
EXPANDER_FORM = (
    "an expander line is: expander NAME ADDRESS [R NUMBER] [configurable] [fanout] [long]"
)
PHY_FORM = (
    "a phy line is: phy NUMBER ATTRIBUTE [to NAME.PHY | to DRIVE | empty] [long],"
    " or: phy NUMBER vacant [RESULT] [long]"
)

# The fixed bytes of each unit, by the words of a set line.
HEADER_FIXED = {"byte 0": 0x10}
EXPANDER_FIXED = {"byte 0": 0x41, "byte 1": 0x00, "byte 2": 0x00, "byte 3": 0x00}
PHY_FIXED = {"byte 0": 0x41, "byte 1": 0x10, "byte 3": 0x00}

# Byte 3, RESPONSE LENGTH, of a long frame.
LONG_EXPANDER, LONG_PHY = 0x10, 0x0F

# What a set line can set, and the highest value (None: an address).
HEADER_SET: Settable = {**dict.fromkeys(HEADER_FIXED, 255), "count": 255}
EXPANDER_SET: Settable = {**dict.fromkeys(EXPANDER_FIXED, 255), "phys": 255}
PHY_SET: Settable = {
    **dict.fromkeys(PHY_FIXED, 255),
    "identifier": 255,
    "type": 7,
    "attribute": 15,
    "own": None,
    "attached": None,
    "attached-phy": 255,
}


def expander_fixed(long: bool) -> Dict[str, int]:
    return {**EXPANDER_FIXED, "byte 3": LONG_EXPANDER} if long else EXPANDER_FIXED


def phy_fixed(long: bool) -> Dict[str, int]:
    return {**PHY_FIXED, "byte 3": LONG_PHY} if long else PHY_FIXED


def expander_size(long: bool) -> int:
    """The bytes of an address and a REPORT GENERAL response."""
    return 8 + (68 if long else 28)


def phy_size(long: bool) -> int:
    """The bytes of a DISCOVER response."""
    return 64 if long else 52


class TextError(Exception):
    """An error in a text, with its line."""

    def __init__(self, line: int, message: str) -> None:
        super().__init__(f"line {line}: {message}")
        self.line = line


class TextErrors(Exception):
    """All errors in a text, in the order of their lines."""

    def __init__(self, errors: List[TextError]) -> None:
        super().__init__("\n".join(map(str, errors)))
        self.errors = errors


# ------------------------------------------------------------------ the rig


class Drive:
    type = END_DEVICE

    def __init__(self, name: str, address: Optional[int], line: int = 0) -> None:
        self.name, self.address, self.line = name, address, line


class Expander:
    def __init__(
        self,
        name: str,
        address: int,
        indexes: int = 0,
        configurable: bool = False,
        fanout: bool = False,
        long: bool = False,
        line: int = 0,
    ) -> None:
        self.name, self.address, self.line = name, address, line
        self.indexes, self.configurable, self.long = indexes, configurable, long
        self.type = FANOUT_EXPANDER if fanout else EDGE_EXPANDER
        self.phys: List[Phy] = []
        self.set: Fields = {}

    def phy(self, number: int) -> Optional["Phy"]:
        """The phy of this number, or None."""
        return next((phy for phy in self.phys if phy.number == number), None)

    def fields(self) -> Fields:
        return {
            **expander_fixed(self.long),
            "long": self.long,
            "address": self.address,
            "indexes": self.indexes,
            "phys": len(self.phys),
            "configurable": self.configurable,
            **self.set,
        }


class Phy:
    def __init__(
        self,
        expander: Expander,
        number: int,
        attribute: int = 0,
        result: int = 0,
        long: bool = False,
        line: int = 0,
    ) -> None:
        self.expander, self.number, self.line = expander, number, line
        self.attribute, self.result, self.long = attribute, result, long
        # What its own line says: None, "empty", or a drive or expander and its phy.
        self.named: Union[None, str, "End"] = None
        # What is attached, as far as ordinary lines say: None, or device and phy.
        self.attached: Optional["End"] = None
        self.set: Fields = {}
        self.found: Fields = {}  # the fields of a frame that was read

    def __str__(self) -> str:
        return f"{self.expander.name}.{self.number}"

    def fields(self) -> Fields:
        fields: Fields = {
            **phy_fixed(self.long),
            "long": self.long,
            "result": self.result,
            "identifier": self.number,
            "type": 0,
            "attribute": self.attribute,
            "own": self.expander.address,
            "attached": 0,
            "attached-phy": 0,
        }
        if self.attached:
            device, number = self.attached
            fields.update({"type": device.type, "attached": device.address})
            fields["attached-phy"] = number
        return {**fields, **self.set}


Device = Union[Drive, Expander]
End = Tuple[Device, int]  # a device and one of its phys


class Rig:
    """What a text says."""

    def __init__(self) -> None:
        self.drives: List[Drive] = []
        self.expanders: List[Expander] = []
        self.set: Fields = {}
        self.cut: Optional[int] = None
        self.appended = b""

    def fields(self) -> Fields:
        return {**HEADER_FIXED, "count": len(self.expanders), **self.set}

    def length(self) -> int:
        """The length of the file before it is cut."""
        return 2 + sum(
            expander_size(expander.long) + sum(phy_size(phy.long) for phy in expander.phys)
            for expander in self.expanders
        )

    def laid_out(self) -> bytes:
        """The file before it is cut."""
        parts = [header_unit(self.fields())]
        for expander in self.expanders:
            parts.append(expander_unit(expander.fields()))
            parts.extend(phy_unit(phy.fields()) for phy in expander.phys)
        return b"".join(parts)

    def file(self) -> bytes:
        return self.laid_out()[: self.cut] + self.appended


Unit = Union[Rig, Expander, Phy]


# ------------------------------------------------------------ units of a file


def header_unit(fields: Fields) -> bytes:
    return bytes([fields["byte 0"], fields["count"]])


def expander_unit(fields: Fields) -> bytes:
    """The address and a REPORT GENERAL response; ignored bytes are zero."""
    unit = bytearray(expander_size(fields["long"]))
    unit[0:8] = fields["address"].to_bytes(8, "big")
    for number in range(4):
        unit[8 + number] = fields[f"byte {number}"]
    unit[14:16] = fields["indexes"].to_bytes(2, "big")
    unit[17] = fields["phys"]
    unit[18] = int(fields["configurable"])
    return bytes(unit)


def phy_unit(fields: Fields) -> bytes:
    """A DISCOVER response; ignored bytes are zero."""
    unit = bytearray(phy_size(fields["long"]))
    for number in (0, 1, 3):
        unit[number] = fields[f"byte {number}"]
    unit[2] = fields["result"]
    if fields["result"] == 0:
        unit[9] = fields["identifier"]
        unit[12] = fields["type"] << 4
        unit[16:24] = fields["own"].to_bytes(8, "big")
        if fields["type"] != 0:
            unit[24:32] = fields["attached"].to_bytes(8, "big")
            unit[32] = fields["attached-phy"]
        unit[44] = fields["attribute"]
    return bytes(unit)


def expander_read(unit: bytes) -> Fields:
    return {
        **{f"byte {number}": unit[8 + number] for number in range(4)},
        "long": len(unit) == expander_size(True),
        "address": int.from_bytes(unit[0:8], "big"),
        "indexes": int.from_bytes(unit[14:16], "big"),
        "phys": unit[17],
        "configurable": unit[18] & 1 == 1,
    }


def phy_read(unit: bytes) -> Fields:
    return {
        **{f"byte {number}": unit[number] for number in (0, 1, 3)},
        "long": len(unit) == phy_size(True),
        "result": unit[2],
        "identifier": unit[9],
        "type": unit[12] >> 4 & 7,
        "own": int.from_bytes(unit[16:24], "big"),
        "attached": int.from_bytes(unit[24:32], "big"),
        "attached-phy": unit[32],
        "attribute": unit[44] & 15,
    }


# --------------------------------------------------------------- reading texts


def number(line: int, text: str, low: int, high: int, what: str) -> int:
    if re.fullmatch(r"[0-9]{1,9}", text):
        value = int(text)
    elif re.fullmatch(r"[0-9A-Fa-f]{1,8}h", text):
        value = int(text[:-1], 16)
    else:
        raise TextError(line, f'"{text}" is not a number ({what})')
    if not low <= value <= high:
        raise TextError(line, f"{what} is {low} to {high}, not {text}")
    return value


def address(line: int, text: str) -> int:
    match = re.fullmatch(r"(?:0x)?([0-9A-Fa-f]{16})|([0-9A-Fa-f]{16})h", text)
    if not match:
        raise TextError(line, f'"{text}" is not an address (16 hexadecimal digits)')
    return int(match[1] or match[2], 16)


def phy_numbers(line: int, text: str, high: int) -> List[int]:
    """The phys of NUMBER or FIRST-LAST."""
    lower, hyphen, upper = text.partition("-")
    first = number(line, lower, 0, high, "a phy number")
    if not hyphen:
        return [first]
    last = number(line, upper, 0, high, "a phy number")
    if last < first:
        raise TextError(line, f"{text} is not a range of phys (the lower number comes first)")
    return list(range(first, last + 1))


class Reader:
    """Reads a text into a rig. Its errors and warnings are kept, by line.

    What a line brings is kept before the rest of the line is tested, so that an error
    is seldom the cause of others.
    """

    def __init__(self, text: str, strict: bool = False) -> None:
        self.rig = Rig()
        self.errors: List[TextError] = []
        self.warnings: List[TextError] = []
        self.names: Dict[str, Device] = {}  # drives and expanders
        self.next_phy: Optional[int] = 0  # its number, or None after a number that cannot be read
        self.ends: List[
            Tuple[Phy, str, Optional[int]]
        ] = []  # a phy, its device's name, the phy number or None
        self.sets: List[Tuple[int, List[str]]] = []
        self.set_at: Dict[Tuple[Unit, str], int] = {}  # the line of each field that is set
        self.appended: List[bytes] = []
        self.cut: Optional[Tuple[int, int]] = None
        for line, content in enumerate(text.split("\n"), 1):
            words = content.partition("#")[0].split()
            if words:
                self.attempt(self.line, line, *words)
        for end in self.ends:
            self.attempt(self.join, *end)
        for phy, _, _ in self.ends:
            self.attempt(self.cable, phy)
        for line, words in self.sets:
            self.attempt(self.set, line, words)
        for (unit, field), line in self.set_at.items():
            self.attempt(self.check_set, line, unit, field)
        if self.cut:
            self.attempt(self.check_cut, *self.cut)
        self.rig.appended = b"".join(self.appended)
        for line, message in self.slips():
            if strict:
                self.errors.append(TextError(line, message))
            else:
                self.warnings.append(TextError(line, f"warning: {message}"))
        self.errors.sort(key=lambda error: error.line)
        self.warnings.sort(key=lambda warning: warning.line)

    def attempt(self, act: Callable[..., None], *arguments: Any) -> None:
        try:
            act(*arguments)
        except TextError as error:
            self.errors.append(error)

    def line(self, line: int, kind: str, *words: str) -> None:
        kinds = {
            "drive": self.drive,
            "expander": self.expander,
            "phy": self.phy,
            "set": self.set_later,
            "cut": self.cut_later,
            "append": self.append,
        }
        if kind not in kinds:
            known = ", ".join(kinds)
            raise TextError(line, f'"{kind}" is not the start of a line ({known})')
        kinds[kind](line, list(words))

    def new_name(self, line: int, name: str, device: Device) -> None:
        if not re.fullmatch(NAME, name):
            known = "a letter, then letters, digits, - or _"
            raise TextError(line, f'"{name}" is not a name ({known})')
        if name == "header":
            raise TextError(line, "header cannot be a name: set lines use it for the file's header")
        if name in self.names:
            raise TextError(line, f"the name {name} is taken (line {self.names[name].line})")
        self.names[name] = device

    def drive(self, line: int, words: List[str]) -> None:
        drive = Drive("".join(words[:1]), None, line)
        self.rig.drives.append(drive)
        if words:
            self.attempt(self.new_name, line, words[0], drive)
        if len(words) != 2:
            raise TextError(line, "a drive line is: drive NAME ADDRESS")
        drive.address = address(line, words[1])

    def expander(self, line: int, words: List[str]) -> None:
        expander = Expander("".join(words[:1]), 0, line=line)
        self.rig.expanders.append(expander)
        self.next_phy = 0
        if words:
            self.attempt(self.new_name, line, words[0], expander)
        if len(words) < 2:
            raise TextError(line, EXPANDER_FORM)
        if len(self.rig.expanders) > MOST:
            raise TextError(line, f"more than {MOST} expanders cannot be counted in a file")
        self.attempt(self.options, line, expander, words[2:])
        expander.address = address(line, words[1])

    def options(self, line: int, expander: Expander, words: List[str]) -> None:
        given: Dict[str, str] = {}
        rest = iter(words)
        for word in rest:
            known = word in ("R", "configurable", "fanout", "long") and word not in given
            given[word] = next(rest, "") if word == "R" else word
            if not known or not given[word]:
                raise TextError(line, EXPANDER_FORM)
        expander.configurable, expander.long = "configurable" in given, "long" in given
        expander.type = FANOUT_EXPANDER if "fanout" in given else EDGE_EXPANDER
        expander.indexes = number(line, given.get("R", "0"), 0, 65535, "R")

    def phy(self, line: int, words: List[str]) -> None:
        if not self.rig.expanders:
            raise TextError(line, "a phy line comes after the line of its expander")
        expander = self.rig.expanders[-1]
        expected, self.next_phy = self.next_phy, None
        if not words:
            raise TextError(line, PHY_FORM)
        numbers = phy_numbers(line, words[0], MOST - 1)
        self.next_phy = numbers[-1] + 1
        phys = [Phy(expander, number, line=line) for number in numbers]
        expander.phys.extend(phys)
        self.attempt(self.attribute, line, phys, words[1:])
        if expected not in (None, numbers[0]):
            raise TextError(
                line, f"the next phy of {expander.name} is {expected}, not {numbers[0]}"
            )

    def attribute(self, line: int, phys: List[Phy], words: List[str]) -> None:
        """The attribute of phys and what they are cabled to, or that they are vacant.

        One word may be long; after "to" it is a name.
        """
        before = [""] + words
        longs = [at for at, word in enumerate(words) if word == "long" and before[at] != "to"]
        if len(longs) > 1:
            raise TextError(line, PHY_FORM)
        words = [word for at, word in enumerate(words) if at not in longs]
        for phy in phys:
            phy.long = bool(longs)
        if words[:1] == ["to"]:
            words = words[2:] + words[:2]
        elif words[:1] == ["empty"]:
            words = words[1:] + words[:1]
        if not words:
            raise TextError(line, PHY_FORM)
        kind, *rest = words
        if kind == "vacant":
            if len(rest) > 1:
                raise TextError(line, PHY_FORM)
            result = VACANT
            if rest:
                result = number(line, rest[0], 1, 255, "the function result of a vacant phy")
            for phy in phys:
                phy.result = result
            return
        cabled = len(rest) == 2 and rest[0] == "to"
        if cabled:
            self.attempt(self.ends_of, line, phys, rest[1])
        if kind not in ATTRIBUTES:
            known = ", ".join(ATTRIBUTES)
            raise TextError(line, f'"{kind}" is not a routing attribute ({known}) or vacant')
        if rest and rest != ["empty"] and not cabled:
            raise TextError(line, PHY_FORM)
        for phy in phys:
            phy.attribute = ATTRIBUTES.index(kind)
            phy.named = "empty" if rest == ["empty"] else None

    def ends_of(self, line: int, phys: List[Phy], text: str) -> None:
        """Keeps the far ends of phys: NAME, NAME.PHY or NAME.FIRST-LAST."""
        name, dot, numbers = text.partition(".")
        if not re.fullmatch(NAME, name) or (dot and not numbers):
            raise TextError(line, f'"{text}" is neither NAME.PHY nor the name of a drive')
        far: List[Optional[int]] = [None]
        if dot:
            far = list(phy_numbers(line, numbers, 255))
        self.ends.extend((phy, name, number) for phy, number in zip(phys, far))
        if len(far) != len(phys):
            raise TextError(line, f"{len(phys)} phys here, but {len(far)} in {text}")

    def join(self, phy: Phy, name: str, far: Optional[int]) -> None:
        """Finds what is named."""
        device = self.names.get(name)
        if device is None:
            raise TextError(phy.line, f"there is no drive or expander named {name}")
        if isinstance(device, Drive):
            far = far or 0
        elif far is None:
            raise TextError(phy.line, f"{name} is an expander: name its phy too, as in {name}.0")
        elif not device.phy(far):
            raise TextError(phy.line, f"{name} has no phy {far}")
        phy.named = (device, far or 0)

    def cable(self, phy: Phy) -> None:
        """Attaches what was found, at both ends of a cable between expanders."""
        if not phy.named or isinstance(phy.named, str):
            return
        device, number = phy.named
        far = device.phy(number) if isinstance(device, Expander) else None
        if far:
            self.far_end(phy, far)
        phy.attached = phy.named

    def far_end(self, phy: Phy, far: Phy) -> None:
        near_end: End = (phy.expander, phy.number)
        if far.result:
            raise TextError(
                phy.line, f"{phy} is cabled to {far}, which is vacant (line {far.line})"
            )
        if far.named == "empty":
            raise TextError(phy.line, f"{phy} is cabled to {far}, which is empty (line {far.line})")
        end = far.attached if isinstance(far.named, str) else far.named or far.attached
        if end and end != near_end:
            other, number = end
            there = other.phy(number) if isinstance(other, Expander) else None
            line = far.line if far.named or not there else there.line
            raise TextError(
                phy.line,
                f"{phy} is cabled to {far}, which is cabled to {other.name}.{number}"
                f" (line {line})",
            )
        far.attached = near_end

    def slips(self) -> Iterator[Tuple[int, str]]:
        """What can be built and can hardly be meant: lines and messages."""
        drives = [device for device in self.names.values() if isinstance(device, Drive)]
        bearers: Dict[Optional[int], Drive] = {}
        for drive in drives:
            other = bearers.setdefault(drive.address, drive)
            if other is not drive and drive.address is not None:
                at = f"{other.name} (line {other.line})"
                yield drive.line, f"{drive.name} has the address of {at}"
        first: Dict[End, Phy] = {}
        for phy, _, _ in self.ends:
            if isinstance(phy.named, tuple) and phy.named[0] in drives:
                before = first.setdefault(phy.named, phy)
                if before is not phy:
                    at = f"{phy.named[0].name}.{phy.named[1]}"
                    yield phy.line, f"{phy} is cabled to {at}, as {before} is (line {before.line})"
        cabled = [drive for drive, _ in first]
        for drive in drives:
            if drive not in cabled:
                yield drive.line, f"no phy is cabled to {drive.name}"

    # Deviations.

    def set_later(self, line: int, words: List[str]) -> None:
        self.sets.append((line, words))

    def set(self, line: int, words: List[str]) -> None:
        if len(words) == 4 and words[1] == "byte":
            words = [words[0], f"byte {words[2]}", words[3]]
        if len(words) != 3:
            raise TextError(
                line, "a set line is: set PLACE FIELD VALUE, or: set PLACE byte NUMBER VALUE"
            )
        place, field, value = words
        unit, what, known = self.unit(line, place)
        if field not in known:
            raise TextError(
                line, f'"{field}" of {place} cannot be set (fields of {what}: {", ".join(known)})'
            )
        if (unit, field) in self.set_at:
            earlier = self.set_at[unit, field]
            raise TextError(line, f"{field} of {place} is already set (line {earlier})")
        self.set_at[unit, field] = line
        highest = known[field]
        if highest is None:
            unit.set[field] = address(line, value)
        else:
            unit.set[field] = number(line, value, 0, highest, field)

    def unit(self, line: int, place: str) -> Tuple[Unit, str, Settable]:
        """The header, expander or phy of a set line, and what can be set there."""
        if place == "header":
            return self.rig, "the header", HEADER_SET
        name, dot, digits = place.partition(".")
        expander = self.names.get(name)
        if not isinstance(expander, Expander):
            raise TextError(line, f"there is no expander named {name}")
        if not dot:
            return expander, "an expander", EXPANDER_SET
        phy_number = number(line, digits, 0, MOST, "a phy number")
        phy = expander.phy(phy_number)
        if not phy:
            raise TextError(line, f"{name} has no phy {phy_number}")
        if phy.result:
            return phy, "a vacant phy", dict.fromkeys(PHY_FIXED, 255)
        return phy, "a phy", PHY_SET

    def check_set(self, line: int, unit: Unit, field: str) -> None:
        """Where nothing is attached, the attached address and phy are ignored and not kept."""
        if field.startswith("attached") and unit.fields()["type"] == 0:
            raise TextError(line, f"nothing is attached at {unit}: set its type too")

    def cut_later(self, line: int, words: List[str]) -> None:
        if len(words) != 1:
            raise TextError(line, "a cut line is: cut LENGTH")
        if self.cut:
            raise TextError(line, f"the file is already cut (line {self.cut[0]})")
        self.cut = line, number(line, words[0], 0, 999_999_999, "a length")

    def check_cut(self, line: int, length: int) -> None:
        whole = self.rig.length()
        if length > whole:
            raise TextError(line, f"the file has {whole} bytes and cannot be cut to {length}")
        self.rig.cut = length

    def append(self, line: int, words: List[str]) -> None:
        for word in words or [""]:
            if not re.fullmatch(r"([0-9A-Fa-f]{2})+", word):
                raise TextError(
                    line, "an append line is: append BYTES (two hexadecimal digits each)"
                )
            self.appended.append(bytes.fromhex(word))


def build(text: str) -> bytes:
    """The domain file of a text."""
    reader = Reader(text)
    if reader.errors:
        raise TextErrors(reader.errors)
    return reader.rig.file()


# ------------------------------------------------------------ printing files


class Units:
    """The units of a domain file, taken from its front."""

    def __init__(self, file: bytes) -> None:
        self.file, self.at = file, len(file[:2])
        self.lost: List[int] = []  # the places of ignored bytes that are not zero

    def byte(self, number: int) -> Optional[int]:
        """A byte of the next unit, or None."""
        at = self.at + number
        return self.file[at] if at < len(self.file) else None

    def take(
        self,
        default: bytes,
        read: Callable[[bytes], Fields],
        laid_out: Callable[[Fields], bytes],
        fixed: Dict[str, int],
    ) -> Optional[Fields]:
        """The fields of the next unit, with missing bytes taken from the default.

        None where there is no byte, and where a fixed byte is wrong and ignored bytes are
        not zero: that is no frame.
        """
        present = self.file[self.at : self.at + len(default)]
        if not present:
            return None
        fields = read(present + default[len(present) :])
        plain = laid_out(fields)
        differ = [self.at + k for k, byte in enumerate(present) if byte != plain[k]]
        if differ and any(fields[name] != byte for name, byte in fixed.items()):
            return None
        self.lost.extend(differ)
        self.at += len(present)
        return fields


def read_file(file: bytes) -> Tuple[Rig, List[int]]:
    """The rig of a domain file, and the places of its ignored bytes that are not zero.

    Missing bytes of a unit that is cut short are taken as they would be built. A
    unit with a wrong fixed byte and with ignored bytes that are not zero is no
    frame: it is kept byte by byte, with all that follows.
    """
    rig = Rig()
    units = Units(file)
    head = file[:2] + bytes([0x10, 0])[len(file[:2]) :]
    while len(rig.expanders) < head[1] and read_expander(rig, units):
        pass
    attach(rig)
    for expander in rig.expanders:
        for phy in expander.phys:
            phy.set = differences(phy.fields(), phy.found)
    rig.set = differences(rig.fields(), {"byte 0": head[0], "count": head[1]})
    rig.appended = file[units.at :]
    if len(rig.laid_out()) > units.at:
        rig.cut = units.at
    return rig, units.lost


def read_expander(rig: Rig, units: Units) -> bool:
    """Reads the next expander and its phys; False where the file cannot be read on."""
    long = units.byte(11) == LONG_EXPANDER
    default = expander_unit(Expander("", 0, long=long).fields())
    found = units.take(default, expander_read, expander_unit, expander_fixed(long))
    if not found:
        return False
    expander = Expander(
        f"E{len(rig.expanders)}",
        found["address"],
        found["indexes"],
        found["configurable"],
        long=long,
    )
    rig.expanders.append(expander)
    while len(expander.phys) < found["phys"]:
        long = units.byte(3) == LONG_PHY
        phy = Phy(expander, len(expander.phys), result=units.byte(2) or 0, long=long)
        seen = units.take(phy_unit(phy.fields()), phy_read, phy_unit, phy_fixed(long))
        if not seen:
            break
        phy.found = seen
        expander.phys.append(phy)
    expander.set = differences(expander.fields(), found)
    return bool(len(expander.phys) == found["phys"])


def differences(built: Fields, found: Fields) -> Fields:
    """The fields to set so that what is built becomes what was found."""
    names = list(built)
    if built.get("result"):
        names = list(PHY_FIXED)
    elif found.get("type") == 0:
        names = [name for name in built if not name.startswith("attached")]
    return {name: found[name] for name in names if found[name] != built[name]}


def attach(rig: Rig) -> None:
    """Finds drives, cables that name each other, and fanout expanders."""
    drives: Dict[int, Drive] = {}
    owners: Dict[int, List[Expander]] = {}
    for expander in rig.expanders:
        owners.setdefault(expander.address, []).append(expander)
    for expander in rig.expanders:
        for phy in expander.phys:
            found = phy.found
            if phy.result:
                continue
            if found["attribute"] < len(ATTRIBUTES):
                phy.attribute = found["attribute"]
            if found["type"] == END_DEVICE:
                if found["attached"] not in drives:
                    drives[found["attached"]] = Drive(f"D{len(drives)}", found["attached"])
                phy.attached = (drives[found["attached"]], found["attached-phy"])
            elif found["type"] in (EDGE_EXPANDER, FANOUT_EXPANDER) and not phy.attached:
                attach_far_end(phy, owners.get(found["attached"], []))
    rig.drives = list(drives.values())
    mark_fanout(rig)


def attach_far_end(phy: Phy, owners: List[Expander]) -> None:
    """Attaches a phy and its far end to each other where the far end names it back."""
    number = phy.found["attached-phy"]
    for other in owners:
        far = other.phys[number] if number < len(other.phys) else None
        if far and not far.attached and names_back(far, phy):
            far.attached = (phy.expander, phy.number)
            phy.attached = (other, number)
            return


def names_back(far: Phy, phy: Phy) -> bool:
    return bool(
        far.found["result"] == 0
        and far.found["type"] in (EDGE_EXPANDER, FANOUT_EXPANDER)
        and far.found["attached"] == phy.expander.address
        and far.found["attached-phy"] == phy.number
    )


def mark_fanout(rig: Rig) -> None:
    """An expander is fanout where every phy that is cabled to it says so."""
    types: Dict[Expander, Set[int]] = {}
    for expander in rig.expanders:
        for phy in expander.phys:
            if phy.attached and isinstance(phy.attached[0], Expander):
                types.setdefault(phy.attached[0], set()).add(phy.found["type"])
    for expander, used in types.items():
        if used == {FANOUT_EXPANDER}:
            expander.type = FANOUT_EXPANDER


def rig_text(rig: Rig) -> str:
    """The text of a rig."""
    lines = [f"drive {drive.name} {drive.address:016x}" for drive in rig.drives]
    lines += set_lines("", "header", rig.set)
    for expander in rig.expanders:
        if lines:
            lines.append("")
        line = f"expander {expander.name} {expander.address:016x} R {expander.indexes}"
        line += " configurable" if expander.configurable else ""
        line += " fanout" if expander.type == FANOUT_EXPANDER else ""
        line += " long" if expander.long else ""
        lines.append(line)
        lines += set_lines("  ", expander.name, expander.set)
        for phy in expander.phys:
            if phy.result:
                what = f"vacant {phy.result:02x}h"
            elif phy.attached is None:
                what = f"{ATTRIBUTES[phy.attribute]} empty"
            else:
                device, number = phy.attached
                dot = "" if isinstance(device, Drive) and number == 0 else f".{number}"
                what = f"{ATTRIBUTES[phy.attribute]} to {device.name}{dot}"
            lines.append(f"  phy {phy.number} {what}" + (" long" if phy.long else ""))
            lines += set_lines("  ", str(phy), phy.set)
    if rig.cut is not None:
        lines.append(f"cut {rig.cut}")
    for at in range(0, len(rig.appended), 16):
        lines.append("append " + rig.appended[at : at + 16].hex(" "))
    return "".join(line + "\n" for line in lines)


def set_lines(indent: str, place: str, fields: Fields) -> List[str]:
    lines = []
    for field, value in fields.items():
        if field in ("own", "attached"):
            value = f"{value:016x}"
        elif field.startswith("byte"):
            value = f"{value:02x}h"
        lines.append(f"{indent}set {place} {field} {value}")
    return lines


def print_file(file: bytes) -> Tuple[str, Optional[str]]:
    """The text of a domain file, and what it does not keep (or None)."""
    rig, lost = read_file(file)
    notice = None
    if lost:
        count = "1 ignored byte is" if len(lost) == 1 else f"{len(lost)} ignored bytes are"
        notice = f"{count} not zero and not in this text (the first is byte {lost[0]})"
    text = rig_text(rig)
    return (f"# {notice}\n" if notice else "") + text, notice
