"""Tests of the text form: what is built, what is printed, every error and warning with its line."""

import ast
import itertools
import re
import traceback
import unittest
from pathlib import Path

from metzurgo import rigtext

from .support import ROOT, FolderTest, run

PAIR = """\
drive A1 50000000000000a1
drive B1 50000000000000b1
expander top 5000000000000010 R 4 configurable
phy 0 table to bottom.0
phy 1 direct to A1
expander bottom 5000000000000020 R 0
phy 0 subtractive to top.0
phy 1 direct to B1
phy 2 direct empty
"""

# With three frames long.
LONG = (
    PAIR.replace("R 4 configurable", "R 4 configurable long")
    .replace("to bottom.0", "to bottom.0 long")
    .replace("empty", "empty long")
)

TOP = "expander top 5000000000000010\n"
TWO = TOP + "phy 0 table\nexpander low 5000000000000020\nphy 0 subtractive\n"

# A text, and its error.
ERRORS = [
    (
        "\n# a comment\nrive A1 50000000000000a1",
        'line 3: "rive" is not the start of a line (drive, expander, phy, set, cut, append)',
    ),
    # names and addresses
    ("drive A1", "line 1: a drive line is: drive NAME ADDRESS"),
    ("drive A1 50000000000000a1 50000000000000a2", "line 1: a drive line is: drive NAME ADDRESS"),
    (
        "drive 1A 50000000000000a1",
        'line 1: "1A" is not a name (a letter, then letters, digits, - or _)',
    ),
    (
        "expander top.a 5000000000000010",
        'line 1: "top.a" is not a name (a letter, then letters, digits, - or _)',
    ),
    (
        "drive header 50000000000000a1",
        "line 1: header cannot be a name: set lines use it for the file's header",
    ),
    (
        "drive A1 50000000000000a1\n" + TOP + "\nexpander A1 5000000000000020",
        "line 4: the name A1 is taken (line 1)",
    ),
    ("drive A1 a1", 'line 1: "a1" is not an address (16 hexadecimal digits)'),
    (
        "expander top 500000000000001g",
        'line 1: "500000000000001g" is not an address (16 hexadecimal digits)',
    ),
    # expanders
    (
        "expander top",
        "line 1: an expander line is:"
        " expander NAME ADDRESS [R NUMBER] [configurable] [fanout] [long]",
    ),
    (
        "expander top 5000000000000010 R",
        "line 1: an expander line is:"
        " expander NAME ADDRESS [R NUMBER] [configurable] [fanout] [long]",
    ),
    (
        "expander top 5000000000000010 long R 4 long",
        "line 1: an expander line is:"
        " expander NAME ADDRESS [R NUMBER] [configurable] [fanout] [long]",
    ),
    (
        "expander top 5000000000000010 fanout R 4 fanout",
        "line 1: an expander line is:"
        " expander NAME ADDRESS [R NUMBER] [configurable] [fanout] [long]",
    ),
    ("expander top 5000000000000010 R x4", 'line 1: "x4" is not a number (R)'),
    ("expander top 5000000000000010 R -4", 'line 1: "-4" is not a number (R)'),
    ("expander top 5000000000000010 R 65536", "line 1: R is 0 to 65535, not 65536"),
    (
        "".join(f"expander e{n} 5000000000000010\n" for n in range(256)),
        "line 256: more than 255 expanders cannot be counted in a file",
    ),
    # phys
    ("phy 0 direct\n" + TOP, "line 1: a phy line comes after the line of its expander"),
    (
        TOP + "phy",
        "line 2: a phy line is: phy NUMBER ATTRIBUTE [to NAME.PHY | to DRIVE | empty] [long],"
        " or: phy NUMBER vacant [RESULT] [long]",
    ),
    (
        TOP + "phy 0",
        "line 2: a phy line is: phy NUMBER ATTRIBUTE [to NAME.PHY | to DRIVE | empty] [long],"
        " or: phy NUMBER vacant [RESULT] [long]",
    ),
    (
        TOP + "phy 0 long table long",
        "line 2: a phy line is: phy NUMBER ATTRIBUTE [to NAME.PHY | to DRIVE | empty] [long],"
        " or: phy NUMBER vacant [RESULT] [long]",
    ),
    (
        TOP + "phy 0 table top.0",
        "line 2: a phy line is: phy NUMBER ATTRIBUTE [to NAME.PHY | to DRIVE | empty] [long],"
        " or: phy NUMBER vacant [RESULT] [long]",
    ),
    (
        TOP + "phy 0 vacant 16h empty",
        "line 2: a phy line is: phy NUMBER ATTRIBUTE [to NAME.PHY | to DRIVE | empty] [long],"
        " or: phy NUMBER vacant [RESULT] [long]",
    ),
    (TOP + "phy 0 direct\nphy 2 direct", "line 3: the next phy of top is 1, not 2"),
    (TOP + "phy 0 direct\nphy 0 direct", "line 3: the next phy of top is 1, not 0"),
    (TOP + "phy one direct", 'line 2: "one" is not a number (a phy number)'),
    (TOP + "phy 0-255 direct", "line 2: a phy number is 0 to 254, not 255"),
    (
        TOP + "phy 3-0 direct",
        "line 2: 3-0 is not a range of phys (the lower number comes first)",
    ),
    (
        TOP + "phy 0 tabel to top.0",
        'line 2: "tabel" is not a routing attribute (direct, subtractive, table) or vacant',
    ),
    (
        TOP + "phy 0 vacant 0",
        "line 2: the function result of a vacant phy is 1 to 255, not 0",
    ),
    # cables
    (TOP + "phy 0 table to .0", 'line 2: ".0" is neither NAME.PHY nor the name of a drive'),
    (TOP + "phy 0 table to top.", 'line 2: "top." is neither NAME.PHY nor the name of a drive'),
    (TOP + "phy 0-3 table to top.0-1", "line 2: 4 phys here, but 2 in top.0-1"),
    (
        "drive W 50000000000000c1\n" + TOP + "phy 0-1 direct to W",
        "line 3: 2 phys here, but 1 in W",
    ),
    (TWO + "phy 1 table to bottom.0", "line 5: there is no drive or expander named bottom"),
    (
        TWO + "phy 1 table to top",
        "line 5: top is an expander: name its phy too, as in top.0",
    ),
    (TWO + "phy 1 table to top.1", "line 5: top has no phy 1"),
    (
        TOP + "phy 0 table to low.0\nexpander low 5000000000000020\nphy 0 vacant",
        "line 2: top.0 is cabled to low.0, which is vacant (line 4)",
    ),
    (
        TOP + "phy 0 table to low.0\nexpander low 5000000000000020\nphy 0 subtractive empty",
        "line 2: top.0 is cabled to low.0, which is empty (line 4)",
    ),
    (
        TOP + "phy 0 table to low.0\nphy 1 table\n"
        "expander low 5000000000000020\nphy 0 subtractive to top.1",
        "line 2: top.0 is cabled to low.0, which is cabled to top.1 (line 5)",
    ),
    (
        TOP + "phy 0 table to low.0\nphy 1 table to low.0\n"
        "expander low 5000000000000020\nphy 0 subtractive",
        "line 3: top.1 is cabled to low.0, which is cabled to top.0 (line 2)",
    ),
    (
        "drive A1 50000000000000a1\n" + TOP + "phy 0 table to low.0\n"
        "expander low 5000000000000020\nphy 0 direct to A1",
        "line 3: top.0 is cabled to low.0, which is cabled to A1.0 (line 5)",
    ),
    # deviations
    (
        TWO + "set top.0 type",
        "line 5: a set line is: set PLACE FIELD VALUE, or: set PLACE byte NUMBER VALUE",
    ),
    (TWO + "set middle phys 3", "line 5: there is no expander named middle"),
    (TWO + "set top.1 type 2", "line 5: top has no phy 1"),
    (TWO + "set top.x type 2", 'line 5: "x" is not a number (a phy number)'),
    (
        TWO + "set header byte 1 2",
        'line 5: "byte 1" of header cannot be set (fields of the header: byte 0, count)',
    ),
    (
        TWO + "set top type 2",
        'line 5: "type" of top cannot be set'
        " (fields of an expander: byte 0, byte 1, byte 2, byte 3, phys)",
    ),
    (
        TWO + "set top.0 byte 2 1",
        'line 5: "byte 2" of top.0 cannot be set (fields of a phy: byte 0, byte 1, byte 3,'
        " identifier, type, attribute, own, attached, attached-phy)",
    ),
    (
        TOP + "phy 0 vacant\nset top.0 identifier 1",
        'line 3: "identifier" of top.0 cannot be set'
        " (fields of a vacant phy: byte 0, byte 1, byte 3)",
    ),
    (
        TWO + "set top.0 type 2\nset top.00 type 3",
        "line 6: type of top.00 is already set (line 5)",
    ),
    (TWO + "set top.0 type 8", "line 5: type is 0 to 7, not 8"),
    (TWO + "set top.0 own 10h", 'line 5: "10h" is not an address (16 hexadecimal digits)'),
    (
        TWO + "set top.0 identifier 1\nset top.0h attached-phy 1",
        "line 6: nothing is attached at top.0: set its type too",
    ),
    (TWO + "cut", "line 5: a cut line is: cut LENGTH"),
    (TWO + "cut 100\ncut 90", "line 6: the file is already cut (line 5)"),
    (TWO + "\ncut 179", "line 6: the file has 178 bytes and cannot be cut to 179"),
    (TWO + "append", "line 5: an append line is: append BYTES (two hexadecimal digits each)"),
    (TWO + "append 00 0", "line 5: an append line is: append BYTES (two hexadecimal digits each)"),
]


# A text, and its warnings.
WARNINGS = [
    (
        PAIR.replace("b1\n", "a1\n"),
        ["line 2: warning: B1 has the address of A1 (line 1)"],
    ),
    (
        "drive C1 0x50000000000000a1\n" + PAIR + "drive D1 50000000000000A1h\n",
        [
            "line 1: warning: no phy is cabled to C1",
            "line 2: warning: A1 has the address of C1 (line 1)",
            "line 11: warning: D1 has the address of C1 (line 1)",
            "line 11: warning: no phy is cabled to D1",
        ],
    ),
    (
        PAIR.replace("direct to B1", "direct to A1.0").replace("direct empty", "direct to A1"),
        [
            "line 2: warning: no phy is cabled to B1",
            "line 8: warning: bottom.1 is cabled to A1.0, as top.1 is (line 5)",
            "line 9: warning: bottom.2 is cabled to A1.0, as top.1 is (line 5)",
        ],
    ),
    (
        PAIR.replace("phy 1 direct to A1", "phy 1-2 direct to A1.1-2\nphy 3 direct to A1.2"),
        ["line 6: warning: top.3 is cabled to A1.2, as top.2 is (line 5)"],
    ),
    (PAIR.replace("direct empty", "direct to A1.1"), []),
]


class Errors(unittest.TestCase):
    def test_messages(self):
        for text, message in ERRORS:
            with self.subTest(message=message):
                self.assertEqual([message], errors_of(text))

    def test_all_errors(self):
        text = (
            "drive A1 a1\nexpander 1top 10 fanout fanout\nphy 0 tabel to low.0\n"
            "phy 2 direct to A1\nphy x direct\nphy 4 direct to B1\nexpander low 5000000000000020\n"
            "set low.7 type 9\nphy 0-1 table to A1.1-0\nhub\nset low.0 type 9\ncut 999"
        )
        self.assertEqual(
            [
                'line 1: "a1" is not an address (16 hexadecimal digits)',
                'line 2: "1top" is not a name (a letter, then letters, digits, - or _)',
                "line 2: an expander line is:"
                " expander NAME ADDRESS [R NUMBER] [configurable] [fanout] [long]",
                'line 2: "10" is not an address (16 hexadecimal digits)',
                'line 3: "tabel" is not a routing attribute (direct, subtractive, table) or vacant',
                "line 4: the next phy of 1top is 1, not 2",
                'line 5: "x" is not a number (a phy number)',
                "line 6: there is no drive or expander named B1",
                "line 8: low has no phy 7",
                "line 9: 1-0 is not a range of phys (the lower number comes first)",
                'line 10: "hub" is not the start of a line'
                " (drive, expander, phy, set, cut, append)",
                "line 11: type is 0 to 7, not 9",
                "line 12: the file has 334 bytes and cannot be cut to 999",
            ],
            errors_of(text),
        )

    def test_one_error_is_not_the_cause_of_others(self):
        lines = PAIR.splitlines()
        for at, line in enumerate(lines):
            start, _, last = line.rpartition(" ")
            for wrong in (f"{start} {last}.", f"{start} {last} {last}"):
                text = "\n".join(lines[:at] + [wrong] + lines[at + 1 :])
                with self.subTest(wrong=wrong):
                    self.assertEqual(1, len(errors_of(text)))

    def test_warnings(self):
        for text, warnings in WARNINGS:
            with self.subTest(warnings=warnings):
                self.assertEqual(warnings, [str(note) for note in rigtext.Reader(text).warnings])
                self.assertEqual([], errors_of(text))
                strict = rigtext.Reader(text, strict=True)
                errors = [warning.replace("warning: ", "") for warning in warnings]
                self.assertEqual(errors, [str(error) for error in strict.errors])
                self.assertEqual([], strict.warnings)

    def test_every_error_is_tested(self):
        source = Path(rigtext.__file__).read_text(encoding="utf-8")
        places = [node for node in ast.walk(ast.parse(source)) if raises_text_error(node)]
        reached = set()
        for text, _ in ERRORS:
            for error in rigtext.Reader(text).errors:
                reached.add(traceback.extract_tb(error.__traceback__)[-1].lineno)
        self.assertTrue(places)
        for node in places:
            lines = range(node.lineno, node.end_lineno + 1)
            self.assertTrue(reached.intersection(lines), f"rigtext.py, line {node.lineno}")

    def test_the_page_has_a_true_example(self):
        page = (ROOT / "docs/RIG-TEXT.md").read_text(encoding="utf-8")
        example = re.search(r"^```\n(.*?)^```$", page, re.M | re.S)[1]
        message = re.search(r"with `bottom\.3` in line 5,\s+`(line 5: [^`]*)`", page)[1]
        self.assertEqual([message], errors_of(example.replace("bottom.0", "bottom.3")))


def errors_of(text):
    """The errors of a text, as build reports them."""
    try:
        rigtext.build(text)
    except rigtext.TextErrors as errors:
        return str(errors).split("\n")
    return []


def raises_text_error(node):
    return (
        isinstance(node, ast.Raise)
        and isinstance(node.exc, ast.Call)
        and getattr(node.exc.func, "id", "") == "TextError"
    )


class Built(unittest.TestCase):
    def setUp(self):
        self.pair = rigtext.build(PAIR)

    def test_pair_rig(self):
        self.assertEqual((ROOT / "crates/routes/stdin").read_bytes(), self.pair)

    def test_one_end_of_a_cable_is_enough(self):
        upper = PAIR.replace("phy 0 subtractive to top.0", "phy 0 subtractive")
        lower = PAIR.replace("phy 0 table to bottom.0", "phy 0 table")
        self.assertEqual(self.pair, rigtext.build(upper))
        self.assertEqual(self.pair, rigtext.build(lower))
        self.assertNotEqual(self.pair, rigtext.build(upper.replace(" to bottom.0", "")))

    def test_comments_spaces_and_the_order_of_names(self):
        lines = PAIR.splitlines()
        moved = "\n".join(lines[2:] + lines[:2])
        self.assertEqual(self.pair, rigtext.build(moved))
        spaced = PAIR.replace("\n", "  # comment\r\n\n").replace(" ", " \t")
        self.assertEqual(self.pair, rigtext.build(spaced))

    def test_numbers(self):
        other = PAIR.replace("R 4", "R 04h").replace("10 R", "10h R").replace("a1\n", "A1h\n")
        self.assertEqual(self.pair, rigtext.build(other))
        self.assertEqual(self.pair, rigtext.build(PAIR.replace(" 50", " 0x50")))

    def test_options_in_any_order(self):
        options = ("R 4", "configurable", "fanout")
        files = {
            rigtext.build(PAIR.replace("R 4 configurable", " ".join(order)))
            for order in itertools.permutations(options)
        }
        self.assertEqual({rigtext.build(PAIR.replace("R 4", "R 4 fanout"))}, files)
        other = re.sub(r"(direct|table|subtractive) (to \S+|empty)", r"\2 \1", PAIR)
        self.assertIn("phy 0 to bottom.0 table\n", other)
        self.assertEqual(self.pair, rigtext.build(other))

    def test_long_frames(self):
        file = rigtext.build(LONG)
        self.assertEqual(398, len(file))
        self.assertEqual([0x10, 0x0F, 0x00, 0x00], [file[at + 3] for at in (10, 78, 142, 202)])
        # Cut to their short frames, the bytes are those of the pair rig.
        short = bytearray(file[:38] + file[78:130] + file[142:386])
        for at in (13, 41, 285):
            short[at] = 0
        self.assertEqual(self.pair, bytes(short))
        for other in [
            LONG.replace("R 4 configurable long", "long R 4 configurable"),
            LONG.replace("table to bottom.0 long", "long table to bottom.0"),
            LONG.replace("table to bottom.0 long", "to bottom.0 long table"),
            LONG.replace("direct empty long", "long empty direct"),
        ]:
            self.assertNotEqual(LONG, other)
            self.assertEqual(file, rigtext.build(other))
        file = rigtext.build(TOP + "phy 0 vacant long\nphy 1 vacant 80h long\nphy 2-3 direct long")
        self.assertEqual(38 + 4 * 64, len(file))
        self.assertEqual(bytes([0x41, 0x10, 0x16, 0x0F]) + bytes(60), file[38:102])
        self.assertEqual(bytes([0x41, 0x10, 0x80, 0x0F]) + bytes(60), file[102:166])
        # After "to", long is a name.
        name = "drive long 50000000000000c1\n" + TOP + "phy 0 direct to long"
        self.assertEqual(90, len(rigtext.build(name)))
        self.assertEqual(102, len(rigtext.build(name + " long")))

    def test_ranges(self):
        wide = TOP + "phy 0-1 table to low.2-3\nexpander low 5000000000000020\nphy 0-3 subtractive"
        single = (
            TOP + "phy 0 table to low.2\nphy 1 table to low.3\nexpander low 5000000000000020\n"
            "phy 0 subtractive empty\nphy 1 subtractive empty\n"
            "phy 2 subtractive\nphy 3 subtractive"
        )
        self.assertEqual(rigtext.build(single), rigtext.build(wide))

    def test_types(self):
        text = TOP + "phy 0 table to low.0\nexpander low 5000000000000020 fanout\nphy 0 table"
        file = rigtext.build(text)
        self.assertEqual((0x30, 0x20), (file[38 + 12], file[126 + 12]))

    def test_a_drive_has_phys(self):
        text = "drive W 50000000000000c1\n" + TOP + "phy 0-1 direct to W.3-4\nphy 2 direct to W"
        file = rigtext.build(text)
        self.assertEqual([3, 4, 0], [file[38 + 52 * phy + 32] for phy in range(3)])

    def test_vacant(self):
        file = rigtext.build(TOP + "phy 0 vacant\nphy 1 vacant 80h")
        self.assertEqual(bytes([0x41, 0x10, 0x16]) + bytes(49), file[38:90])
        self.assertEqual(bytes([0x41, 0x10, 0x80]) + bytes(49), file[90:142])

    def test_deviations(self):
        for line, at, value in [
            ("set header byte 0 ffh", 0, "ff"),
            ("set header count 65", 1, "41"),
            ("set top byte 0 1", 10, "01"),
            ("set top byte 3 3", 13, "03"),
            ("set top phys 129", 19, "81"),
            ("set bottom.1 byte 0 40h", 230, "40"),
            ("set bottom.1 byte 3 0fh", 233, "0f"),
            ("set bottom.1 identifier 255", 239, "ff"),
            ("set bottom.1 type 7", 242, "70"),
            ("set bottom.1 own 0123456789abcdef", 246, "0123456789abcdef"),
            ("set bottom.1 attached 0123456789abcdef", 254, "0123456789abcdef"),
            ("set bottom.1 attached-phy 9", 262, "09"),
            ("set bottom.1 attribute 15", 274, "0f"),
        ]:
            with self.subTest(line=line):
                value = bytes.fromhex(value)
                expected = self.pair[:at] + value + self.pair[at + len(value) :]
                self.assertEqual(expected, rigtext.build(PAIR + line))
        self.assertEqual(self.pair[:90], rigtext.build(PAIR + "cut 90"))
        self.assertEqual(self.pair + b"\x01\x02\x03", rigtext.build(PAIR + "append 01 0203"))
        self.assertEqual(b"\x10\xff", rigtext.build(PAIR + "append ff\ncut 1"))


class Printed(unittest.TestCase):
    def again(self, file):
        """The text of a file; building it gives the file."""
        text, notice = rigtext.print_file(file)
        self.assertIsNone(notice)
        self.assertEqual(file, rigtext.build(text))
        return text

    def test_pair_rig(self):
        text = self.again(rigtext.build(PAIR))
        for old, new in [("E0", "top"), ("E1", "bottom"), ("D0", "A1"), ("D1", "B1")]:
            text = text.replace(old, new)
        self.assertEqual(PAIR.split(), text.split())

    def test_all_lengths(self):
        whole = rigtext.build(PAIR) + bytes(60)
        for length in range(len(whole) + 1):
            self.again(whole[:length])

    def test_long_frames(self):
        text = self.again(rigtext.build(LONG))
        self.assertIn("R 4 configurable long\n", text)
        self.assertIn("phy 0 table to E1.0 long\n", text)
        self.assertIn("phy 1 direct to D0\n", text)
        self.again(rigtext.build(TOP + "phy 0 vacant long"))
        whole = rigtext.build(LONG) + bytes(70)
        for length in range(len(whole) + 1):
            self.again(whole[:length])
        for line in ["set top byte 3 0fh", "set bottom.2 byte 3 10h", "set bottom.2 byte 3 0"]:
            with self.subTest(line=line):
                self.again(rigtext.build(LONG + line))

    def test_every_changed_byte_that_is_not_ignored(self):
        pair = rigtext.build(PAIR)
        ignored = 0
        for at in range(len(pair)):
            for value in (0x00, 0x01, 0x11, 0x41, 0xFF):
                file = pair[:at] + bytes([value]) + pair[at + 1 :]
                text, notice = rigtext.print_file(file)
                again = rigtext.build(text)
                self.assertEqual(notice is not None, again != file)
                ignored += again != file
        self.assertGreater(ignored, 0)

    def test_ignored_bytes(self):
        pair = bytearray(rigtext.build(PAIR))
        pair[14], pair[50] = 1, 0xAF
        text, notice = rigtext.print_file(bytes(pair))
        expected = "2 ignored bytes are not zero and not in this text (the first is byte 14)"
        self.assertEqual(expected, notice)
        self.assertEqual(f"# {expected}", text.splitlines()[0])
        self.assertEqual(rigtext.build(PAIR), rigtext.build(text))

    def test_deviations(self):
        for lines in [
            "set header count 3",
            "set header count 1",
            "set header byte 0 0",
            "set top phys 0",
            "set top phys 3",
            "set bottom phys 255",
            "set top byte 1 90h",
            "set bottom.2 byte 3 1",
            "set bottom.0 attached-phy 1",
            "set bottom.0 type 3",
            "set bottom.0 type 0",
            "set bottom.0 type 1",
            "set top.0 attached 0000000000000000",
            "set bottom.2 type 2\nset bottom.2 attached-phy 7",
            "cut 0",
            "cut 1",
            "append ff",
        ]:
            with self.subTest(lines=lines):
                self.again(rigtext.build(PAIR + lines))

    def test_fanout_and_cables_to_itself(self):
        text = TWO.replace("table", "table to low.0").replace("20\n", "20 fanout\n")
        self.assertIn("R 0 fanout\n", self.again(rigtext.build(text)))
        text = TOP + "phy 0 table to top.0\nphy 1-2 table to top.3-4\nphy 3-4 table"
        text = self.again(rigtext.build(text))
        self.assertIn("phy 0 table to E0.0\n", text)
        self.assertIn("phy 4 table to E0.2\n", text)

    def test_two_expanders_of_one_address(self):
        text = TWO.replace("table", "table to low.0").replace("20\n", "10\n")
        self.again(rigtext.build(text + "expander third 5000000000000010\nphy 0 table to third.0"))

    def test_no_frames(self):
        for file in [b"\x10\x01" + bytes(range(200)), bytes(1000), b"\xff" * 700, b"text\n" * 30]:
            self.again(file)


class Commands(FolderTest):
    def setUp(self):
        super().setUp()
        self.text, self.file = self.path("pair.rig", PAIR), self.path("pair.bin")

    def test_build_and_print(self):
        self.assertEqual((0, "", ""), run("build", self.text, self.file)[:3])
        self.assertEqual(rigtext.build(PAIR), self.file.read_bytes())
        self.assertEqual(rigtext.build(PAIR), run("build", self.text).raw)
        ran = run("print", self.file)
        self.assertEqual((0, ""), (ran.status, ran.err))
        self.assertEqual(rigtext.build(PAIR), rigtext.build(ran.out))
        self.assertEqual(ran.out, run("print", "-", stdin=self.file.read_bytes()).out)

    def test_a_text_is_printed_with_its_names(self):
        for text in (PAIR, LONG, PAIR + "set bottom.2 type 2\ncut 300\nappend ff 01\n"):
            with self.subTest(text=text):
                out = run("print", "-", stdin=text.encode()).out
                self.assertIn("phy 0 table to bottom.0", out)
                self.assertEqual(rigtext.build(text), rigtext.build(out))

    def test_an_error_names_the_line_and_writes_nothing(self):
        self.text.write_text(PAIR + "phy 4 direct\n", encoding="utf-8")
        for command in ("build", "print", "judge", "tables"):
            ran = run(command, self.text)
            self.assertEqual((3, ""), (ran.status, ran.out))
            expected = f"{self.text}: line 10: the next phy of bottom is 3, not 4\n"
            self.assertEqual(expected, ran.err)
        self.assertEqual(3, run("build", self.text, self.file).status)
        self.assertFalse(self.file.exists())

    def test_all_errors_are_reported(self):
        self.text.write_text("hub\n" + PAIR + "drive\n", encoding="utf-8")
        ran = run("build", self.text, self.file)
        self.assertEqual((3, ""), (ran.status, ran.out))
        known = "(drive, expander, phy, set, cut, append)"
        self.assertEqual(
            f'{self.text}: line 1: "hub" is not the start of a line {known}\n'
            f"{self.text}: line 11: a drive line is: drive NAME ADDRESS\n",
            ran.err,
        )

    def test_warnings_are_errors_where_strict(self):
        text = PAIR.replace("direct to B1", "direct")
        self.text.write_text(text, encoding="utf-8")
        ran = run("build", "--strict", self.text, self.file)
        self.assertEqual((3, ""), (ran.status, ran.out))
        self.assertEqual(f"{self.text}: line 2: no phy is cabled to B1\n", ran.err)
        self.assertFalse(self.file.exists())
        ran = run("build", self.text, self.file)
        self.assertEqual((0, ""), (ran.status, ran.out))
        self.assertEqual(f"{self.text}: line 2: warning: no phy is cabled to B1\n", ran.err)
        self.assertEqual(rigtext.build(text), self.file.read_bytes())
        self.text.write_text(PAIR, encoding="utf-8")
        self.assertEqual((0, "", ""), run("build", "--strict", self.text, self.file)[:3])

    def test_a_mark_at_the_start_of_a_text(self):
        self.text.write_text(PAIR, encoding="utf-8-sig")
        self.assertEqual(0, run("build", self.text, self.file).status)
        self.assertEqual(0, run("judge", "-", stdin=self.text.read_bytes()).status)

    def test_not_a_text(self):
        self.text.write_bytes(b"drive A1 \xff")
        ran = run("build", self.text, self.file)
        self.assertEqual((3, f"{self.text}: this is not a text\n"), (ran.status, ran.err))

    def test_no_such_file(self):
        ran = run("print", self.folder / "none")
        expected = f"{self.folder / 'none'}: No such file or directory\n"
        self.assertEqual((3, expected), (ran.status, ran.err))
        ran = run("build", self.text, self.folder / "none" / "file")
        self.assertEqual(3, ran.status)

    def test_ignored_bytes_are_reported(self):
        self.file.write_bytes(rigtext.build(PAIR)[:-1] + b"\x01")
        ran = run("print", self.file)
        notice = "1 ignored byte is not zero and not in this text (the first is byte 333)\n"
        self.assertEqual((0, f"{self.file}: {notice}"), (ran.status, ran.err))
        self.assertTrue(ran.out.startswith(f"# {notice}"))

    def test_help(self):
        ran = run("build", "--help")
        self.assertEqual(0, ran.status)
        for part in (
            "build [-h] [--json] [--strict] [--as {text,file,card}]",
            "expander NAME ADDRESS",
            "cut LENGTH",
        ):
            self.assertIn(part, ran.out)
        self.assertEqual(2, run("build").status)
