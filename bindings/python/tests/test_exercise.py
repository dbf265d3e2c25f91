"""Tests of exercises: the subcommand, what the made file lists, each reason of a refusal."""

import json
import unittest

from metzurgo import Rig
from metzurgo.answers import Refusal
from metzurgo.commands.exercise import reason
from metzurgo.library import LONGEST_EXERCISE, library

from .support import FolderTest, run

FIRST, SECOND = 0x5000000000000010, 0x5000000000000020
B1, B2 = 0x50000000000000B1, 0x50000000000000B2
FIRST_TEXT, SECOND_TEXT, B1_TEXT = "5000000000000010", "5000000000000020", "50000000000000b1"


def made(*words):
    return Rig(library().make(FIRST, SECOND, words))


def late(index):
    """Words of which the last, at this index, is not zero."""
    return [0] * index + [B1]


class Made(unittest.TestCase):
    def test_the_rig(self):
        """The first expander's one phy, and the second's, word for word."""
        rig = made(B1, 0, B2, B2, 0)
        first, second = rig.expanders
        self.assertEqual((FIRST, 5, True), (first.address, first.indexes, first.configurable))
        self.assertEqual((SECOND, 0, False), (second.address, second.indexes, second.configurable))
        self.assertEqual([(2, "table", SECOND, 0)], [phy_of(phy) for phy in first.phys])
        self.assertEqual(
            [
                (2, "subtractive", FIRST, 0),
                (1, "direct", B1, 0),
                (0, "direct", 0, 0),
                (1, "direct", B2, 0),
                (1, "direct", B2, 0),
            ],
            [phy_of(phy) for phy in second.phys],
        )

    def test_the_tables_are_the_words(self):
        for words in (
            [],
            [0],
            [B1],
            [0, B1],
            [B1, 0],
            [B1, B1, 0, B2, 0, 0],
            late(126),
            late(126) + [0] * 9,
        ):
            with self.subTest(words=len(words)):
                rig = made(*words)
                self.assertEqual(2, rig.judge())
                self.assertEqual((1, len(words)), rig.needed())
                self.assertEqual(words, list(rig.tables().words))
        self.assertEqual(LONGEST_EXERCISE, len(made(*late(126)).file))

    def test_no_rig(self):
        for first, second, words, told in (
            (0, SECOND, [], "The address of the first expander is zero."),
            (FIRST, 0, [B1], "The address of the second expander is zero."),
            (FIRST, FIRST, [B1], "Both expanders have the address 5000000000000010."),
            (FIRST, SECOND, [B1, FIRST], "Word 1 is the address of the first expander"),
            (FIRST, SECOND, [SECOND], "Word 0 is the address of the second expander"),
            (FIRST, SECOND, [0] * 65536, "There are 65536 words"),
            (FIRST, SECOND, late(127), "Word 127 is not zero"),
            (FIRST, SECOND, [B1] * 200, "Word 127 is not zero"),
        ):
            with self.subTest(told=told):
                with self.assertRaises(Refusal) as caught:
                    library().make(first, second, words)
                refusal = caught.exception
                self.assertEqual((24, 0, 0), (refusal.number, refusal.expander, refusal.phy))
                self.assertIn(told, reason(first, second, words))


class Written(FolderTest):
    def test_bytes(self):
        expected = made(B1, 0).file
        ran = run("exercise", FIRST_TEXT, SECOND_TEXT, B1_TEXT, "0")
        self.assertEqual((0, expected, ""), (ran.status, ran.raw, ran.err))
        out = self.folder / "exercise.bin"
        ran = run("exercise", FIRST_TEXT, SECOND_TEXT, B1_TEXT.upper() + "h", "0", "-o", out)
        self.assertEqual((0, "", "", expected), (*ran[:3], out.read_bytes()))

    def test_no_words(self):
        self.assertEqual(made().file, run("exercise", FIRST_TEXT, SECOND_TEXT).raw)

    def test_json(self):
        out = self.folder / "exercise.bin"
        ran = run("exercise", FIRST_TEXT, SECOND_TEXT, B1_TEXT, "--json", "-o", out)
        self.assertEqual({"file": str(out), "bytes": 230}, json.loads(ran.out))
        self.assertEqual(2, run("exercise", FIRST_TEXT, SECOND_TEXT, "--json").status)
        ran = run("exercise", FIRST_TEXT, FIRST_TEXT, "--json", "-o", self.folder / "none")
        told = "Both expanders have the address 5000000000000010."
        self.assertEqual(1, ran.status)
        place = {"number": 24, "expander": 0, "phy": 0, "line": None}
        self.assertEqual({"refused": {**place, "sentence": told}}, json.loads(ran.out))
        self.assertFalse((self.folder / "none").exists())

    def test_refused(self):
        ran = run("exercise", FIRST_TEXT, SECOND_TEXT, "0", SECOND_TEXT)
        self.assertEqual((1, ""), ran[:2])
        self.assertIn("metzurgo exercise: refused 24 0 0: Word 1 is the address of", ran.err)

    def test_usage(self):
        for words in ([FIRST_TEXT], [FIRST_TEXT, SECOND_TEXT, "B1"], [FIRST_TEXT, "bottom"]):
            with self.subTest(words=words):
                self.assertEqual((2, ""), run("exercise", *words)[:2])


def phy_of(phy):
    return phy.type, phy.kind, phy.attached, phy.attached_phy


if __name__ == "__main__":
    unittest.main()
