"""Tests of cards: the subcommand card, cards as rigs of every subcommand, refused cards."""

import base64
import contextlib
import json
import sys
import unittest
from unittest import mock

from metzurgo import PAIR, Rig, Setting
from metzurgo.answers import Refusal
from metzurgo.library import library
from metzurgo.rig import CardRefused, card_bytes, form_of, is_card, is_text

from .support import SAMPLES, FolderTest, run, samples

PAIR_RIG = SAMPLES / "pair.rig"
# The card of the pair rig, by hand: version 0010, 2 expanders less 1, six zeros; then for each
# expander its address, R, configurable and phys less 1, and of each phy 1, type, attribute,
# address and phy, or 1, 000, attribute.
BITS = "".join(
    [
        "0010" "000001" "000000",
        f"{0x5000000000000010:064b}" f"{4:016b}" "1" "0000001",
        "1" "010" "10" f"{0x5000000000000020:064b}" "00000000",
        "1" "001" "00" f"{0x50000000000000A1:064b}" "00000000",
        f"{0x5000000000000020:064b}" f"{0:016b}" "0" "0000010",
        "1" "010" "01" f"{0x5000000000000010:064b}" "00000000",
        "1" "001" "00" f"{0x50000000000000B1:064b}" "00000000",
        "1" "000" "00",
        "00",
    ]
)
CARD = int(BITS, 2).to_bytes(64, "big")


def spoiled(bit):
    """The card with one bit flipped."""
    card = bytearray(CARD)
    card[bit // 8] ^= 0x80 >> bit % 8
    return bytes(card)


class Written(FolderTest):
    def test_bytes(self):
        ran = run("card", PAIR_RIG)
        self.assertEqual((0, CARD, ""), (ran.status, ran.raw, ran.err))
        out = self.folder / "pair.card"
        ran = run("card", PAIR_RIG, "-o", out)
        self.assertEqual((0, "", "", CARD), (*ran[:3], out.read_bytes()))

    def test_text(self):
        ran = run("card", PAIR_RIG, "--hex")
        self.assertEqual((0, CARD.hex() + "\n"), ran[:2])
        ran = run("card", PAIR_RIG, "--base64")
        self.assertEqual(CARD, base64.b64decode(ran.out))
        self.assertLess(max(map(len, ran.out.splitlines())), 79)
        out = self.folder / "pair.txt"
        run("card", PAIR_RIG, "--base64", "--output", out)
        self.assertEqual(ran.out, out.read_text(encoding="ascii"))
        self.assertEqual((2, ""), run("card", PAIR_RIG, "--base64", "--hex")[:2])

    def test_hexadecimal_on_a_terminal(self):
        with mock.patch("metzurgo.commands.card.sys") as seen:
            seen.stdout.isatty.return_value = True
            self.assertEqual(CARD.hex() + "\n", run("card", PAIR_RIG).out)
            # A file is written as bytes all the same.
            out = self.folder / "pair.card"
            run("card", PAIR_RIG, "-o", out)
            self.assertEqual(CARD, out.read_bytes())
        self.assertIsNotNone(sys.stdout)

    def test_json(self):
        expected = {"file": None, "bytes": 64, "base64": base64.b64encode(CARD).decode()}
        self.assertEqual(expected, json.loads(run("card", PAIR_RIG, "--json").out))
        out = self.folder / "pair.card"
        told = json.loads(run("card", PAIR_RIG, "--json", "-o", out).out)
        self.assertEqual((str(out), CARD), (told["file"], out.read_bytes()))

    def test_refused(self):
        ran = run("card", SAMPLES / "refused-06-type.rig")
        self.assertEqual((1, ""), ran[:2])
        self.assertIn("refused 6 1 1: The attached device type at phy 1 of bottom is 4", ran.err)
        self.assertEqual(1, run("card", PAIR_RIG, "--course", "2,2,2").status)
        # Later causes are not tested.
        ran = run("card", SAMPLES / "refused-11-ring.rig")
        self.assertEqual((0, ""), (ran.status, ran.err))
        self.assertIn("refused 11 0 0", run("judge", "-", stdin=ran.raw).out)


class Read(FolderTest):
    def test_every_subcommand(self):
        """A card is read as the domain file that build makes of it."""
        file = Rig.of_text(PAIR).file
        # A picture has the name of its file.
        for folder in ("cards", "files"):
            (self.folder / folder).mkdir()
        card = self.path("cards/pair", CARD)
        plain = self.path("files/pair", file)
        for words in (
            ["judge"],
            ["judge", "--json"],
            ["tables"],
            ["frames"],
            ["draw"],
            ["print"],
            ["build"],
            ["card"],
        ):
            with self.subTest(words=words):
                self.assertEqual(run(*words, plain), run(*words, card))
                self.assertEqual(run(*words, "-", stdin=file), run(*words, "-", stdin=CARD))
        trace = run("trace", card, "E0", "50000000000000b1")
        self.assertEqual((0, run("trace", plain, "E0", "50000000000000b1").out), trace[:2])
        frames = run("frames", card, "E0").out.encode()
        shelf = run("shelf", card, "E0", stdin=frames)
        self.assertEqual((0, run("shelf", plain, "E0", stdin=frames).out), shelf[:2])
        self.assertEqual(file, run("build", card).raw)

    def test_text_of_a_card(self):
        encoded = base64.b64encode(CARD)
        digits = CARD.hex().encode()
        for text in (encoded, base64.encodebytes(CARD), digits, digits.upper(), CARD):
            ran = run("judge", "--as", "card", "-", stdin=text)
            self.assertEqual((0, "accepted: 2 expanders, 5 phys, 1 table, 4 words\n"), ran[:2])
        # Without --as it is a rig text, with errors.
        self.assertEqual(3, run("judge", "-", stdin=encoded).status)

    def test_as(self):
        card, file = self.path("pair", CARD), self.path("file", Rig.of_text(PAIR).file)
        self.assertIn("refused 2 0 0", run("judge", "--as", "file", card).out)
        self.assertIn("refused 19 0 0", run("judge", "--as", "card", file).out)
        self.assertEqual(3, run("judge", "--as", "text", card).status)
        self.assertEqual(0, run("judge", "--as", "file", file).status)
        self.assertEqual(0, run("judge", "--as", "text", PAIR_RIG).status)
        self.assertEqual(2, run("judge", "--as", "other", card).status)
        # By its name this is a text, and --as says otherwise.
        named = self.path("card.rig", CARD)
        self.assertEqual(3, run("judge", named).status)
        self.assertEqual(0, run("judge", "--as", "card", named).status)

    def test_which_it_is(self):
        for content, form in [
            (CARD, "card"),
            (b"\x20\x00", "card"),
            (b"\x2f\xc0\xff", "card"),
            (b"\x20\x20\xff", "file"),
            (b"\x30\x00", "file"),
            (b"\x20", "text"),
            (b"\x10\x01", "file"),
            (b"", "file"),
            (b" @ printable", "text"),
        ]:
            self.assertEqual(form, form_of("-", content), content)
        self.assertTrue(is_card(CARD) and not is_text("-", CARD))

    def test_card_file_card_of_every_sample(self):
        count = 0
        for path in samples():
            rig = Rig.load(path)
            try:
                card = rig.to_card()
            except Refusal as refusal:
                self.assertLessEqual(refusal.number, 6)
                continue
            again = Rig.of_card(card)
            self.assertEqual(card, again.to_card())
            self.assertEqual(judged(rig), judged(again))
            self.assertEqual(card, card_bytes(base64.b64encode(card)))
            self.assertEqual(card, card_bytes(card.hex().encode()))
            self.assertEqual(card, card_bytes(card))
            count += 1
        self.assertGreater(count, 30)


class Sizes(unittest.TestCase):
    def test_bytes(self):
        """The bound of docs/COMMAND.md, which the smallest rig with a drive reaches."""
        text = "drive A1 50000000000000a1\nexpander only 5000000000000010\nphy 0 direct to A1\n"
        smallest = Rig.of_text(text)
        self.assertEqual((90, 23), (len(smallest.file), len(smallest.to_card())))
        for path in samples():
            rig = Rig.load(path)
            with contextlib.suppress(Refusal):
                self.assertLessEqual(90 * len(rig.to_card()), 23 * len(rig.file), path.stem)

    def test_a_file_or_standard_output(self):
        """The JSON object has the card itself, and standard output is not for both."""
        ran = run("card", "--json", PAIR_RIG, "-o", "-")
        self.assertEqual((2, "", 1), (ran.status, ran.out, ran.err.count("\n")))
        self.assertEqual(64, json.loads(run("card", "--json", PAIR_RIG).out)["bytes"])


def judged(rig):
    try:
        return rig.judge()
    except Refusal as refusal:
        return str(refusal)


class Refused(FolderTest):
    def test_sentences(self):
        for card, told, refused in [
            (b"\x20", "The card has 1 byte", "19 0 0"),
            (spoiled(3), "The card begins with the bits 0011", "19 0 0"),
            (spoiled(15), "Bits 10 to 15 of the card are 000001", "19 0 0"),
            (CARD[:63], "The card is cut or has bytes too many", "19 0 0"),
            (CARD + b"\0", "The card is cut or has bytes too many", "19 0 0"),
            (spoiled(511), "The card is cut or has bytes too many", "19 0 0"),
            (CARD[:2] + bytes(8) + CARD[10:], "The address of E0 is zero", "4 0 0"),
            (spoiled(109), "Phy 0 of E0 has a reserved type or attribute on the card", "6 0 0"),
        ]:
            with self.subTest(told=told):
                ran = run("judge", "--as", "card", "-", stdin=card)
                self.assertEqual((1, ""), (ran.status, ran.err))
                self.assertTrue(ran.out.startswith(told), ran.out)
                self.assertTrue(ran.out.endswith(f".\nrefused {refused}\n"), ran.out)
                ran = run("tables", "--as", "card", "-", stdin=card)
                self.assertEqual((1, "", 1), (*ran[:2], ran.err.count("\n")))
                self.assertIn(f"standard input: refused {refused}: {told}", ran.err)
                ran = run("print", "--json", "--as", "card", "-", stdin=card)
                numbers = json.loads(ran.out)["refused"]
                told_place = [numbers["number"], numbers["expander"], numbers["phy"]]
                self.assertEqual(refused, " ".join(map(str, told_place)))

    def test_by_the_course(self):
        told = run("judge", "--course", "2,2,2", "-", stdin=CARD).out
        self.assertEqual(
            "Expander E1 has 3 phys: an expander has 1 to 2 in this course.\nrefused 3 1 0\n", told
        )
        told = run("judge", "--course", "1,3,2", "-", stdin=CARD).out
        self.assertTrue(told.endswith("\nrefused 3 0 0\n"), told)
        told = run("judge", "--course", "0,3,2", "-", stdin=CARD).out
        self.assertTrue(told.endswith("\nrefused 22 0 0\n"), told)
        # 3 of a card that is refused in another place too.
        with self.assertRaises(CardRefused) as seen:
            Rig.of_card(CARD[:63], setting=Setting(1, 1, 1))
        self.assertEqual("refused 19 0 0", str(seen.exception))
        used = bytearray(CARD)
        used[39] = 0x01  # expander 1 has the address of expander 0
        with self.assertRaises(CardRefused) as seen:
            Rig.of_card(bytes(used), setting=Setting(1, 3, 2))
        self.assertEqual("refused 3 0 0", str(seen.exception))
        ran = run("judge", "--course", "1,3,2", "-", stdin=bytes(used))
        self.assertIn("more expanders or phys than the course allows", ran.out)

    def test_the_library_s_calls(self):
        calls = library()
        self.assertEqual(Rig.of_text(PAIR).file, calls.file_of_card(Setting(2, 3, 1), CARD))
        self.assertEqual(CARD, calls.card_of_file(Setting(2, 3, 1), Rig.of_text(PAIR).file))


if __name__ == "__main__":
    unittest.main()
