"""Tests of the subcommand join and of refused joins."""

import json
import re
import unittest

from metzurgo import Rig, Setting
from metzurgo.answers import Refusal
from metzurgo.rig import JoinRefused

from .support import SAMPLES, FolderTest, run, samples

LEFT, RIGHT = SAMPLES / "bench-left.rig", SAMPLES / "bench-right.rig"
ENDS = (LEFT, "row0.3", RIGHT, "row0.3")

# Samples that a join refuses, and their sentences.
TOLD = {
    "refused-03-join": "The header counts 8 expanders: there have to be 1 to 7 in this course.",
    "refused-04-join": "Expander row1 of the second rig has the address of bottom of the first"
    " rig, 5100000000000020: give row1 of the second rig an address of its own.",
    "refused-08-join": "Drive 51000000000000b1 is attached to phy 1 of tooth1 of the second rig"
    " and to phy 1 of bottom of the first rig: attach a drive to one expander only.",
    "refused-11-second-rig": "The cables between first, second, third form a loop: pull one of"
    " them.",
    "refused-21-attached": "Phy 2 of top is attached to C1: join the rigs at two empty"
    " subtractive phys.",
    "refused-21-no-expander": "There is no expander 2: the rig has expanders 0 to 1.",
    "refused-21-no-phy": "Expander row0 has no phy 4: it has phys 0 to 3.",
    "refused-21-not-subtractive": "Phy 2 of top is a direct phy: join the rigs at two empty"
    " subtractive phys.",
    "refused-21-other-subtractive": "Phy 3 of top is subtractive, too, and attached to C1: join"
    " the rigs at an expander without an attached subtractive phy.",
    "refused-21-vacant": "Phy 2 of top is vacant: join the rigs at two empty subtractive phys.",
    "refused-23-join": "The chain tooth2 of the second rig, row2 of the second rig, row1 of the"
    " second rig, row0 of the second rig, top of the first rig, bottom of the first rig has 6"
    " expanders, and the course allows 5: shorten it, or judge by a course that allows it.",
}
CALL = re.compile(
    r"^# call: (?:setting ([0-9 ]+) )?join ([0-9]+) ([0-9]+) (\S+) ([0-9]+) ([0-9]+)\n"
    r"# answer: (refused .*)$",
    re.M,
)


def bench():
    """The joined file, byte by byte: both files, the counts, and the cable at both ends."""
    left, right = Rig.load(LEFT), Rig.load(RIGHT)
    file = bytearray([0x10, 12]) + left.file[2:] + right.file[2:]
    at = 2 + 36 + 3 * 52  # phy 3 of the first expander
    for start, first in ((at, 0x51), (len(left.file) - 2 + at, 0x50)):
        file[start + 12] = 0x20
        file[start + 24 : start + 33] = bytes([first, 0, 0, 0, 0, 0, 0, 0x10, 3])
    return bytes(file)


class Joined(FolderTest):
    def test_bytes(self):
        ran = run("join", *ENDS)
        self.assertEqual((0, bench(), ""), (ran.status, ran.raw, ran.err))
        out = self.folder / "bench.bin"
        ran = run("join", *ENDS, "-o", out)
        told = (
            "joined: 12 expanders, 34 phys, 10 tables, 42 words\n"
            f"the expanders of {RIGHT} are E6 to E11\n"
        )
        self.assertEqual((0, told, "", bench()), (*ran[:3], out.read_bytes()))
        self.assertEqual(bench(), run("join", *ENDS, "-o", "-").raw)

    def test_every_form(self):
        """Texts, domain files and cards, and standard input as one of them."""
        left, right = Rig.load(LEFT), Rig.load(RIGHT)
        file, card = self.path("left", left.file), self.path("right", right.to_card())
        self.assertEqual(bench(), run("join", file, "E0.3", card, "0.3").raw)
        ran = run("join", "-", "E0.3", card, "5100000000000010.3", stdin=left.file)
        self.assertEqual(bench(), ran.raw)

    def test_json(self):
        out = self.folder / "bench.bin"
        told = json.loads(run("join", *ENDS, "-o", out, "--json").out)
        expected = {"file": str(out), "bytes": 2202, "expanders": 12, "second": 6}
        self.assertEqual((expected, bench()), (told, out.read_bytes()))
        self.assertEqual((2, ""), run("join", *ENDS, "--json")[:2])

    def test_one_expander(self):
        single = self.path("single.rig", "expander only 5200000000000010\n  phy 0 subtractive\n")
        ran = run("join", LEFT, "row0.3", single, "only.0", "-o", self.folder / "out")
        self.assertTrue(ran.out.endswith(f"\nthe expander of {single} is E6\n"), ran.out)

    def test_tables_stay_and_requests_cross(self):
        left, right = Rig.load(LEFT), Rig.load(RIGHT)
        joined = left.join((0, 3), right, (0, 3))
        tables = joined.tables()
        given = [*left.tables().words, *right.tables().words]
        self.assertEqual(given, list(tables.words))
        for start in range(6):
            for drive in ("B0", "B1", "B2", "A0", "A1", "A2"):
                self.assertTrue(joined.trace(tables, start, 255, right.names[drive]).arrived)
                self.assertTrue(joined.trace(tables, 6 + start, 255, left.names[drive]).arrived)


class Refused(FolderTest):
    def test_samples(self):
        found = set()
        for path in samples():
            call = CALL.search(path.read_text(encoding="utf-8"))
            if not call or path.stem not in TOLD:
                self.assertFalse(call and "bytes" not in call[0], path.stem)
                continue
            found.add(path.stem)
            setting, near, phy, other, far, far_phy, answer = call.groups()
            course = ["--course", setting.replace(" ", ",")] if setting else []
            words = [path, f"{near}.{phy}", SAMPLES / f"{other}.rig", f"{far}.{far_phy}", *course]
            with self.subTest(sample=path.stem):
                out = self.folder / "out"
                ran = run("join", *words, "-o", out)
                self.assertEqual((1, "", False), (*ran[:2], out.exists()))
                self.assertTrue(ran.err.endswith(f"{answer}: {TOLD[path.stem]}\n"), ran.err)
                told = json.loads(run("join", *words, "-o", out, "--json").out)["refused"]
                self.assertEqual(TOLD[path.stem], told["sentence"])
                place = (told["number"], told["expander"], told["phy"])
                self.assertEqual(answer, "refused {} {} {}".format(*place))
        self.assertEqual(set(TOLD), found)

    def test_each_rig_by_itself(self):
        """The first is tested before the second, and the second's places stand behind."""
        left, right = Rig.load(LEFT), Rig.load(RIGHT)
        cut, cut_too = Rig(left.file[:-1]), Rig(right.file[:-1])
        for first, second, expected in [
            (cut, cut_too, "refused 1 5 1"),
            (left, cut_too, "refused 1 11 1"),
            (left, Rig(b""), "refused 1 6 0"),
            (left, left, "refused 4 6 0"),
        ]:
            with self.assertRaises(JoinRefused) as seen:
                first.join((0, 3), second, (0, 3))
            self.assertEqual(expected, str(seen.exception))
        out_of_range = Rig(left.file, setting=Setting(65, 1, 1))
        with self.assertRaises(Refusal) as seen:
            out_of_range.join((0, 3), right, (0, 3))
        self.assertEqual("refused 22 0 0", str(seen.exception))
        ran = run("join", LEFT, "row0.3", self.path("cut.bin", right.file[:-1]), "E0.3")
        self.assertEqual((1, ""), ran[:2])
        self.assertIn("cut.bin: refused 1 11 1: The file ends within the DISCOVER", ran.err)

    def test_wrong_usage(self):
        for words in (
            ("-", "E0.3", "-", "E0.3"),
            (LEFT, "row9.3", RIGHT, "row0.3"),
            (LEFT, "row0", RIGHT, "row0.3"),
            (LEFT, "row0.3", RIGHT),
        ):
            ran = run("join", *words, stdin=Rig.load(LEFT).file)
            self.assertEqual((2, "", 1), (ran.status, ran.out, ran.err.count("\n")), ran)
        self.assertEqual(3, run("join", LEFT, "row0.3", self.folder / "none", "0.0").status)


if __name__ == "__main__":
    unittest.main()
