"""Tests of drives plugged and pulled: the rig, stored tables, and the subcommands."""

import json
import os
import random
import re
import shlex
import unittest
from unittest import mock

from metzurgo import PAIR, Rig, Setting
from metzurgo.answers import Refusal
from metzurgo.library import library
from metzurgo.rig import EventRefused, RigError
from metzurgo.stored import lines, read, set_disabled

from .support import SAMPLES, FolderTest, run, samples

ROW = SAMPLES / "plug-and-pull.rig"
B1, B2, C1, C2 = (0x5000000000000000 + last for last in (0xB1, 0xB2, 0xC1, 0xC2))
BOTTOM = 0x5000000000000030

# Samples whose event is refused, and their sentences.
TOLD = {
    "refused-08-plug": "Drive B1 is attached to phy 1 of bottom and to phy 1 of top: attach a"
    " drive to one expander only.",
    "refused-09-plug": "Phy 3 of bottom and phy 0 are both subtractive, and lead to"
    " 50000000000000c1 and top: make one of them a table phy.",
    "refused-14-plug": "Phy 0 of top has more entries to hold than the R of top, which is 2: set"
    " R of top to 3 or more, or attach fewer devices beyond it.",
    "refused-20-at-expander": "Phy 0 of top is cabled to the expander bottom: name a phy that is"
    " empty or has a drive.",
    "refused-20-no-expander": "There is no expander 2: the rig has expanders 0 to 1.",
    "refused-20-no-phy": "Expander bottom has no phy 3: it has phys 0 to 2.",
    "refused-20-vacant": "Phy 2 of bottom is vacant: name a phy that is empty or has a drive.",
}
CALL = re.compile(
    r"^# call: event ([0-9]+) ([0-9]+) ([0-9a-f]{16})\n# answer: (refused .*)$", re.M
)


def stored(rig, tables=None):
    return "".join(lines(tables or rig.tables(), rig.needed()))


class Events(unittest.TestCase):
    def test_plugged_and_pulled(self):
        """Bytes, words and bits by hand, and which tables were touched."""
        rig = Rig.load(ROW)
        tables, file = rig.tables(), bytearray(rig.file)
        event = rig.plug(tables, (2, 2), C2)
        at = rig.start(2, 2)
        file[at + 12] = 0x10
        file[at + 24 : at + 33] = C2.to_bytes(8, "big") + bytes(1)
        self.assertEqual(bytes(file), rig.file)
        self.assertEqual([B1, BOTTOM, C1, C2, C1, C2], list(tables.words))
        self.assertEqual((2, 2), event.moved)
        touched = [(table.expander, table.phy) for table in event.tables]
        self.assertEqual(([(0, 0), (1, 2)], [0]), (touched, list(tables.bits)))
        self.assertTrue(rig.trace(tables, 0, 255, C2).arrived)
        event = rig.pull(tables, (1, 1))
        file[rig.start(1, 1) + 12] = 0x00
        self.assertEqual((bytes(file), (1, 1)), (rig.file, event.moved))
        self.assertEqual([0, BOTTOM, C1, C2, C1, C2], list(tables.words))
        self.assertEqual([0x80], list(tables.bits))
        event = rig.pull(tables, (0, 1))
        self.assertEqual(((0, 0), []), event)

    def test_altered_tables(self):
        """Those that are touched are written afresh, and the others stay."""
        rig = Rig.load(ROW)
        tables = rig.tables()
        for at in range(6):
            tables.words[at] = at + 1
            set_disabled(tables, at, True)
        tables.bits[0] |= 1  # padding
        event = rig.plug(tables, (1, 1), B2)
        self.assertEqual([B2, BOTTOM, C1, 0, 5, 6], list(tables.words))
        self.assertEqual(((1, 4), 0b00011101), (event.moved, tables.bits[0]))

    def test_lists_of_events(self):
        """After any list of events the tables are those of the edited rig."""
        chance = random.Random(1)
        accepted = 0
        for path in (ROW, SAMPLES / "comb.rig", SAMPLES / "wide-link.rig", SAMPLES / "star.rig"):
            rig = Rig.load(path)
            tables = rig.tables()
            for count in range(100):
                expander = chance.choice(rig.expanders)
                place = (expander.number, chance.randrange(len(expander.phys)))
                before = (rig.file, list(tables.words), list(tables.bits))
                try:
                    if chance.random() < 0.4:
                        event = rig.pull(tables, place)
                    else:
                        address = chance.choice((B1, B2, C1, C2 + count, expander.address))
                        event = rig.plug(tables, place, address)
                except EventRefused:
                    self.assertEqual(before, (rig.file, list(tables.words), list(tables.bits)))
                    continue
                accepted += 1
                afresh = Rig(rig.file).tables()
                self.assertEqual(list(afresh.words), list(tables.words))
                self.assertEqual(list(afresh.bits), list(tables.bits))
                pairs = zip(before[1], tables.words)
                self.assertEqual(event.moved.words, sum(old != new for old, new in pairs))
                self.assertEqual(event.moved.tables, len(event.tables))
        self.assertGreater(accepted, 80)

    def test_the_bound(self):
        """On a direct phy each table changes at one index at most, and so many tables as can."""
        reached = 0
        for path in samples():
            rig = Rig.load(path)
            try:
                tables = rig.tables()
            except Refusal:
                continue
            if len(tables.words) > 1000:
                continue
            phys = [phy for expander in rig.expanders for phy in expander.phys if not phy.vacant]
            most = sum(phy.kind == "table" and phy.at_expander for phy in phys)
            for expander in rig.expanders:
                for phy in expander.phys:
                    if phy.vacant or phy.kind != "direct" or phy.at_expander:
                        continue
                    place = (expander.number, phy.number)
                    for event in (
                        lambda: rig.plug(tables, place, 0x5FFFFFFFFFFFFFFF),
                        lambda: rig.pull(tables, place),
                    ):
                        before = list(tables.words)
                        moved = event().moved
                        self.assertLessEqual(moved.words, most)
                        for table in tables.tables:
                            old = before[table.first : table.first + len(table.words)]
                            changed = [a != b for a, b in zip(old, table.words)]
                            self.assertLessEqual(sum(changed), 1)
                        reached += moved.words == most > 1
        self.assertGreater(reached, 0)

    def test_a_table_phy_is_not_bound(self):
        rig = Rig.load(SAMPLES / "plug-table-phy.rig")
        tables = rig.tables()
        self.assertEqual((1, 3), rig.plug(tables, (1, 1), C1).moved)
        self.assertEqual([C1, B1, B2, 0, 0], list(tables.words))

    def test_tables_without_words(self):
        """They are counted, and not listed."""
        text = (
            "expander top 5000000000000010 R 0 configurable\n  phy 0 table to bottom.0\n"
            "expander bottom 5000000000000020\n  phy 0 subtractive to top.0\n"
            "  phy 1 subtractive empty\n"
        )
        rig = Rig.of_text(text)
        self.assertEqual(((1, 0), []), rig.pull(rig.tables(), (1, 1)))

    def test_refused(self):
        rig = Rig.of_text(PAIR)
        tables = rig.tables()
        for place, address, answer, about in [
            ((2, 0), C1, "refused 20 0 0", rig),
            ((0, 1), B1, "refused 8 1 1", None),
        ]:
            with self.assertRaises(EventRefused) as seen:
                rig.plug(tables, place, address)
            self.assertEqual(answer, str(seen.exception))
            self.assertEqual(about is rig, seen.exception.rig is rig)
        with self.assertRaises(ValueError):
            rig.plug(tables, (1, 2), 0)
        course = Rig(rig.file, setting=Setting(2, 3, 1))
        with self.assertRaises(EventRefused) as seen:
            course.pull(tables, (1, 1))
        self.assertEqual("refused 23 0 0", str(seen.exception))
        for words, bits, answer in ((3, 1, "refused 16 0 0"), (4, 0, "refused 18 0 0")):
            lent = ((type(tables.words)._type_ * words)(), (type(tables.bits)._type_ * bits)())
            with self.assertRaises(Refusal) as seen:
                library().event(rig.setting, rig.file, *lent, (0, 1), B1)
            self.assertEqual(answer, str(seen.exception))

    def test_a_card_is_edited_as_its_file(self):
        rig = Rig.of_card(Rig.of_text(PAIR).to_card())
        rig.plug(rig.tables(), (1, 2), C1)
        self.assertIsNone(rig.card)
        self.assertEqual(C1, rig.expanders[1].phys[2].attached)


class Stored(FolderTest):
    def test_lines(self):
        rig = Rig.of_text(PAIR)
        tables = rig.tables()
        set_disabled(tables, 0, True)
        set_disabled(tables, 3, False)
        self.assertEqual(
            f"0 0 0 {B1:016x} disabled\n0 0 1 {0:016x}\n0 0 2 {0:016x}\n0 0 3 {0:016x} enabled\n"
            "tables 1 entries 4\n",
            stored(rig, tables),
        )

    def test_read_back(self):
        chance = random.Random(1)
        for path in samples():
            rig = Rig.load(path)
            try:
                tables = rig.tables()
            except Refusal:
                continue
            if len(tables.words) > 1000:
                continue
            for at in range(len(tables.words)):
                tables.words[at] = chance.choice((0, B1, 2**64 - 1))
                set_disabled(tables, at, chance.random() < 0.5)
            again = rig.tables()
            read(rig, again, stored(rig, tables), "stored")
            self.assertEqual(list(tables.words), list(again.words))
            self.assertEqual(list(tables.bits), list(again.bits))

    def test_other_lines(self):
        rig = Rig.of_text(PAIR)
        text = stored(rig)
        for wrong, told in [
            (text.replace("0 0 2 ", "0 0 3 "), "line 3: entry 2 of phy 0 of top is due here"),
            (text.replace("b1", "b"), "line 1: this is not EXPANDER PHY INDEX ENTRY"),
            (text.replace("b1", "b1 off"), "line 1: this is not EXPANDER PHY INDEX ENTRY"),
            (text.replace("entries 4", "entries 5"), "4 lines of entries, then the line"),
            ("".join(text.splitlines(True)[:-1]), "4 lines of entries, then the line"),
            (text + text, "4 lines of entries, then the line"),
            ("refused 14 0 0\n", "line 1: this is not"),
            ("", "4 lines of entries, then the line"),
        ]:
            tables = rig.tables()
            with self.subTest(told=told), self.assertRaises(RigError) as seen:
                read(rig, tables, wrong, "stored")
            self.assertIn(told, str(seen.exception))
            self.assertEqual(list(rig.tables().words), list(tables.words))

    def test_tables_and_trace(self):
        """What tables --stored prints is read by tables and trace."""
        ran = run("tables", SAMPLES / "pair.rig", "--stored")
        self.assertEqual((0, stored(Rig.of_text(PAIR)), ""), ran[:3])
        path = self.path("stored", ran.out.replace("b1", "b1 disabled"))
        ran = run("tables", SAMPLES / "pair.rig", "--tables", path)
        self.assertIn(f"  0  {B1:016x}  B1  disabled\n", ran.out)
        ran = run("trace", SAMPLES / "pair.rig", "top", "B1", "--tables", path)
        self.assertEqual((1, "NO DESTINATION at top, 1 expander passed"), (ran[0], ran.out[:40]))
        again = ("--tables", path, "--enable", "top.0.0")
        self.assertEqual(0, run("trace", SAMPLES / "pair.rig", "top", "B1", *again).status)
        ran = run("trace", "--all", SAMPLES / "pair.rig", "--tables", path)
        self.assertIn("NO DESTINATION", ran.out)
        self.assertEqual(1, ran.status)
        for words in (
            ("tables", SAMPLES / "comb.rig", "--tables", path),
            ("trace", SAMPLES / "comb.rig", "row0", "B1", "--tables", path),
            ("tables", SAMPLES / "pair.rig", "--tables", self.folder / "none"),
            ("tables", SAMPLES / "pair.rig", "--tables", self.path("bytes", b"\xff\xfe")),
        ):
            ran = run(*words)
            self.assertEqual((3, "", 1), (ran.status, ran.out, ran.err.count("\n")), ran)
        ran = run("tables", SAMPLES / "pair.rig", "--stored", "--json")
        self.assertEqual((2, ""), ran[:2])


class Command(FolderTest):
    def setUp(self):
        super().setUp()
        self.rig = self.path("rig.bin", Rig.load(ROW).file)
        self.tables = self.path("rig.tables", stored(Rig.load(ROW)))

    def test_in_place(self):
        """The file and the stored tables are edited; no other file is left in the folder."""
        os.chmod(self.rig, 0o640)
        expected = Rig.load(ROW)
        tables = expected.tables()
        ran = run("plug", self.rig, "E2.2", f"{C2:x}", "--tables", self.tables)
        expected.plug(tables, (2, 2), C2)
        told = (
            "E0 phy 0 to E1: 1 word changed\n  3  0000000000000000 -> 50000000000000c2\n"
            "E1 phy 2 to E2: 1 word changed\n  1  0000000000000000 -> 50000000000000c2\n"
            "2 tables touched, 2 words changed\n"
        )
        self.assertEqual((0, told, ""), ran[:3])
        self.assertEqual(expected.file, self.rig.read_bytes())
        self.assertEqual(stored(expected), self.tables.read_text())
        self.assertEqual(0o640, self.rig.stat().st_mode & 0o777)
        ran = run("pull", self.rig, "5000000000000030.2", "--tables", self.tables)
        expected.pull(tables, (2, 2))
        self.assertEqual((0, ""), (ran.status, ran.err))
        self.assertEqual(expected.file, self.rig.read_bytes())
        self.assertEqual(stored(expected), self.tables.read_text())
        self.assertEqual({"rig.bin", "rig.tables"}, set(os.listdir(self.folder)))

    def test_without_stored_tables(self):
        ran = run("pull", self.rig, "E2.1")
        self.assertEqual("2 tables touched, 2 words changed", ran.out.splitlines()[-1])
        ran = run("pull", self.rig, "E2.1")
        told = "E0 phy 0 to E1: no word changed\nE1 phy 2 to E2: no word changed\n"
        self.assertEqual(f"{told}2 tables touched, no word changed\n", ran.out)
        ran = run("pull", self.rig, "E0.1")
        self.assertEqual("0 tables touched, no word changed\n", ran.out)
        self.assertEqual(stored(Rig.load(ROW)), self.tables.read_text())

    def test_entries_that_were_switched(self):
        """In a touched table they are as the library gives them; in another they stay."""
        text = self.tables.read_text()
        text = text.replace("1 2 0 50000000000000c1", "1 2 0 50000000000000c1 disabled")
        text = text.replace("0 0 1 5000000000000030", "0 0 1 5000000000000030 disabled")
        self.tables.write_text(text)
        ran = run("plug", self.rig, "E1.1", f"{B2:x}", "--tables", self.tables)
        self.assertIn("  1  5000000000000030 disabled -> 5000000000000030\n", ran.out)
        self.assertIn("1 table touched, 1 word changed\n", ran.out)
        left = self.tables.read_text()
        self.assertIn("1 2 0 50000000000000c1 disabled\n", left)
        self.assertEqual(1, left.count("disabled"))

    def test_dry_run(self):
        before = (self.rig.read_bytes(), self.tables.read_text())
        told = run("plug", ROW, "bottom.2", f"{C2:x}", "--dry-run")
        self.assertEqual((0, ""), (told.status, told.err))
        for rig in (self.rig, "-"):
            words = ("plug", rig, "E2.2", f"{C2:x}", "--dry-run", "--tables", self.tables)
            ran = run(*words, stdin=before[0])
            named = told.out.replace("top", "E0").replace("middle", "E1").replace("bottom", "E2")
            self.assertEqual((0, named, ""), ran[:3])
        self.assertEqual(before, (self.rig.read_bytes(), self.tables.read_text()))

    def test_output(self):
        """A text, a card and standard input need -o; with it a domain file stays."""
        expected = Rig.load(ROW)
        expected.plug(expected.tables(), (2, 2), C2)
        file = self.rig.read_bytes()
        card = self.path("rig.card", Rig.load(ROW).to_card())
        out = self.folder / "out"
        for rig in (ROW, card, "-"):
            ran = run("plug", rig, "2.2", f"{C2:x}", stdin=file)
            self.assertEqual((2, "", 1), (ran.status, ran.out, ran.err.count("\n")), ran)
            self.assertIn("not edited in place: -o names the domain file", ran.err)
        for rig in (ROW, card, "-", self.rig):
            ran = run("plug", rig, "2.2", f"{C2:x}", "-o", out, stdin=file)
            self.assertEqual((0, "", expected.file), (ran.status, ran.err, out.read_bytes()))
            out.unlink()
            ran = run("plug", rig, "2.2", f"{C2:x}", "-o", "-", stdin=file)
            self.assertEqual((0, "", expected.file), (ran.status, ran.err, ran.raw))
        self.assertEqual(file, self.rig.read_bytes())

    def test_json(self):
        ran = run("plug", self.rig, "E1.1", f"{B2:x}", "--json")
        before = {"address": f"{B1:016x}", "disabled": False}
        after = {"address": f"{B2:016x}", "disabled": False}
        table = {"expander": 0, "name": "E0", "phy": 0}
        change = {"index": 0, "before": before, "after": after}
        expected = {"file": str(self.rig), "tables": 1, "words": 1}
        expected["touched"] = [{**table, "changed": [change]}]
        self.assertEqual(expected, json.loads(ran.out))
        told = json.loads(run("pull", self.rig, "E0.1", "--json", "--dry-run").out)
        self.assertEqual({"file": None, "tables": 0, "words": 0, "touched": []}, told)
        self.assertEqual(2, run("pull", ROW, "0.1", "--json", "-o", "-").status)

    def test_wide_links_together(self):
        rig = SAMPLES / "wide-link.rig"
        ran = run("pull", rig, "1.5", "--dry-run")
        self.assertRegex(ran.out, r"^\w+ phys 0-3 to \w+: 1 word changed in each\n")

    def test_samples(self):
        found = set()
        for path in samples():
            call = CALL.search(path.read_text(encoding="utf-8"))
            if not call:
                continue
            found.add(path.stem)
            expander, phy, address, answer = call.groups()
            words = ["pull"] if int(address, 16) == 0 else ["plug"]
            words += [path, f"{expander}.{phy}"] + ([address] if int(address, 16) else [])
            with self.subTest(sample=path.stem):
                out = self.folder / "out"
                ran = run(*words, "-o", out, "--tables", self.stored_of(path))
                self.assertEqual((1, "", False), (*ran[:2], out.exists()))
                self.assertTrue(ran.err.endswith(f"{answer}: {TOLD[path.stem]}\n"), ran.err)
                self.assertEqual(self.stored, self.path("stored").read_text())
                told = json.loads(run(*words, "-o", out, "--json").out)["refused"]
                self.assertEqual(TOLD[path.stem], told["sentence"])
                place = (told["number"], told["expander"], told["phy"])
                self.assertEqual(answer, "refused {} {} {}".format(*place))
        self.assertEqual(set(TOLD), found)

    def stored_of(self, path):
        self.stored = stored(Rig.load(path))
        return self.path("stored", self.stored)

    def test_a_file_that_is_refused(self):
        ran = run("pull", SAMPLES / "refused-11-ring.rig", "0.0", "--dry-run")
        self.assertEqual((1, ""), ran[:2])
        self.assertIn("refused 11 0 0", ran.err)
        ran = run("pull", self.rig, "E0.1", "--course", "2,3,3")
        self.assertIn("refused 3 0 0", ran.err)

    def test_wrong_usage(self):
        for words in (
            "plug {rig} E0.1",
            "plug {rig} E0 50000000000000c1",
            "plug {rig} E9.1 50000000000000c1",
            "plug {rig} E0.1 C1",
            "plug {rig} E0.1 0000000000000000",
            "pull {rig} E0.1 50000000000000c1",
            "pull {rig} E0.1 --tables -",
        ):
            ran = run(*shlex.split(words.format(rig=self.rig)))
            self.assertEqual((2, "", 1), (ran.status, ran.out, ran.err.count("\n")), ran)

    def test_what_cannot_be_written(self):
        """Neither file is edited then."""
        before = (self.rig.read_bytes(), self.tables.read_text())
        out = self.folder / "none" / "out"
        ran = run("pull", self.rig, "E2.1", "-o", out, "--tables", self.tables)
        self.assertEqual((3, "", f"{out}: No such file or directory\n"), ran[:3])
        ran = run("pull", self.rig, "E2.1", "-o", self.folder, "--tables", self.tables)
        self.assertEqual((3, "", f"{self.folder}: Is a directory\n"), ran[:3])
        for name in ("access", "chmod"):
            fails = PermissionError(13, "Permission denied", "other")
            patch = {"access": {"return_value": False}, "chmod": {"side_effect": fails}}[name]
            with mock.patch(f"metzurgo.writing.os.{name}", **patch):
                ran = run("pull", self.rig, "E2.1", "--tables", self.tables)
            self.assertEqual((3, "", f"{self.tables}: Permission denied\n"), ran[:3])
        self.assertEqual(before, (self.rig.read_bytes(), self.tables.read_text()))
        self.assertEqual({"rig.bin", "rig.tables"}, set(os.listdir(self.folder)))


if __name__ == "__main__":
    unittest.main()
