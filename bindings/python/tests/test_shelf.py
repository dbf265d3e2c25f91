"""Tests of shelves: what they are told, what they answer and hold, and metzurgo shelf."""

import json
import os
import random
import re
import shutil
import signal
import subprocess
import sys
import unittest
from pathlib import Path

from metzurgo import PAIR, Refusal
from metzurgo.answers import RESULTS
from metzurgo.library import library
from metzurgo.rig import Rig
from metzurgo.shelf import OTHER, TABLE, VACANT, Shelf

from .support import ROOT, SAMPLES, FolderTest, run, samples

PAIR_RIG = SAMPLES / "pair.rig"
B1 = 0x50000000000000B1
KINDS = [TABLE, VACANT, OTHER, TABLE]  # of the shelf of these tests; R is 2
TOLD = ("--indexes", "2", "--kinds", "table,vacant,other,table")
SENT = Path(__file__).with_name("smp_conf_route_info.hex")
ZERO = "0" * 16


def frame(phy, index, address=B1, disabled=False, length=9):
    return library().write_route(phy, index, address, disabled, length)


def held(shelf):
    """Every entry that can be read."""
    return {
        (phy, index): (shelf.entry(phy, index), shelf.disabled(phy, index))
        for phy in range(18)
        for index in range(66)
        if shelf.disabled(phy, index) is not None
    }


def rigs():
    """The samples that judging accepts, with the expanders that a shelf can be like."""
    for path in samples():
        if run("judge", path).status == 0:
            rig = Rig.load(path)
            for expander in rig.expanders:
                if len(expander.phys) <= 16 and expander.indexes <= 64:
                    yield path, rig, expander


class ShelfTest(unittest.TestCase):
    def test_what_it_can_be_told(self):
        for kinds, indexes, can in [
            ([TABLE], 0, True),
            ([OTHER] * 16, 64, True),
            ([], 4, False),
            ([TABLE] * 17, 4, False),
            ([TABLE] * 257, 4, False),
            ([TABLE], 65, False),
            ([TABLE], 65536, False),
            ([TABLE], -1, False),
            ([TABLE, 3], 4, False),
            ([TABLE, 256], 4, False),
            ([-1], 4, False),
        ]:
            with self.subTest(kinds=kinds, indexes=indexes):
                if can:
                    Shelf(kinds, indexes)
                else:
                    with self.assertRaises(Refusal) as caught:
                        Shelf(kinds, indexes)
                    self.assertEqual("refused 3 0 0", str(caught.exception))

    def test_a_fresh_one(self):
        shelf = Shelf(KINDS, 2)
        self.assertEqual({(phy, at): (0, True) for phy in (0, 3) for at in (0, 1)}, held(shelf))
        for phy, index in ((256, 0), (-1, 0), (0, 65536), (0, -1)):
            self.assertIsNone(shelf.entry(phy, index))

    def test_results_in_their_order(self):
        for phy, index, result in [
            (4, 0, 0x10),
            (127, 2, 0x10),
            (1, 0, 0x16),
            (1, 2, 0x16),
            (2, 0, 0x11),
            (3, 2, 0x11),
            (3, 1, 0x00),
        ]:
            for length in (0, 9):
                shelf = Shelf(KINDS, 2)
                before = held(shelf)
                self.assertEqual(result, shelf.obey(frame(phy, index, length=length)))
                if result == 0:
                    before[phy, index] = (B1, False)
                self.assertEqual(before, held(shelf), (phy, index))

    def test_refused_frames(self):
        shelf = Shelf(KINDS, 2)
        good = frame(0, 0)
        before = held(shelf)
        for spoiled, number in [
            (good[:39], 1),
            (good + b"\0", 1),
            (b"", 1),
            (b"\x41" + good[1:], 2),
            (good[:3] + b"\x08" + good[4:], 2),
            (good[:9] + b"\x80" + good[10:], 15),
        ]:
            with self.assertRaises(Refusal) as caught:
                shelf.obey(spoiled)
            self.assertEqual((number, before), (caught.exception.number, held(shelf)))

    def test_the_frames_of_a_table_in_any_order(self):
        numbers = random.Random(6)
        words = [B1, 0, 7, 1 << 63, 0]
        frames = [frame(1, at, word, word == 0) for at, word in enumerate(words)]
        for _ in range(20):
            shelf = Shelf([TABLE, TABLE], 5)
            shelf.obey(frame(0, 4))
            before = held(shelf)
            before.update({(1, at): (word, word == 0) for at, word in enumerate(words)})
            numbers.shuffle(frames)
            for _ in range(2):  # again changes nothing
                self.assertEqual({0}, {shelf.obey(each) for each in frames})
                self.assertEqual(before, held(shelf))


class Command(FolderTest):
    def test_a_rig_loaded_into_shelves(self):
        """frames RIG E | shelf RIG E shows what tables RIG has for that expander."""
        count = 0
        for path, _, expander in rigs():
            given = json.loads(run("tables", "--json", path).out)["tables"]
            given = [table for table in given if table["expander"] == expander.number]
            printed = run("tables", path).out
            blocks = re.findall(rf"^{expander.name} phys? .*\n(?:  .*\n)*", printed, re.M)
            for form, words in (((), ()), (("--raw",), ("--raw",)), (("--length", "0"), ())):
                with self.subTest(sample=path.stem, expander=expander.name, form=form):
                    frames = run("frames", path, expander.name, *form).raw
                    loaded = run("shelf", path, expander.name, "--json", *words, stdin=frames)
                    answer = json.loads(loaded.out)
                    self.assertEqual((0, given), (loaded.status, answer["tables"]))
                    self.assertEqual({0} if given else set(), results(answer))
                    shown = run("shelf", path, expander.name, "--quiet", *words, stdin=frames)
                    lines = shown.out.splitlines(keepends=True)
                    self.assertEqual("".join(blocks), "".join(lines[:-1]))
                    count += bool(given)
        self.assertGreater(count, 20)

    def test_the_phys_of_an_expander(self):
        path = self.path(
            "rig",
            "drive A 50000000000000a1\nexpander only 5000000000000010 R 3 configurable\n"
            "phy 0 vacant\nphy 1 table empty\nphy 2 direct to A\nphy 3 subtractive empty\n",
        )
        sent = "\n".join(frame(phy, 0).hex() for phy in range(5)).encode()
        answer = json.loads(run("shelf", path, "only", "--json", stdin=sent).out)
        found = [request["result"] for request in answer["requests"]]
        self.assertEqual([0x16, 0x00, 0x11, 0x11, 0x10], found)

    def test_lines(self):
        sent = b"# a comment\n\n"
        sent += b"".join(each.hex().encode() + b"\n" for each in (frame(3, 1), frame(0, 2)))
        sent += frame(1, 0, 0, True).hex(" ").upper().encode() + b"\r\n"
        sent += frame(9, 0).hex().encode()
        self.assertEqual(
            (
                1,
                f"00h SMP FUNCTION ACCEPTED  phy 3  index 1  {B1:016x}\n"
                f"11h INDEX DOES NOT EXIST   phy 0  index 2  {B1:016x}\n"
                f"16h PHY VACANT             phy 1  index 0  {ZERO}  disabled\n"
                f"10h PHY DOES NOT EXIST     phy 9  index 0  {B1:016x}\n"
                "shelf phy 0, nothing attached: 2 entries\n  2 zeros, disabled\n"
                "shelf phy 3, nothing attached: 2 entries\n"
                f"  0  {ZERO}  disabled\n  1  {B1:016x}\n2 tables, 4 entries\n",
                "",
            ),
            run("shelf", *TOLD, stdin=sent)[:3],
        )
        lines = run("shelf", *TOLD, "--quiet", stdin=sent).out.splitlines()
        self.assertEqual(["11h", "16h", "10h"], [line[:3] for line in lines[:3]])
        self.assertEqual("shelf phy 0, nothing attached: 2 entries", lines[3])
        self.assertEqual(0, run("shelf", *TOLD, stdin=frame(3, 1).hex().encode()).status)

    def test_refused_frames(self):
        good = frame(0, 0)
        for spoiled, refusal in [
            (good[:39], "1 0 0: The frame has 39 bytes: a request has 40, and 44 with CRC."),
            (good[:1], "1 0 0: The frame has 1 byte: a request has 40, and 44 with CRC."),
            (b"\x41" + good[1:], "2 0 0: Byte 0 of the frame is 41h: it has to be 40h."),
            (
                good[:3] + b"\x08" + good[4:],
                "2 0 0: Byte 3 of the frame is 08h: it has to be 00h or 09h.",
            ),
            (good[:9] + b"\x80" + good[10:], "15 0 0: The frame names phy 128: phys are 0 to 127."),
        ]:
            ran = run("shelf", *TOLD, stdin=spoiled.hex().encode())
            self.assertEqual((1, f"refused {refusal}"), (ran.status, ran.out.splitlines()[0]))
            ran = run("shelf", *TOLD, "--json", stdin=spoiled.hex().encode())
            (request,) = json.loads(ran.out)["requests"]
            self.assertIsNone(request["result"])
            self.assertEqual(int(refusal.split()[0]), request["refused"]["number"])
            self.assertEqual(refusal.partition(": ")[2], request["refused"]["sentence"])

    def test_lines_that_are_not_hexadecimal(self):
        ran = run("shelf", *TOLD, stdin=b"frame\n" + frame(3, 1).hex().encode() + b"\n4\n\xff\n")
        self.assertEqual(3, ran.status)
        message = "this is not a request in hexadecimal\n"
        expected = "".join(f"standard input: line {at}: {message}" for at in (1, 3, 4))
        self.assertEqual(expected, ran.err)
        self.assertTrue(ran.out.startswith("00h SMP FUNCTION ACCEPTED"), ran.out)

    def test_crc(self):
        crc = bytes.fromhex("deadbeef")
        two = [frame(3, 1), frame(0, 0)]
        expected = run("shelf", *TOLD, stdin=b"\n".join(each.hex().encode() for each in two))
        for words, sent in [
            ([], b"\n".join((each + crc).hex().encode() for each in two)),
            (["--raw"], b"".join(two)),
            (["--raw", "--crc"], b"".join(each + crc for each in two)),
        ]:
            self.assertEqual(expected, run("shelf", *TOLD, *words, stdin=sent))
        ran = run("shelf", *TOLD, "--raw", stdin=b"".join(two) + b"\x40")
        self.assertEqual(1, ran.status)
        self.assertIn("refused 1 0 0: The frame has 1 byte", ran.out)

    def test_what_a_shelf_cannot_be(self):
        phys = "".join(f"phy {phy} direct empty\n" for phy in range(17))
        many = self.path("many", f"expander wide 5000000000000010\n{phys}")
        deep = self.path(
            "deep", "# R\nexpander deep 5000000000000010 R 65 configurable\nphy 0 table empty\n"
        )
        for words, where, sentence in [
            ((many, "wide"), f"{many}: line 1", "wide has 17 phys: a shelf has 1 to 16."),
            ((deep, "deep"), f"{deep}: line 2", "deep has R 65: a shelf has R 0 to 64."),
            (
                ("--indexes", "65", "--kinds", "other"),
                "metzurgo shelf",
                "The shelf has R 65: a shelf has R 0 to 64.",
            ),
            (
                ("--indexes", "65536", "--kinds", "other"),
                "metzurgo shelf",
                "The shelf has R 65536: a shelf has R 0 to 64.",
            ),
            (
                ("--indexes", "0", "--kinds", ",".join(["other"] * 17)),
                "metzurgo shelf",
                "The shelf has 17 phys: a shelf has 1 to 16.",
            ),
        ]:
            self.assertEqual(
                (1, "", f"{where}: refused 3 0 0: {sentence}\n"), run("shelf", *words)[:3]
            )
            refused = json.loads(run("shelf", "--json", *words).out)["refused"]
            self.assertEqual((3, sentence), (refused["number"], refused["sentence"]))

    def test_wrong_usage(self):
        for words in [
            (),
            (PAIR_RIG,),
            ("--indexes", "2"),
            ("--kinds", "table"),
            (PAIR_RIG, "top", *TOLD),
            (PAIR_RIG, "top", "--indexes", "2"),
            (PAIR_RIG, *TOLD),
            (PAIR_RIG, "middle"),
            ("-", "top"),
            ("--indexes", "x", "--kinds", "table"),
            ("--indexes", "-1", "--kinds", "table"),
            ("--indexes", "2", "--kinds", "direct"),
            ("--indexes", "2", "--kinds", ""),
            (*TOLD, "--crc"),
        ]:
            ran = run("shelf", *words)
            self.assertEqual((2, "", 1), (ran.status, ran.out, ran.err.count("\n")), words)
        refused = run("shelf", SAMPLES / "refused-10-not-configurable.rig", "top")
        self.assertEqual((1, ""), (refused.status, refused.out))
        self.assertIn("refused 10 0 0", refused.err)
        self.assertEqual(3, run("shelf", self.folder / "none", "top").status)

    def test_json_of_a_shelf_that_is_told_its_phys(self):
        (table, _) = json.loads(run("shelf", *TOLD, "--json").out)["tables"]
        entry = {"address": ZERO, "name": None, "disabled": True}
        expected = dict(expander=0, name="shelf", address=None, phy=0, to=None)
        self.assertEqual({**expected, "entries": [entry] * 2}, table)

    def test_no_indexes(self):
        ran = run(
            "shelf", "--indexes", "0", "--kinds", "table,table", stdin=frame(0, 0).hex().encode()
        )
        self.assertEqual((1, "2 tables, 0 entries"), (ran.status, ran.out.splitlines()[-1]))
        self.assertTrue(ran.out.startswith("11h INDEX DOES NOT EXIST"), ran.out)

    def test_it_is_held_while_it_runs(self):
        """Each result is printed before the next request is sent; an interrupt ends the input."""
        environment = {**os.environ, "PYTHONPATH": str(ROOT / "bindings/python")}
        for end in (None, signal.SIGINT):
            with subprocess.Popen(
                [sys.executable, "-m", "metzurgo", "shelf", *TOLD],
                env=environment,
                stdin=subprocess.PIPE,
                stdout=subprocess.PIPE,
                text=True,
            ) as held_shelf:
                for phy, index, result in ((3, 1, 0x00), (1, 0, 0x16), (3, 0, 0x00)):
                    held_shelf.stdin.write(frame(phy, index).hex() + "\n")
                    held_shelf.stdin.flush()
                    answer = held_shelf.stdout.readline()
                    self.assertTrue(answer.startswith(f"{result:02X}h {RESULTS[result]}"), answer)
                if end:
                    held_shelf.send_signal(end)
                else:
                    held_shelf.stdin.close()
                rest = held_shelf.stdout.read()
            self.assertEqual("2 tables, 4 entries", rest.splitlines()[-1])
            self.assertEqual(1, held_shelf.returncode)


def results(answer):
    return {request["result"] for request in answer["requests"]}


class SmpUtils(FolderTest):
    """Requests as smp_conf_route_info sends them."""

    def stored(self):
        text = SENT.read_text(encoding="utf-8")
        return re.findall(r"^# (smp_conf_route_info .*)\n([0-9a-f]{88})$", text, re.M)

    def test_a_shelf_obeys_them(self):
        commands = self.stored()
        self.assertEqual(2, len(commands))
        ran = run("shelf", *TOLD, stdin=SENT.read_bytes())
        self.assertEqual(
            (
                0,
                f"00h SMP FUNCTION ACCEPTED  phy 3  index 1  {B1:016x}\n"
                "00h SMP FUNCTION ACCEPTED  phy 0  index 0  5000c50012345678  disabled\n"
                "shelf phy 0, nothing attached: 2 entries\n  0  5000c50012345678  disabled\n"
                "  1 zero, disabled\n"
                "shelf phy 3, nothing attached: 2 entries\n"
                f"  0  {ZERO}  disabled\n  1  {B1:016x}\n2 tables, 4 entries\n",
            ),
            ran[:2],
        )
        raw = b"".join(bytes.fromhex(sent) for _, sent in commands)
        self.assertEqual(ran, run("shelf", *TOLD, "--raw", "--crc", stdin=raw))

    @unittest.skipUnless(
        shutil.which("smp_conf_route_info") and shutil.which("cc"),
        "smp_utils or a C compiler is not there",
    )
    def test_the_tool_sends_them(self):
        preload = self.folder / "smp_stored.so"
        source = Path(__file__).with_name("smp_stored.c")
        subprocess.run(["cc", "-shared", "-fPIC", "-o", preload, source], check=True)
        device = self.folder / "device"
        device.mkdir()
        environment = {**os.environ, "LD_PRELOAD": str(preload)}
        for command, _ in self.stored():
            subprocess.run([*command.split(), str(device)], env=environment, check=True)
        sent = bytes.fromhex("".join(sent for _, sent in self.stored()))
        self.assertEqual(sent, (device / "requests").read_bytes())


if __name__ == "__main__":
    unittest.main()
