"""Tests of the sentences: one for each refused sample, and the general ones."""

import itertools
import random
import re
import unittest

from metzurgo.answers import Refusal, Setting
from metzurgo.rig import Rig
from metzurgo.sentences import GENERAL, loop, longest, sentence

from .support import SAMPLES, run, samples

# Samples that judging refuses: the sentence, without the line before it.
TOLD = {
    "refused-01-bytes-after": "Bytes follow the last phy that the file counts: remove them, or"
    " count the expanders that they belong to in the header",
    "refused-01-cut-short": "The file ends within the DISCOVER response of phy 2 of bottom:"
    " remove the line that cuts the file",
    "refused-01-expander-missing": "The header counts 3 expanders, and the file ends before"
    " expander 2: count the expanders that are there, or add those that are missing",
    "refused-01-long-cut-short": "The file ends within the DISCOVER response of phy 2 of bottom:"
    " remove the line that cuts the file",
    "refused-02-discover": "Byte 1 of the DISCOVER response of phy 1 of bottom is 11h:"
    " it has to be 10h",
    "refused-02-file-byte": "The first byte of the file is 11h: a domain file begins with 10h",
    "refused-02-report-general": "Byte 2 of the REPORT GENERAL response of bottom is 01h:"
    " it has to be 00h",
    "refused-02-response-length": "Byte 3 of the DISCOVER response of phy 2 of bottom is 10h:"
    " it has to be 00h or 0Fh",
    "refused-03-course": "Expander bottom has 3 phys: an expander has 1 to 2 in this course",
    "refused-03-no-expanders": "The header counts 0 expanders: there have to be 1 to 64 in this"
    " course",
    "refused-03-no-phys": "Expander bottom has 0 phys: an expander has 1 to 128 in this course",
    "refused-03-too-many-expanders": "The header counts 65 expanders: there have to be 1 to 64 in"
    " this course",
    "refused-03-too-many-phys": "Expander only has 129 phys: an expander has 1 to 128 in this"
    " course",
    "refused-04-used": "Expander bottom has the address of top, 5000000000000010: give bottom an"
    " address of its own",
    "refused-04-zero": "The address of top is zero: give top its SAS address",
    "refused-05-identifier": "The response of phy 1 of bottom says that it is phy 2: put the"
    " response of phy 1 there",
    "refused-05-own-address": "The response of phy 2 of bottom bears the address 5000000000000010"
    " as its own, and bottom has 5000000000000020: put a response of bottom there",
    "refused-06-address-zero": "Something with address zero is attached to phy 1 of bottom: give"
    " the address of what is attached, or make the phy empty",
    "refused-06-attribute": "The routing attribute of phy 2 of bottom is 3, a reserved code: it"
    " has to be 0 (direct), 1 (subtractive) or 2 (table)",
    "refused-06-type": "The attached device type at phy 1 of bottom is 4, a reserved code: it has"
    " to be 0 (nothing), 1 (drive), 2 or 3 (expander)",
    "refused-07-direct": "Phy 0 of top is a direct phy, and it is cabled to the expander bottom:"
    " make it a table or subtractive phy, or attach a drive there",
    "refused-07-no-far-expander": "Phy 2 of top is cabled to an expander 5000000000000030, which"
    " the rig does not have: add that expander, or pull the cable",
    "refused-07-not-named-back": "Phy 0 of top is cabled to phy 0 of bottom, which says that phy 1"
    " of top is there: let phy 0 of bottom name phy 0 of top",
    "refused-08-expander-address": "The drive at phy 1 of top has the address of the expander"
    " bottom: give the drive an address of its own, or describe the cable as one to an expander",
    "refused-08-two-expanders": "Drive A1 is attached to phy 1 of bottom and to phy 1 of top:"
    " attach a drive to one expander only",
    "refused-09-attributes": "Phy 1 of top is subtractive and phy 0 is table, and both lead to"
    " bottom: give both the same attribute",
    "refused-09-two-subtractive": "Phy 1 of middle and phy 0 are both subtractive, and lead to"
    " bottom and top: make one of them a table phy",
    "refused-10-not-configurable": "Phy 0 of top is a table phy, and top is not configurable:"
    " make top configurable",
    "refused-11-ring": "The cables between first, second, third form a loop: pull one of them",
    "refused-11-to-itself": "A cable joins only to itself: pull it",
    "refused-12-island": "No chain of cables joins bottom to top: cable bottom, or an expander"
    " that it is joined to, to the others",
    "refused-14-list-too-long": "Phy 0 of top has more entries to hold than the R of top, which is"
    " 1: set R of top to 2 or more, or attach fewer devices beyond it",
    "refused-22-setting": "The course's setting 64,0,64 is out of its range: set most expanders to"
    " 1 to 64, most phys to 1 to 128 and the longest chain to 1 to 64",
    "refused-23-chain": "The chain bottom, middle, top has 3 expanders, and the course allows 2:"
    " shorten it, or judge by a course that allows it",
}

# Numbers that judging never gives.
LATER = (15, 16, 17, 18, 19, 20, 21, 24)


def course_of(text):
    """The setting of the first call that a sample states."""
    match = re.search(r"^# call: setting ([0-9]+) ([0-9]+) ([0-9]+) judge", text, re.M)
    return ["--course", ",".join(match.groups())] if match else []


class Samples(unittest.TestCase):
    def test_each_sample(self):
        for path in samples():
            number = re.match(r"refused-([0-9]+)", path.stem)
            text = path.read_text(encoding="utf-8")
            judged = re.search(r"^# call: .*judge$", text, re.M)
            if not number or int(number[1]) in LATER or not judged:
                self.assertNotIn(path.stem, TOLD)
                continue
            with self.subTest(sample=path.stem):
                answer = re.search(r"^# answer: (refused .*)$", text, re.M)[1]
                ran = run("judge", *course_of(text), path)
                told, refused = ran.out.splitlines()
                self.assertEqual((1, answer, ""), (ran.status, refused, ran.err))
                self.assertEqual(TOLD[path.stem], re.sub(r"^line [0-9]+: |\.$", "", told))

    def test_lines_are_those_of_the_text(self):
        for name, word in [
            ("refused-02-report-general", "expander bottom"),
            ("refused-03-no-phys", "expander bottom"),
            ("refused-04-zero", "expander top"),
            ("refused-05-identifier", "phy 1 direct to B1"),
            ("refused-07-direct", "phy 0 direct to bottom.0"),
            ("refused-12-island", "expander bottom"),
            ("refused-14-list-too-long", "phy 0 table"),
        ]:
            with self.subTest(sample=name):
                path = SAMPLES / f"{name}.rig"
                lines = path.read_text(encoding="utf-8").split("\n")
                line = int(re.match(r"line ([0-9]+): ", run("judge", path).out)[1])
                self.assertIn(word, lines[line - 1])

    def test_a_domain_file_has_no_lines(self):
        file = Rig.load(SAMPLES / "refused-10-not-configurable.rig").file
        expected = "Phy 0 of E0 is a table phy, and E0 is not configurable: make E0 configurable."
        self.assertEqual(f"{expected}\nrefused 10 0 0\n", run("judge", "-", stdin=file).out)

    def test_repaired_as_told(self):
        """R of the sentence for 14 is accepted, and one less is not."""
        text = (SAMPLES / "comb.rig").read_text(encoding="utf-8")
        text = re.sub(r"(expander row0 .*)R [0-9]+", r"\1R 0", text)
        told = run("judge", "-", stdin=text.encode()).out
        least = int(re.search(r"set R of row0 to ([0-9]+) or more", told)[1])
        self.assertEqual(7, least)
        for indexes, status in ((least, 0), (least - 1, 1)):
            altered = re.sub(r"(expander row0 .*)R 0", rf"\1R {indexes}", text)
            self.assertEqual(status, run("judge", "-", stdin=altered.encode()).status)


class General(unittest.TestCase):
    def test_every_number_has_a_sentence(self):
        self.assertEqual([*range(1, 13), *range(14, 25)], sorted(GENERAL))
        for number in LATER:
            told = sentence(Rig(b""), Refusal(number, 0, 0))
            self.assertRegex(told, r"^[A-Z][^:]+: [^:]+\.$")
        self.assertEqual(
            "The requested address is zero: ask for the address of a device.",
            sentence(Rig(b""), Refusal(17, 0, 0)),
        )

    def test_causes_of_7(self):
        pair = (SAMPLES / "pair.rig").read_text(encoding="utf-8")
        for line, told in [
            ("set top.0 attached-phy 9", "phy 9 of bottom, which has no such phy"),
            ("set bottom.0 type 1", "phy 0 of bottom, which says that no expander is there"),
            ("set top.0 attached 50000000000000ee", "expander 50000000000000ee, which the rig"),
        ]:
            with self.subTest(line=line):
                ran = run("judge", "-", stdin=f"{pair}\n{line}\n".encode())
                self.assertIn(told, ran.out)
                self.assertIn("\nrefused 7 0 0\n", ran.out)

    def test_short_files(self):
        for file, told, refused in [
            (b"", "The file has 0 bytes and ends within its header", "1 0 0"),
            (b"\x10", "The file has 1 byte and ends within its header", "1 0 0"),
            (b"\xff", "The file has 1 byte and ends within its header", "1 0 0"),
            (b"\x10\x01", "The header counts 1 expander, and the file ends before", "1 0 0"),
            (b"\x10\x01\x50", "The file ends within the REPORT GENERAL response of E0", "1 0 0"),
        ]:
            with self.subTest(file=file):
                ran = run("judge", "-", stdin=file)
                self.assertIn(told, ran.out)
                self.assertTrue(ran.out.endswith(f"\nrefused {refused}\n"), ran.out)

    def test_where_no_request_starts(self):
        """The sentence of a trace names the place that was asked for; others of 15 name none."""
        text = (SAMPLES / "pair.rig").read_text(encoding="utf-8")
        rig = Rig.of_text(text.replace("phy 2 direct empty", "phy 2 direct empty\n  phy 3 vacant"))
        tables = rig.tables()
        change = "a request may start only at an expander or at a phy with an end device."
        for place, told in [
            ((1, 2), "Phy 2 of bottom is empty"),
            ((1, 3), "Phy 3 of bottom is vacant"),
            ((0, 0), "Phy 0 of top leads to the expander bottom"),
            ((1, 4), "Expander bottom has no phy 4"),
            ((2, 255), "There is no expander 2"),
        ]:
            with self.subTest(place=place), self.assertRaises(Refusal) as seen:
                rig.trace(tables, *place, rig.names["B1"])
            self.assertEqual("refused 15 0 0", str(seen.exception))
            self.assertEqual(f"{told}: {change}", sentence(rig, seen.exception))
        self.assertIn("loading frame", sentence(rig, Refusal(15, 0, 0)))

    def test_an_unknown_number(self):
        self.assertIn("refused with 99", sentence(Rig(b""), Refusal(99, 0, 0)))


class Graphs(unittest.TestCase):
    """The loop and the chain that a sentence names, on small graphs."""

    def test_a_loop_is_one(self):
        chance = random.Random(1)
        loops = 0
        for _ in range(3000):
            count = chance.randint(1, 7)
            near = [set() for _ in range(count)]
            for first, second in itertools.combinations(range(count), 2):
                if chance.random() < 0.3:
                    near[first].add(second)
                    near[second].add(first)
            edges = sum(map(len, near)) // 2
            parts = components(near)
            ring = loop([sorted(others) for others in near])
            self.assertEqual(edges > count - parts, bool(ring), near)
            if ring:
                loops += 1
                self.assertGreaterEqual(len(ring), 3)
                self.assertEqual(len(ring), len(set(ring)))
                for at, expander in enumerate(ring):
                    self.assertIn(ring[at - 1], near[expander], (near, ring))
        self.assertGreater(loops, 500)

    def test_the_longest_chain(self):
        chance = random.Random(2)
        for _ in range(500):
            count = chance.randint(1, 8)
            near = [[] for _ in range(count)]
            for expander in range(1, count):
                other = chance.randrange(expander)
                near[expander].append(other)
                near[other].append(expander)
            chain = longest(near)
            for first, second in zip(chain, chain[1:]):
                self.assertIn(second, near[first])
            self.assertEqual(len(set(chain)), len(chain))
            self.assertEqual(max(len(path) for path in paths(near)), len(chain))


def components(near):
    left, parts = set(range(len(near))), 0
    while left:
        parts += 1
        stack = [left.pop()]
        while stack:
            for other in near[stack.pop()]:
                if other in left:
                    left.remove(other)
                    stack.append(other)
    return parts


def paths(near):
    """All chains of a tree."""
    stack = [[start] for start in range(len(near))]
    while stack:
        path = stack.pop()
        yield path
        stack.extend(path + [other] for other in near[path[-1]] if other not in path)


class Course(unittest.TestCase):
    def test_a_chain_is_named_that_is_too_long(self):
        rig = Rig.load(SAMPLES / "comb.rig", Setting(64, 128, 3))
        with self.assertRaises(Refusal) as caught:
            rig.judge()
        self.assertEqual(23, caught.exception.number)
        told = sentence(rig, caught.exception)
        self.assertIn("has 5 expanders, and the course allows 3", told)
