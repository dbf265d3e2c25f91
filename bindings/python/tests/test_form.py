"""Tests of compact forms, and of all requests of a rig (trace --all)."""

import io
import itertools
import json
import sys
import unittest
from unittest import mock

from metzurgo import PAIR, Form, Rig, Setting, matrix
from metzurgo.answers import NO_PHY, OUTCOMES, Refusal
from metzurgo.form import End, first_word
from metzurgo.library import library
from metzurgo.matrix import rows, starts_of

from .support import SAMPLES, FolderTest, run, samples

PAIR_RIG = SAMPLES / "pair.rig"
X10, X20 = 0x5000000000000010, 0x5000000000000020
A1, B1 = 0x50000000000000A1, 0x50000000000000B1
# The form of the pair rig, by hand: of an expander its address; R (16 bits) and phys (8). Of a phy
# its attached address; vacant (1), type (2), attribute (2), attached expander (6) and phy (8).
WORDS = [
    *(X10, 4 << 48 | 2 << 40),
    *(X20, 2 << 61 | 2 << 59 | 1 << 53 | 0 << 45),
    *(A1, 1 << 61 | 0 << 59),
    *(X20, 0 << 48 | 3 << 40),
    *(X10, 2 << 61 | 1 << 59 | 0 << 53 | 0 << 45),
    *(B1, 1 << 61 | 0 << 59),
    *(0, 0),
]


def accepted():
    """The samples that are accepted, as rigs."""
    for path in samples():
        rig = Rig.load(path)
        try:
            rig.judge()
        except Refusal:
            continue
        yield rig


def refusal(act, *arguments):
    """The text of a refusal."""
    try:
        act(*arguments)
    except Refusal as refused:
        return str(refused)
    return None


class Words(unittest.TestCase):
    def test_the_pair_rig(self):
        rig = Rig.of_text(PAIR)
        form = Form.of(rig)
        self.assertEqual(WORDS, list(form.words))
        self.assertEqual((14, 2, (1, 4)), (len(form), form.expanders, form.needed))
        self.assertEqual(WORDS, list(Form(WORDS).words))

    def test_refused(self):
        self.assertEqual("refused 1 1 2", refusal(Form.of, Rig(Rig.of_text(PAIR).file[:-1])))
        for words in (WORDS[:-1], WORDS + [0], [], [0] * 20000, WORDS[:3] + [0] + WORDS[4:]):
            self.assertEqual("refused 1 0 0", refusal(Form, words))
        self.assertEqual("refused 1 0 0", refusal(Form, WORDS, Setting(2, 2, 2)))
        self.assertEqual("refused 22 0 0", refusal(Form, WORDS, Setting(0, 2, 2)))
        self.assertEqual("refused 22 0 0", refusal(Form, [], Setting(256, 2, 2)))

    def test_each_sample(self):
        """Tables and counts are those of the file."""
        for rig in accepted():
            with self.subTest(rig=rig.source):
                form = Form.of(rig)
                self.assertEqual(len(rig.expanders), form.expanders)
                phys = sum(len(expander.phys) for expander in rig.expanders)
                self.assertEqual(2 * len(rig.expanders) + 2 * phys, len(form))
                self.assertEqual(rig.needed(), form.needed)
                given, tables = rig.tables(), form.tables()
                self.assertEqual(list(given.words), list(tables.words))
                self.assertEqual(list(given.bits), list(tables.bits))
                self.assertEqual(
                    [(table.expander, table.phy, list(table.words)) for table in given.tables],
                    [(table.expander, table.phy, list(table.words)) for table in tables.tables],
                )


class Requests(unittest.TestCase):
    def test_refused(self):
        form = Form(WORDS)
        tables = form.tables()
        for request, number in [((2, 255, A1), 15), ((0, 0, A1), 15), ((0, 255, 0), 17)]:
            self.assertEqual(f"refused {number} 0 0", refusal(form.trace, tables, *request))
            (end,) = form.trace_many(tables, [request])
            self.assertEqual((number, 0, 0), (end.number, end.expander, end.phy))
        (end,) = form.trace_many(tables, [(256, 255, A1)])
        self.assertEqual(15, end.number)
        short = tables._replace(words=(type(tables.words)._type_ * 3)())
        self.assertEqual("refused 16 0 0", refusal(form.trace_many, short, []))
        bits = tables._replace(bits=(type(tables.bits)._type_ * 0)())
        self.assertEqual("refused 18 0 0", refusal(form.trace_many, bits, []))

    def test_lists(self):
        form = Form(WORDS)
        tables = form.tables()
        self.assertEqual([], form.trace_many(tables, []))
        requests = [(0, 255, B1), (1, 255, X10), (1, 1, B1)]
        expected = [End(0, 1, 1, 2), End(0, 0, 255, 2), End(2, 1, 255, 1)]
        self.assertEqual(expected, form.trace_many(tables, requests))
        self.assertEqual(expected, form.trace_many(tables, iter(requests)))
        tables.bits[0] |= 0x80
        self.assertEqual([End(1, 0, 255, 1)], form.trace_many(tables, requests[:1]))
        # A word by itself is no request.
        answers = form.answers(tables, [first_word(0), B1, first_word(0)])
        self.assertEqual(1, len(answers))

    def test_each_sample(self):
        """Traces over the form, one by one and in a list, are those over the file."""
        for rig in accepted():
            with self.subTest(rig=rig.source):
                form, tables = Form.of(rig), rig.tables()
                starts = starts_of(rig)
                requests = [
                    (start.expander, start.arrival, end.address)
                    for start in starts
                    for end in [*starts, starts[0]._replace(address=1)]
                ]
                traced = [rig.trace(tables, *request) for request in requests]
                self.assertEqual(traced, [form.trace(tables, *each) for each in requests])
                ends = [End(*each[:3], len(each.passed)) for each in traced]
                self.assertEqual(ends, form.trace_many(tables, requests))


class All(FolderTest):
    def test_lines(self):
        ran = run("trace", "--all", PAIR_RIG)
        lines = [
            "        top  bottom  A1  B1",
            "top       1       2   1   2",
            "bottom    2       1   2   1",
            "A1        1       2   x   2",
            "B1        2       1   2   x",
            "16 requests: 14 arrived, 0 NO DESTINATION, 2 BAD DESTINATION",
        ]
        self.assertEqual((0, lines, ""), (ran.status, ran.out.splitlines(), ran.err))
        self.assertEqual(ran, run("trace", PAIR_RIG, "--all"))

    def test_altered(self):
        """With the route of top to B1 switched off, top and A1 do not reach it."""
        ran = run("trace", PAIR_RIG, "--disable", "top.0.0", "--all")
        cells = [line.split() for line in ran.out.splitlines()]
        self.assertEqual(1, ran.status)
        self.assertEqual([["-"], ["1"], ["-"], ["x"]], [line[4:] for line in cells[1:5]])
        self.assertIn("16 requests: 12 arrived, 2 NO DESTINATION, 2 BAD DESTINATION", ran.out)
        self.assertEqual(0, run("trace", "--all", PAIR_RIG, "--set", f"top.0.3={A1:016x}").status)

    def test_a_domain_file(self):
        ran = run("trace", "--all", "-", stdin=Rig.of_text(PAIR).file)
        lines = ran.out.splitlines()
        self.assertEqual(["E0", "E1", f"{A1:016x}", f"{B1:016x}"], lines[0].split())
        self.assertEqual({len(lines[0])}, {len(line) for line in lines[:5]})
        self.assertTrue(lines[4].startswith(f"{B1:016x} "))

    def test_each_cell_is_a_trace(self):
        """The names of the first line and of the lines are those of trace FROM TO."""
        for name in ("wide-drive", "fault-table-to-table", "vacant", "subtractive-link"):
            path = SAMPLES / f"{name}.rig"
            first, *lines, last = run("trace", "--all", path).out.splitlines()
            counts = [0, 0, 0]
            for line in lines:
                start, *cells = line.split()
                for to, cell in zip(first.split(), cells):
                    with self.subTest(sample=name, start=start, to=to):
                        told = json.loads(run("trace", path, start, to, "--json").out)
                        outcome = OUTCOMES.index(told["outcome"])
                        counts[outcome] += 1
                        expected = [str(len(told["passed"])), "-", "x"][outcome]
                        self.assertEqual(expected, cell)
            self.assertEqual(
                "{} requests: {} arrived, {} NO DESTINATION, {} BAD DESTINATION".format(
                    sum(counts), *counts
                ),
                last,
            )

    def test_json(self):
        for path in (PAIR_RIG, SAMPLES / "wide-drive.rig", SAMPLES / "single.rig"):
            with self.subTest(path=path):
                told = json.loads(run("trace", "--all", path, "--json").out)
                rig = Rig.load(path)
                tables = rig.tables()
                addresses = [int(each["address"], 16) for each in told["addresses"]]
                self.assertEqual(
                    [rig.label(address) for address in addresses],
                    [each["name"] for each in told["addresses"]],
                )
                counts = dict.fromkeys(OUTCOMES, 0)
                for start in told["starts"]:
                    arrival = NO_PHY if start["arrival"] is None else start["arrival"]
                    self.assertEqual(len(addresses), len(start["ends"]))
                    for address, end in zip(addresses, start["ends"]):
                        traced = rig.trace(tables, start["expander"], arrival, address)
                        counts[end["outcome"]] += 1
                        phy = NO_PHY if end["phy"] is None else end["phy"]
                        self.assertEqual(
                            (traced.outcome, traced.expander, traced.phy, len(traced.passed)),
                            (OUTCOMES.index(end["outcome"]), end["expander"], phy, end["count"]),
                        )
                self.assertEqual(counts, told["requests"])

    def test_status(self):
        self.assertEqual(1, run("trace", "--all", SAMPLES / "fault-table-to-table.rig").status)
        for words in (["top"], ["top", "B1"]):
            ran = run("trace", PAIR_RIG, *words, "--all")
            self.assertEqual((2, ""), (ran.status, ran.out))
            self.assertEqual(1, ran.err.count("\n"))
        self.assertEqual((2, ""), run("trace", PAIR_RIG)[:2])
        self.assertEqual((2, ""), run("trace", PAIR_RIG, "top")[:2])
        ran = run("trace", "--all", SAMPLES / "refused-11-ring.rig")
        self.assertEqual((1, ""), (ran.status, ran.out))
        self.assertIn("refused 11 0 0", ran.err)
        ran = run("trace", "--all", PAIR_RIG, "--course", "2,3,1", "--json")
        self.assertEqual((1, 23), (ran.status, json.loads(ran.out)["refused"]["number"]))

    def test_several_lists(self):
        """However many requests go into one list, the answers are the same."""
        rig = Rig.load(SAMPLES / "comb.rig")
        form, tables, starts = Form.of(rig), rig.tables(), starts_of(rig)
        addresses = [start.address for start in starts]
        whole = list(rows(form, tables, starts, addresses))
        self.assertEqual(starts, [row.start for row in whole])
        for at_once in (1, 12, 13, 24, 30, 143):
            with mock.patch("metzurgo.matrix.AT_ONCE", at_once):
                self.assertEqual(whole, list(rows(form, tables, starts, addresses)))

    def test_progress(self):
        """A line on a terminal counts the starts where it takes longer than a second."""
        clock = itertools.count()
        with mock.patch("metzurgo.shared.time.monotonic", side_effect=lambda: next(clock)):
            with mock.patch.object(sys, "stderr", Terminal()) as err:
                with mock.patch.object(sys, "stdout", io.StringIO()) as out:
                    rig = Rig.load(PAIR_RIG)
                    self.assertEqual(0, matrix.show(rig, rig.tables(), False))
        self.assertIn("\rstarts 3 of 4\r", err.getvalue())
        self.assertEqual(run("trace", "--all", PAIR_RIG).out, out.getvalue())


class Terminal(io.StringIO):
    """What is written to a terminal."""

    def isatty(self):
        return True


class Calls(unittest.TestCase):
    def test_words_as_they_are_lent(self):
        """Lists of numbers and arrays give the same answers, and are left as they were."""
        calls, rig = library(), Rig.of_text(PAIR)
        self.assertEqual(WORDS, calls.compact(rig.setting, rig.file))
        form = Form(WORDS)
        tables = form.tables()
        requests = [first_word(0), B1]
        for words in (WORDS, tuple(WORDS), form.words):
            answers = calls.compact_trace_many(
                rig.setting, words, tables.words, tables.bits, requests
            )
            self.assertEqual([1 << 16 | 1 << 8 | 2], list(answers))
            self.assertEqual(WORDS, list(words))


if __name__ == "__main__":
    unittest.main()
