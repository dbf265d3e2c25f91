"""Tests of what the calls are given: numbers out of range, bytes, words, a shelf."""

import ctypes
import unittest
from array import array

from metzurgo import PAIR, Form, Refusal, Rig, Setting, Shelf
from metzurgo.library import library
from metzurgo.rig import EventRefused, JoinRefused
from metzurgo.sentences import sentence
from metzurgo.shelf import TABLE

B1, C1 = 0x50000000000000B1, 0x50000000000000C1
NO_BYTES = (256, 511, -1, -256, 2**64, 2**64 + 1)  # low bits that a byte has, too
NO_ADDRESSES = (2**64, 2**64 + B1, -1, -(2**64) + B1)
NO_NUMBERS = (None, 1.0, "1", b"1")
OPEN = PAIR.replace("direct to A1", "subtractive").replace("drive A1", "drive Z")


class Arguments(unittest.TestCase):
    def setUp(self):
        self.calls, self.rig = library(), Rig.of_text(PAIR)
        self.tables = self.rig.tables()
        self.form = Form.of(self.rig)
        self.file = (self.rig.setting, self.rig.file)
        self.lent = (*self.file, self.tables.words, self.tables.bits)

    def refused(self, number, call, *arguments, **named):
        with self.subTest(arguments=arguments, **named):
            with self.assertRaises(Refusal) as seen:
                call(*arguments, **named)
            self.assertEqual(f"refused {number} 0 0", str(seen.exception))

    def wrong(self, kind, name, call, *arguments, **named):
        """The error is of a kind, and names the argument first."""
        with self.subTest(name=name, arguments=arguments, **named):
            with self.assertRaisesRegex(kind, f"^{name}: "):
                call(*arguments, **named)

    def numbered(self):
        """The calls with an address, each as a function of it, and their names for it."""
        calls, rig, tables = self.calls, self.rig, self.tables
        return [
            ("address", lambda it: rig.trace(tables, 0, 255, it)),
            ("address", lambda it: rig.steps(tables, 0, 255, it)),
            ("address", lambda it: rig.plug(tables, (1, 2), it)),
            ("address", lambda it: self.form.trace(tables, 0, 255, it)),
            ("address", lambda it: self.form.trace_many(tables, [(0, 255, it)])),
            ("address", lambda it: calls.write_route(0, 0, it)),
            ("first", lambda it: calls.make(it, 2, [3])),
            ("second", lambda it: calls.make(1, it, [3])),
            ("words", lambda it: calls.make(1, 2, [3, it])),
            ("words", lambda it: Form([*self.form.words, it])),
            ("form", lambda it: calls.compact_tables(rig.setting, [it], 0)),
            ("requests", lambda it: calls.compact_trace_many(*self.over_form(), [255, it])),
        ]

    def over_form(self):
        return self.rig.setting, self.form.words, self.tables.words, self.tables.bits


class Numbers(Arguments):
    def test_requests(self):
        """A start or an arrival phy is never cut to its low byte."""
        for wrong in NO_BYTES:
            for start, arrival in ((wrong, 255), (0, wrong), (wrong, wrong)):
                request = (self.tables, start, arrival, B1)
                for call in (self.rig.trace, self.rig.steps, self.form.trace):
                    self.refused(15, call, *request)
                (end,) = self.form.trace_many(self.tables, [request[1:]])
                self.assertEqual("refused 15 0 0", str(end))

    def test_the_order_of_refusals(self):
        """A number out of range is refused when the call comes to it."""
        course = Rig(self.rig.file, setting=Setting(2, 3, 1))
        self.refused(23, course.trace, self.tables, 256, 255, B1)
        self.refused(23, course.pull, self.tables, (256, 0))
        self.refused(2, self.calls.write_route, 256, 65536, B1, length=256)
        self.refused(15, self.calls.write_route, 256, 65536, B1, length=9)

    def test_events(self):
        before = (self.rig.file, list(self.tables.words), list(self.tables.bits))
        for wrong in NO_BYTES:
            for place in ((wrong, 2), (1, wrong), (257, 258)):
                self.refused(20, self.rig.plug, self.tables, place, C1)
                self.refused(20, self.rig.pull, self.tables, place)
                self.refused(20, self.calls.event, *self.lent, place, C1)
        after = (self.rig.file, list(self.tables.words), list(self.tables.bits))
        self.assertEqual(before, after)

    def test_sentences_of_places(self):
        for place, told in (
            ((257, 2), "There is no expander 257: the rig has expanders 0 to 1."),
            ((-1, 2), "There is no expander -1: the rig has expanders 0 to 1."),
            ((1, 258), "Expander bottom has no phy 258: it has phys 0 to 2."),
            ((1, -1), "Expander bottom has no phy -1: it has phys 0 to 2."),
        ):
            with self.assertRaises(EventRefused) as seen:
                self.rig.pull(self.tables, place)
            self.assertEqual(told, sentence(seen.exception.rig, seen.exception))

    def test_joins(self):
        left, right = Rig.of_text(OPEN), Rig.of_text(OPEN.replace(" 50", " 51"))
        for wrong in NO_BYTES:
            for place in ((wrong, 1), (0, wrong), (256, 257)):
                self.refused(21, left.join, place, right, (0, 1))
                self.refused(21, left.join, (0, 1), right, place)
        for near, far, about in (((-2, 1), (0, 1), left), ((0, 1), (0, -1), right)):
            with self.assertRaises(JoinRefused) as seen:
                left.join(near, right, far)
            self.assertIs(about, seen.exception.rig)

    def test_places_of_words(self):
        for word in (4, 2**64 - 1, 2**64, 2**64 + 1, -1, -(2**64)):
            self.refused(15, self.calls.word_place, *self.file, word)

    def test_frames(self):
        for wrong in NO_BYTES:
            self.refused(15, self.calls.write_route, wrong, 0, B1)
            self.refused(2, self.calls.write_route, 0, 0, B1, length=wrong)
        for index in (65536, -1, 2**64):
            self.refused(15, self.calls.write_route, 0, index, B1)
        self.assertEqual(65535, self.calls.read_route(self.frame(index=65535)).route_index)

    def frame(self, phy=0, index=0, disabled=False):
        return self.calls.write_route(phy, index, B1, disabled)

    def test_any_true_value_disables(self):
        for value in (True, 1, 2, 256, 2**64, -1, 0.5, "no"):
            self.assertEqual(self.frame(disabled=True), self.frame(disabled=value))
        for value in (False, 0, 0.0, None, ""):
            self.assertEqual(self.frame(), self.frame(disabled=value))

    def test_shelves(self):
        shelf = Shelf([TABLE], 1)
        shelf.obey(self.frame())
        words = shelf._words
        self.assertEqual(B1, self.calls.shelf_entry(words, 0, 0))
        for wrong in NO_BYTES:
            self.assertEqual(0, self.calls.shelf_entry(words, wrong, 0))
            self.assertEqual(2, self.calls.shelf_disabled(words, wrong, 0))
            self.assertIsNone(shelf.entry(wrong, 0))
            self.refused(3, self.calls.shelf_fresh, words, wrong, 1, b"\1")
        for index in (65536, -65536, 2**64):
            self.assertEqual(2, self.calls.shelf_disabled(words, 0, index))
            self.refused(3, self.calls.shelf_fresh, words, 1, index, b"\1")
        self.assertEqual(B1, shelf.entry(0, 0))

    def test_addresses_and_words(self):
        """One that has not 64 bits is no refusal, since none of the library is due."""
        before = (self.rig.file, list(self.tables.words), list(self.tables.bits))
        for name, call in self.numbered():
            for wrong in NO_ADDRESSES:
                self.wrong(ValueError, name, call, wrong)
        after = (self.rig.file, list(self.tables.words), list(self.tables.bits))
        self.assertEqual(before, after)

    def test_what_is_no_number(self):
        for wrong in NO_NUMBERS:
            for name, call in self.numbered():
                self.wrong(TypeError, name, call, wrong)
            for call in (self.rig.trace, self.form.trace):
                self.wrong(TypeError, "start", call, self.tables, wrong, 255, B1)
                self.wrong(TypeError, "arrival", call, self.tables, 0, wrong, B1)
            self.wrong(TypeError, "expander", self.rig.steps, self.tables, wrong, 255, B1)
            self.wrong(TypeError, "expander", self.rig.pull, self.tables, (wrong, 1))
            self.wrong(TypeError, "phy", self.rig.pull, self.tables, (1, wrong))
            self.wrong(TypeError, "word", self.calls.word_place, *self.file, wrong)
            self.wrong(TypeError, "length", self.calls.write_route, 0, 0, B1, length=wrong)
            self.wrong(TypeError, "index", self.calls.write_route, 0, wrong, B1)
            self.wrong(TypeError, "index", Shelf([TABLE], 1).entry, 0, wrong)
            self.wrong(TypeError, "kinds", Shelf, [wrong], 1)
            self.wrong(TypeError, "indexes", Shelf, [TABLE], wrong)

    def test_integers_of_other_types(self):
        """What Python takes as an index is a number."""

        class Two:
            def __index__(self):
                return 2

        self.assertEqual(self.frame(phy=2, index=2), self.frame(phy=Two(), index=Two()))
        self.refused(15, self.rig.trace, self.tables, Two(), 255, B1)

    def test_places_have_two_numbers(self):
        for place in ((1,), (1, 2, C1)):
            for call in (self.rig.pull, lambda tables, at: self.rig.join(at, self.rig, (0, 1))):
                with self.assertRaises(ValueError):
                    call(self.tables, place)


class Contents(Arguments):
    def readers(self):
        """Each call that reads bytes: its name for them, the bytes, and a function of them."""
        calls, setting, lent = self.calls, self.rig.setting, self.lent[2:]
        request, frame = (0, 255, B1), calls.write_route(0, 0, B1)
        general, discover = self.rig.file[10:38], self.rig.file[38:90]
        shelf = calls.shelf_words()
        left, right = Rig.of_text(OPEN).file, Rig.of_text(OPEN.replace(" 50", " 51")).file
        form = (setting, self.form.words, self.tables.words)
        for name in ("judge", "wire", "needed", "compact", "card_of_file"):
            yield "file", self.rig.file, lambda it, name=name: getattr(calls, name)(setting, it)
        yield from [
            ("file", self.rig.file, lambda it: calls.word_place(setting, it, 1)),
            ("file", self.rig.file, lambda it: list(calls.tables(setting, it)[0])),
            ("file", self.rig.file, lambda it: calls.trace(setting, it, *lent, *request)),
            ("file", self.rig.file, lambda it: calls.step(setting, it, *lent, *request)),
            ("file", self.rig.file, lambda it: calls.event(setting, it, *lent, (1, 1), B1)),
            ("file", self.rig.file, lambda it: Rig(it).names),
            ("card", self.rig.to_card(), lambda it: calls.file_of_card(setting, it)),
            ("card", self.rig.to_card(), lambda it: Rig.of_card(it).card),
            ("first", left, lambda it: calls.join(setting, it, (0, 1), right, (0, 1))),
            ("second", right, lambda it: calls.join(setting, left, (0, 1), it, (0, 1))),
            ("bits", b"\xf0", lambda it: calls.trace(*self.lent[:3], it, *request)),
            ("bits", b"\xf0", lambda it: calls.step(*self.lent[:3], it, *request)),
            ("bits", b"\xf0", lambda it: calls.compact_trace(*form, it, *request, 2)),
            ("bits", b"\xf0", lambda it: list(calls.compact_trace_many(*form, it, [255, B1]))),
            ("frame", frame, calls.read_route),
            ("frame", general, calls.read_general),
            ("frame", discover, calls.read_discover),
            ("kinds", b"\1\2", lambda it: calls.shelf_fresh(shelf, 2, 4, it)),
            ("frame", frame, lambda it: calls.shelf_obey(shelf, it)),
        ]

    def test_bytes_of_any_type(self):
        """bytes, bytearray and memoryview are read alike; other types are refused."""
        for place, (name, content, call) in enumerate(self.readers()):
            with self.subTest(place=place):
                expected = call(content)
                self.assertEqual(expected, call(bytearray(content)))
                self.assertEqual(expected, call(memoryview(content)))
                if len(content) % 2 == 0:
                    self.assertEqual(expected, call(memoryview(content).cast("H")))
            for wrong in (None, 334, "10", [0x10, 1], content.hex()):
                self.wrong(TypeError, name, call, wrong)

    def test_words_of_any_type(self):
        """Words that are read are those of any sequence, and of arrays with other elements."""
        rig, bits, words = self.rig, self.tables.bits, list(self.tables.words)
        expected = rig.trace(self.tables, 0, 255, B1)
        for given in (words, tuple(words), array("Q", words), array("q", words)):
            tables = self.tables._replace(words=given)
            self.assertEqual(expected, rig.trace(tables, 0, 255, B1))
            self.wrong(TypeError, "words", rig.plug, tables, (1, 2), C1)
        for given, kind in ((array("q", [-1] * 4), ValueError), (array("d", [1] * 4), TypeError)):
            self.wrong(kind, "words", rig.trace, self.tables._replace(words=given), 0, 255, B1)
        self.wrong(TypeError, "bits", rig.plug, self.tables._replace(bits=bytes(bits)), (1, 2), C1)

    def test_the_words_of_a_shelf(self):
        """The calls on a shelf read and write no memory but that of shelf_words."""
        calls = self.calls
        frame = calls.write_route(0, 0, B1)
        for wrong in (None, 0, 1 << 40, b"1", bytes(9000), (ctypes.c_uint64 * 2)(), [0], Shelf):
            self.wrong(TypeError, "shelf", calls.shelf_fresh, wrong, 1, 1, b"\1")
            self.wrong(TypeError, "shelf", calls.shelf_obey, wrong, frame)
            self.wrong(TypeError, "shelf", calls.shelf_entry, wrong, 0, 0)
            self.wrong(TypeError, "shelf", calls.shelf_disabled, wrong, 0, 0)


if __name__ == "__main__":
    unittest.main()
