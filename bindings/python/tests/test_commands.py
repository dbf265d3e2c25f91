"""Tests of the subcommands: what they print, and with which exit status they end."""

import ctypes
import fcntl
import json
import os
import pty
import re
import signal
import subprocess
import sys
import termios
import time
import unittest
from array import array
from pathlib import Path
from unittest import mock

import metzurgo
from metzurgo import PAIR, commands, library, shared
from metzurgo.__main__ import make_parser
from metzurgo.commands.tables import together
from metzurgo.manual import subcommands
from metzurgo.rig import Rig

from .support import ROOT, SAMPLES, FolderTest, run

PAIR_RIG = SAMPLES / "pair.rig"
RING = SAMPLES / "refused-11-ring.rig"
A1, B1 = "50000000000000a1", "50000000000000b1"
FRAME = f"40900009000000000000000000000000{B1}00000000000000000000000000000000"


class Judge(FolderTest):
    def test_accepted(self):
        ran = run("judge", PAIR_RIG)
        self.assertEqual((0, "accepted: 2 expanders, 5 phys, 1 table, 4 words\n", ""), ran[:3])
        accepted = {"expanders": 2, "phys": 5, "tables": 1, "words": 4}
        self.assertEqual({"accepted": accepted}, json.loads(run("judge", PAIR_RIG, "--json").out))

    def test_refused(self):
        ran = run("judge", "--json", SAMPLES / "refused-14-list-too-long.rig")
        refused = json.loads(ran.out)["refused"]
        self.assertEqual((1, ""), (ran.status, ran.err))
        self.assertEqual((14, 0, 0), tuple(refused[key] for key in ("number", "expander", "phy")))
        self.assertTrue(refused["sentence"].startswith("Phy 0 of top has more entries"))

    def test_course(self):
        for course, status in [
            ("2,3,2", 0),
            ("2,3,1", 1),
            ("2,2,2", 1),
            ("1,3,2", 1),
            ("0,3,2", 1),
        ]:
            self.assertEqual(status, run("judge", "--course", course, PAIR_RIG).status, course)
        self.assertIn("refused 22 0 0", run("judge", "--course", "256,3,2", PAIR_RIG).out)
        for course in ("2,3", "2,3,x", "2,3,-1", ""):
            ran = run("judge", "--course", course, PAIR_RIG)
            self.assertEqual((2, ""), (ran.status, ran.out))

    def test_text_file_and_standard_input(self):
        file = Rig.of_text(PAIR).file
        expected = run("judge", PAIR_RIG).out
        for ran in (
            run("judge", "-", stdin=PAIR.encode()),
            run("judge", "-", stdin=file),
            run("judge", self.path("pair.bin", file)),
            run("judge", self.path("text-without-ending", PAIR)),
        ):
            self.assertEqual((0, expected, ""), ran[:3])


class TablesTest(unittest.TestCase):
    def test_pair(self):
        zero = "0" * 16
        self.assertEqual(
            f"top phy 0 to bottom: 4 entries\n  0  {B1}  B1\n  3 zeros, disabled\n"
            "1 table, 4 entries\n",
            run("tables", PAIR_RIG).out,
        )
        self.assertEqual(
            f"top phy 0 to bottom: 4 entries\n  0  {B1}  B1\n  1  {zero}  disabled\n"
            f"  2  {zero}  disabled\n  3  {zero}  disabled\n1 table, 4 entries\n",
            run("tables", "--all", PAIR_RIG).out,
        )

    def test_wide_links_together(self):
        lines = run("tables", SAMPLES / "wide-link.rig").out.splitlines()
        self.assertEqual("top phys 0-3 to bottom: 2 entries", lines[0])
        self.assertEqual("4 tables, 8 entries", lines[-1])
        lines = run("tables", "--all", SAMPLES / "wide-link.rig").out.splitlines()
        self.assertEqual(13, len(lines))
        rig = Rig.load(SAMPLES / "wide-link.rig")
        tables = rig.tables().tables
        self.assertEqual([4], [len(group) for group in together(rig, tables)])
        tables[1].words[0] += 1  # a table that differs stands alone
        self.assertEqual([3, 1], [len(group) for group in together(rig, tables)])

    def test_an_entry_inside_that_is_zero(self):
        out = run("tables", SAMPLES / "vacant.rig").out
        self.assertIn("0000000000000000  disabled", out)

    def test_names_of_a_domain_file(self):
        out = run("tables", "-", stdin=Rig.of_text(PAIR).file).out
        self.assertTrue(out.startswith(f"E0 phy 0 to E1: 4 entries\n  0  {B1}\n  3 zeros"), out)

    def test_json(self):
        (table,) = json.loads(run("tables", "--json", PAIR_RIG).out)["tables"]
        entries = table.pop("entries")
        expected = dict(expander=0, name="top", address="5000000000000010", phy=0, to="bottom")
        self.assertEqual(expected, table)
        self.assertEqual({"address": B1, "name": "B1", "disabled": False}, entries[0])
        self.assertEqual([False, True, True, True], [entry["disabled"] for entry in entries])

    def test_refused(self):
        path = SAMPLES / "refused-10-not-configurable.rig"
        for command in (["tables", path], ["trace", path, "top", "B1"], ["frames", path]):
            ran = run(*command)
            self.assertEqual((1, ""), (ran.status, ran.out))
            self.assertEqual(1, ran.err.count("\n"))
            self.assertRegex(ran.err, rf"^{path}: line [0-9]+: refused 10 0 0: Phy 0 of top is")
            ran = run(*command, "--json")
            self.assertEqual(
                (1, 10, ""), (ran.status, json.loads(ran.out)["refused"]["number"], ran.err)
            )


class Trace(unittest.TestCase):
    def trace(self, *words, rig=PAIR_RIG):
        ran = run("trace", rig, *words)
        self.assertEqual("", ran.err)
        return ran.status, ran.out.splitlines()

    def test_pair(self):
        """The traces that the requirements give for the pair rig."""
        bottom = "phy 1 has the address attached"
        for words, status, lines in [
            (
                ("top", "B1"),
                0,
                [
                    "arrived at B1 by phy 1 of bottom, 2 expanders passed",
                    "top     (iii) entry 0 of phy 0 has the address:"
                    " on by phy 0 to phy 0 of bottom",
                    f"bottom  (ii) {bottom}: arrived",
                ],
            ),
            (
                ("B1", "A1"),
                0,
                [
                    "arrived at A1 by phy 1 of top, 2 expanders passed",
                    "bottom  (iv) phy 0 is subtractive: on by phy 0 to phy 0 of top",
                    f"top     (ii) {bottom}: arrived",
                ],
            ),
            (
                ("bottom", "top"),
                0,
                [
                    "arrived at top itself, 2 expanders passed",
                    "bottom  (ii) phy 0 has the address attached: on by phy 0 to phy 0 of top",
                    "top     (i) it has the address itself: arrived",
                ],
            ),
            (
                ("bottom", "50000000000000ff"),
                1,
                [
                    "NO DESTINATION at top, 2 expanders passed",
                    "bottom  (iv) phy 0 is subtractive: on by phy 0 to phy 0 of top",
                    "top     (v) no phy, no table entry and no subtractive phy leads on:"
                    " NO DESTINATION",
                ],
            ),
            (
                ("B1", "B1"),
                1,
                [
                    "BAD DESTINATION at bottom, 1 expander passed",
                    f"bottom  (ii) {bottom}: that is B1, where it came from: BAD DESTINATION",
                ],
            ),
        ]:
            with self.subTest(words=words):
                self.assertEqual((status, lines), self.trace(*words))

    def test_names_and_addresses(self):
        expected = self.trace("bottom", "A1")
        for start in ("bottom", "5000000000000020", "0x5000000000000020", "5000000000000020h", "1"):
            for to in ("A1", A1, f"0x{A1}", A1.upper()):
                self.assertEqual(expected, self.trace(start, to))
        self.assertEqual(self.trace("B1", "A1"), self.trace("bottom.1", "A1"))

    def test_a_drive_comes_in_by_its_lowest_phy(self):
        text = "drive A 50000000000000a1\ndrive B 50000000000000b1\n"
        text += "expander only 5000000000000010\nphy 0-1 direct to B.0-1\nphy 2-3 direct to A.0-1\n"
        for start, arrival in (("B", 0), ("A", 2), ("only.1", 1), ("only", None)):
            ran = run("trace", "-", start, "only", "--json", stdin=text.encode())
            self.assertEqual(arrival, json.loads(ran.out)["passed"][0]["arrival"])

    def test_altered_entries(self):
        for words, status in [
            (["--disable", "top.0.0"], 1),
            (["--disable", "top.0.0", "--enable", "top.0.0"], 0),
            (["--enable", "top.0.0", "--disable", "top.0.0"], 1),
            (["--set", "top.0.0=0"], 1),
            (["--set", "top.0.0=0", "--set", "top.0.0=B1"], 0),
            (["--set", f"top.0.0=0x{A1}"], 1),
            (["--set", "top.0.0=0", "--set", f"top.0.3={B1}"], 0),
            (["--set", f"top.0.3={B1}", "--disable", "top.0.3", "--disable", "top.0.0"], 1),
            (["--disable", "5000000000000010.0.0"], 1),
        ]:
            with self.subTest(words=words):
                self.assertEqual(status, self.trace("top", "B1", *words)[0])
        lines = self.trace("top", "B1", "--set", "top.0.0=0", "--set", f"top.0.3={B1}")[1]
        self.assertIn("entry 3 of phy 0 has the address", lines[1])

    def test_a_route_back(self):
        """An entry that leads back to where the request came from."""
        text = PAIR.replace("phy 1 direct to A1", "phy 1 table to third.0\n  phy 2 direct to A1")
        text += "expander third 5000000000000030\n  phy 0 subtractive\n  phy 1 direct empty\n"
        words = ["third", "50000000000000ff", "--set", "top.1.0=50000000000000ff"]
        ran = run("trace", "-", *words, stdin=text.encode())
        self.assertEqual(1, ran.status)
        self.assertEqual(
            "top    (iii) entry 0 of phy 1 has the address: that is third, where it came from:"
            " BAD DESTINATION",
            ran.out.splitlines()[-1],
        )

    def test_steps_are_those_of_the_trace(self):
        count = 0
        for name in ("comb", "star", "wide-link", "fault-table-to-table", "subtractive-link"):
            rig = Rig.load(SAMPLES / f"{name}.rig")
            tables = rig.tables()
            starts = [(expander.number, 255) for expander in rig.expanders]
            starts += [
                (expander.number, phy.number)
                for expander in rig.expanders
                for phy in expander.phys
                if phy.at_drive
            ]
            for start, arrival in starts:
                for address in [*rig.names.values(), 0xFF]:
                    traced = rig.trace(tables, start, arrival, address)
                    steps = rig.steps(tables, start, arrival, address)
                    self.assertEqual(traced.passed, [step.expander for step in steps])
                    end = steps[-1].step
                    outcome = 2 if end.bad else 1 if end.rule == 5 else 0
                    self.assertEqual(traced.outcome, outcome)
                    count += 1
        self.assertGreater(count, 200)

    def test_json(self):
        ran = run("trace", PAIR_RIG, "top", "B1", "--json")
        found = json.loads(ran.out)
        passed = found.pop("passed")
        expected = dict(outcome="arrived", expander=1, name="bottom", phy=1, device=B1)
        self.assertEqual(expected, found)
        self.assertEqual(
            [("iii", 0, 0, 1), ("ii", 1, None, None)],
            [(step["rule"], step["phy"], step["index"], step["next"]) for step in passed],
        )
        found = json.loads(run("trace", PAIR_RIG, "B1", "B1", "--json").out)
        self.assertEqual(("BAD DESTINATION", None), (found["outcome"], found["device"]))

    def test_refused(self):
        for words, told in [
            (("top.0", "B1"), r"line [0-9]+: refused 15 0 0: Phy 0 of top leads to the expander"),
            (("bottom.2", "B1"), r"line [0-9]+: refused 15 0 0: Phy 2 of bottom is empty: "),
            (("top", "0" * 16), r"refused 17 0 0: "),
        ]:
            ran = run("trace", PAIR_RIG, *words)
            self.assertEqual((1, ""), (ran.status, ran.out))
            self.assertRegex(ran.err, f"^{re.escape(str(PAIR_RIG))}: {told}")

    def test_wrong_usage(self):
        for words in [
            ("top",),
            ("nobody", "B1"),
            ("top", "nobody"),
            ("top.9", "B1"),
            ("none.0", "B1"),
            ("50000000000000ff", "B1"),
            ("top", "B1", "--set", "top.0.0"),
            ("top", "B1", "--set", "top.0.0=nobody"),
            ("top", "B1", "--disable", "top.0.4"),
            ("top", "B1", "--disable", "top.1.0"),
            ("top", "B1", "--disable", "none.1.0"),
            ("top", "B1", "--enable", "top.0"),
            ("top", "B1", "--enable", "top.0.0=0"),
        ]:
            with self.subTest(words=words):
                ran = run("trace", PAIR_RIG, *words)
                self.assertEqual((2, ""), (ran.status, ran.out))
                self.assertEqual(1, ran.err.count("\n"), ran.err)


class Frames(unittest.TestCase):
    def test_hex(self):
        lines = run("frames", PAIR_RIG).out.splitlines()
        self.assertEqual(["# top 5000000000000010", FRAME], lines[:2])
        zeros = [f"4090000900000{index:03x}00000000800000" + "0" * 50 for index in (1, 2, 3)]
        self.assertEqual(zeros, lines[2:])
        self.assertEqual(lines[:2], run("frames", "--used", PAIR_RIG).out.splitlines())
        zero = run("frames", "--length", "0", "--used", PAIR_RIG).out.splitlines()
        self.assertEqual(FRAME[:6] + "00" + FRAME[8:], zero[1])

    def test_raw_is_hex(self):
        raw = run("frames", "--raw", PAIR_RIG).raw
        self.assertEqual(160, len(raw))
        lines = run("frames", PAIR_RIG).out.splitlines()[1:]
        self.assertEqual("".join(lines), raw.hex())

    def test_one_expander(self):
        comb = SAMPLES / "comb.rig"
        whole = run("frames", comb).out
        heads = [line for line in whole.splitlines() if line.startswith("#")]
        names = [head.split()[1] for head in heads]
        self.assertGreater(len(names), 1)
        self.assertEqual(whole, "".join(run("frames", comb, name).out for name in names))
        self.assertEqual(2, run("frames", "--raw", comb).status)
        self.assertEqual(0, run("frames", "--raw", comb, names[0]).status)
        self.assertEqual((0, ""), run("frames", PAIR_RIG, "bottom")[:2])
        self.assertEqual(2, run("frames", PAIR_RIG, "nobody").status)

    def test_frames_are_read_back(self):
        """The library reads from each frame what the table holds."""
        calls = ctypes.CDLL(library.find_library())
        for call in (calls.metzurgo_read_route, calls.metzurgo_read_route_address):
            call.argtypes, call.restype = [ctypes.c_char_p, ctypes.c_size_t], ctypes.c_uint64
        for length in ("0", "9"):
            found = json.loads(
                run("frames", SAMPLES / "comb.rig", "--json", "--length", length).out
            )["frames"]
            tables = Rig.load(SAMPLES / "comb.rig").tables()
            self.assertEqual(len(tables.words), len(found))
            for entry, word in zip(found, tables.words):
                frame = bytes.fromhex(entry["frame"])
                packed = entry["disabled"] << 32 | int(length) << 24
                packed |= entry["phy"] << 16 | entry["index"]
                self.assertEqual(packed, calls.metzurgo_read_route(frame, 40))
                self.assertEqual(word, calls.metzurgo_read_route_address(frame, 40))
                self.assertEqual(f"{word:016x}", entry["entry"])

    def test_smp_utils(self):
        lines = run("frames", "--smp-utils", "--device", "/dev/x", PAIR_RIG).out.splitlines()
        start = "smp_conf_route_info --sa=0x5000000000000010 --phy=0"
        self.assertEqual(f"{start} --index=0 --routed=0x{B1} /dev/x", lines[0])
        self.assertEqual(f"{start} --index=1 --routed=0x{'0' * 16} --disable /dev/x", lines[1])
        self.assertEqual(4, len(lines))

    def test_wrong_usage(self):
        for words in (
            ["--length", "8"],
            ["--raw", "--smp-utils"],
            ["--length", "0", "--smp-utils"],
            ["--json", "--raw"],
        ):
            with self.subTest(words=words):
                self.assertEqual((2, ""), run("frames", PAIR_RIG, *words)[:2])


class Status(FolderTest):
    """Exit status 2 and 3, and one line on standard error."""

    def test_no_such_file(self):
        none = self.folder / "none"
        for command in ("judge", "tables", "frames", "build", "print"):
            ran = run(command, none)
            self.assertEqual((3, "", f"{none}: No such file or directory\n"), ran[:3])
        self.assertEqual(3, run("trace", none, "top", "B1").status)
        self.assertEqual(3, run("collect", none).status)
        self.assertEqual(3, run("judge", self.folder).status)

    def test_wrong_usage(self):
        for words in ([], ["nothing"], ["judge"], ["judge", "a", "b"], ["judge", "--none", "a"]):
            ran = run(*words)
            self.assertEqual((2, ""), (ran.status, ran.out))
            self.assertEqual(1, ran.err.count("\n"), ran.err)

    def test_output_that_cannot_be_written(self):
        """An answer, or a refusal as JSON."""
        for words in (["judge", PAIR_RIG], ["tables", "--json", RING]):
            with open("/dev/full", "w", encoding="utf-8") as full:
                with self.command(*words, stdout=full) as ran:
                    told = ran.stderr.read()
                self.assertEqual("standard output: No space left on device\n", told)
                self.assertEqual(3, ran.returncode)

    def test_a_pipe_that_nobody_reads(self):
        text = "expander only 5000000000000010 R 9000 configurable\nphy 0-19 table empty\n"
        path = self.path("long.rig", text)
        with self.command("tables", "--all", path, stdout=subprocess.PIPE) as ran:
            ran.stdout.readline()
            ran.stdout.close()
            self.assertEqual("", ran.stderr.read())
        self.assertEqual(3, ran.returncode)

    def test_a_refusal_that_nobody_reads(self):
        reader, writer = os.pipe()
        os.close(reader)
        with self.command("tables", "--json", RING, stdout=writer) as ran:
            self.assertEqual("", ran.stderr.read())
        os.close(writer)
        self.assertEqual(3, ran.returncode)

    def test_an_interrupt(self):
        """It ends a command that waits for input, without a word."""
        pipes = {"stdin": subprocess.PIPE, "stdout": subprocess.PIPE}
        for words in (["judge", "-"], ["trace", "--all", "-"], ["collect", "-"]):
            with self.subTest(words=words), self.command(*words, **pipes) as ran:
                ran.stdin.write("drive A1\n")
                ran.stdin.flush()
                await_reading(ran.stdin)
                ran.send_signal(signal.SIGINT)
                self.assertEqual(("", ""), (ran.stdout.read(), ran.stderr.read()))
                self.assertEqual(130, ran.wait())

    def test_standard_input_twice(self):
        for words, names in [
            (("trace", "-", "top", "B1", "--tables", "-"), "RIG and --tables"),
            (("trace", "--all", "-", "--tables", "-"), "RIG and --tables"),
            (("tables", "-", "--tables", "-"), "RIG and --tables"),
            (("join", "-", "0.0", "-", "0.0"), "A and B"),
            (("shelf", "-", "top"), "RIG and the requests"),
            (("collect", "-", "other", "-"), "RESPONSES 1 and RESPONSES 3"),
        ]:
            ran = run(*words, stdin=PAIR.encode())
            told = f"metzurgo {words[0]}: standard input cannot be both {names}\n"
            self.assertEqual((2, "", told), ran[:3])

    def test_closed_descriptors(self):
        shell = f'"{sys.executable}" -m metzurgo judge'
        for words, told in [
            (f"{shell} - <&-", "standard input: Bad file descriptor\n"),
            (f"{shell} {PAIR_RIG} >&-", "standard output: it is closed\n"),
        ]:
            ran = subprocess.run(
                ["bash", "-c", words],
                capture_output=True,
                text=True,
                check=False,
                env={**os.environ, "PYTHONPATH": str(ROOT / "bindings/python")},
            )
            self.assertEqual((3, "", told), (ran.returncode, ran.stdout, ran.stderr))

    def test_no_library(self):
        for name in (self.folder / "none.so", self.path("empty.so", b"")):
            with self.command(
                "judge", PAIR_RIG, env={"METZURGO_LIBRARY": str(name)}, stdout=subprocess.PIPE
            ) as ran:
                self.assertEqual("", ran.stdout.read())
                self.assertRegex(
                    ran.stderr.read(), r"^metzurgo: .*the library cannot be loaded.*\n$"
                )
            self.assertEqual(3, ran.returncode)

    def test_build_and_print_need_no_library(self):
        out = self.folder / "out"
        for words in (["build", PAIR_RIG, out], ["print", PAIR_RIG], ["print", out]):
            with self.subTest(words=words):
                none = {"METZURGO_LIBRARY": "none"}
                with self.command(*words, env=none, stdout=subprocess.PIPE) as ran:
                    printed, told = ran.communicate()
                self.assertEqual((0, ""), (ran.returncode, told))
                self.assertEqual(words[0] == "print", "expander" in printed)

    def test_version(self):
        ran = run("--version")
        self.assertEqual((0, f"metzurgo {metzurgo.__version__}\n"), (ran.status, ran.out))


def await_reading(pipe):
    """Waits until a pipe has been read, ten seconds at most."""
    left = array("i", [1])
    for _ in range(1000):
        fcntl.ioctl(pipe.fileno(), termios.FIONREAD, left)
        if left[0] == 0:
            return
        time.sleep(0.01)


class Written(FolderTest):
    """--json of the subcommands that write a file, and of print."""

    def test_build_and_collect(self):
        out = self.folder / "out"
        report = {"file": str(out), "bytes": 334}
        self.assertEqual(report, json.loads(run("build", "--json", PAIR_RIG, out).out))
        only = Rig.of_text("expander only 5000000000000010\nphy 0 direct empty\n").file
        stored = self.path("stored", only[10:])
        self.assertEqual(90, json.loads(run("collect", "--json", stored, "-o", out).out)["bytes"])
        self.assertEqual(only, out.read_bytes())
        for words in (["build", "--json", PAIR_RIG], ["collect", "--json", stored]):
            self.assertEqual((2, ""), run(*words)[:2])

    def test_print(self):
        for words, stdin, names in [
            ((PAIR_RIG,), b"", ["bottom", "A1", "top", "B1", None]),
            (("-",), Rig.of_text(PAIR).file, ["E1", A1, "E0", B1, None]),
        ]:
            expanders = json.loads(run("print", "--json", *words, stdin=stdin).out)["expanders"]
            phys = [phy for expander in expanders for phy in expander["phys"]]
            self.assertEqual(names, [phy["name"] for phy in phys])
            self.assertEqual(
                ["table", "direct", "subtractive", "direct", "direct"],
                [phy["attribute"] for phy in phys],
            )
            self.assertEqual([4, 0], [expander["indexes"] for expander in expanders])


class Progress(unittest.TestCase):
    def test_only_after_a_second_and_on_a_terminal(self):
        for terminal, seconds, expected in [
            (True, 0.7, True),
            (True, 0.1, False),
            (False, 0.7, False),
        ]:
            master, slave = pty.openpty()
            with os.fdopen(slave, "w") as err, mock.patch.object(sys, "stderr", err):
                clock = mock.patch("metzurgo.shared.time.monotonic", side_effect=ticks(seconds))
                with mock.patch.object(err, "isatty", return_value=terminal, create=True), clock:
                    self.assertEqual([1, 2, 3, 4], list(shared.progress([1, 2, 3, 4], 4, "tables")))
                err.write("end\n")
            shown = ""
            while not shown.endswith("end\r\n"):
                shown += os.read(master, 1000).decode()
            os.close(master)
            self.assertEqual(expected, "tables 2 of 4" in shown, shown)
            self.assertEqual(expected, shown != "end\r\n", shown)


def ticks(seconds):
    now = 0.0
    while True:
        yield now
        now += seconds


class Help(FolderTest):
    def test_every_subcommand_has_an_example(self):
        parsers = subcommands(make_parser())
        for name in commands.ORDER:
            ran = run(name, "--help")
            self.assertEqual(0, ran.status)
            self.assertIn(f"  $ metzurgo {name} ", ran.out)
            self.assertIn("exit status:", ran.out)
            self.assertTrue(parsers[name].prose)

    def test_examples_are_true(self):
        """Every example line is run where the samples are, and gives the lines below it."""
        shell = f'metzurgo() {{ "{sys.executable}" -m metzurgo "$@"; }}\n'
        count = 0
        for name, parser in subcommands(make_parser()).items():
            if name == "collect":
                continue  # needs expanders
            for command, output in examples(parser.example):
                self.compare(shell + command, output)
                count += 1
        self.assertGreaterEqual(count, 8)

    def test_pages_are_true(self):
        """The examples of docs/COMMAND.md and README.md."""
        shell = f'metzurgo() {{ "{sys.executable}" -m metzurgo "$@"; }}\n'
        shell += f'python3() {{ "{sys.executable}" "$@"; }}\n'
        count = 0
        for name in ("docs/COMMAND.md", "README.md"):
            page = (ROOT / name).read_text(encoding="utf-8")
            for block in re.findall(r"(?:^    .*\n)+", page, re.M):
                if block.startswith("    $ "):
                    for command, output in examples(re.sub("^  ", "", block, flags=re.M)):
                        self.compare(shell + command, output)
                        count += 1
        self.assertGreaterEqual(count, 3)

    def compare(self, command, output):
        """Runs a command of an example, and compares what it prints."""
        paths = {"PYTHONPATH": str(ROOT / "bindings/python"), "PYTHONDONTWRITEBYTECODE": "1"}
        with self.subTest(command=command):
            ran = subprocess.run(
                ["bash", "-c", command],
                cwd=self.checkout(),
                env={**os.environ, **paths},
                capture_output=True,
                text=True,
                check=False,
            )
            self.assertEqual((output, ""), (ran.stdout, ran.stderr))

    def checkout(self):
        """A folder with what examples read."""
        for name in ("samples", "bindings"):
            link = Path(self.folder) / name
            if not link.exists():
                link.symlink_to(ROOT / name)
        return self.folder


def examples(text):
    """The commands of an example, and what they print."""
    found = []
    for line in text.splitlines():
        if line.startswith("  $ "):
            found.append([line[4:], ""])
        else:
            found[-1][1] += re.sub("^  ", "", line) + "\n"
    return found
