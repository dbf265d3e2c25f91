"""Tests of collect: responses short and long, with and without CRC, and the tools of smp_utils."""

import os
import shutil
import subprocess
import unittest
from pathlib import Path

from metzurgo import PAIR, rigtext
from metzurgo.responses import Response, ResponseError, for_file, split
from metzurgo.rig import Rig

from .support import SAMPLES, FolderTest, run, samples

TOOLS = ("smp_rep_general", "smp_discover", "smp_conf_route_info")
CRC = bytes.fromhex("deadbeef")


def frames_of(file):
    """The REPORT GENERAL response and the DISCOVER responses of each expander of a file."""
    rig, _ = rigtext.read_file(file)
    at = 2
    found = []
    for expander in rig.expanders:
        size = rigtext.expander_size(expander.long)
        frames = [file[at + 8 : at + size]]
        at += size
        for phy in expander.phys:
            size = rigtext.phy_size(phy.long)
            frames.append(file[at : at + size])
            at += size
        found.append(frames)
    return found


def accepted():
    """The files of the samples that judging accepts."""
    for path in samples():
        rig = Rig.load(path)
        if run("judge", path).status == 0 and len(rig.file) < 65536:
            yield path.stem, rig.file


class Stored(FolderTest):
    """A test with stored responses."""

    def store(self, file, tail=b""):
        """A folder for each expander, with a file for each response."""
        folders = []
        for number, (general, *phys) in enumerate(frames_of(file)):
            folder = self.folder / f"expander{number}"
            shutil.rmtree(folder, ignore_errors=True)
            folder.mkdir()
            (folder / "general").write_bytes(general + tail)
            for phy, frame in enumerate(phys):
                (folder / f"phy{phy}").write_bytes(frame + tail)
            folders.append(folder)
        return folders


class Collect(Stored):
    def test_samples_with_and_without_crc(self):
        count = 0
        for name, file in accepted():
            for tail in (b"", CRC):
                with self.subTest(sample=name, tail=tail):
                    ran = run("collect", *self.store(file, tail))
                    self.assertEqual((0, "", file), (ran.status, ran.err, ran.raw))
                    count += 1
        self.assertGreater(count, 20)

    def test_files_in_any_order_of_phys(self):
        file = Rig.of_text(PAIR).file
        out = self.folder / "out"
        paths = []
        for folder in self.store(file):
            paths += [folder / "general", *sorted(folder.glob("phy*"), reverse=True)]
        self.assertEqual(0, run("collect", *paths, "--output", out).status)
        self.assertEqual(file, out.read_bytes())

    def test_all_responses_in_one_file(self):
        for name in ("pair", "long-frames", "mixed-frames", "vacant"):
            file = Rig.load(SAMPLES / f"{name}.rig").file
            for tail in (b"", CRC):
                parts = [frame + tail for frames in frames_of(file) for frame in frames]
                ran = run("collect", "-", stdin=b"".join(parts))
                self.assertEqual((0, file), (ran.status, ran.raw), (name, tail))

    def test_a_crc_that_looks_like_a_response(self):
        general, *phys = frames_of(Rig.of_text(PAIR).file)[0]
        tail = bytes([0x41, 0x10, 0, 0])
        parts = [frame + tail for frame in (general, *phys)]
        found = split(b"".join(parts), "file")
        self.assertEqual([general, *phys], [response.frame for response in found])

    def test_vacant_phys_of_four_bytes(self):
        text = (
            "expander only 5000000000000010\nphy 0 vacant\nphy 1 direct empty\nphy 2 vacant 80h\n"
        )
        file = Rig.of_text(text).file
        (folder,) = self.store(file)
        for tail in (b"", CRC):
            (folder / "phy0").write_bytes(bytes([0x41, 0x10, 0x16, 0]) + tail)
            (folder / "phy2").write_bytes(bytes([0x41, 0x10, 0x80, 0]) + tail)
            ran = run("collect", folder)
            self.assertEqual((0, file), (ran.status, ran.raw))

    def test_phys_that_do_not_exist_are_left_out(self):
        file = Rig.of_text(PAIR).file
        folders = self.store(file)
        for number in range(3, 12):
            (folders[0] / f"phy{number}").write_bytes(bytes([0x41, 0x10, 0x10, 0]))
        self.assertEqual(file, run("collect", *folders).raw)

    def test_missing_phys(self):
        text = (
            "expander only 5000000000000010\nphy 0 direct empty\nphy 1 vacant\nphy 2 direct empty\n"
        )
        file = Rig.of_text(text).file
        (folder,) = self.store(file)
        (folder / "phy1").unlink()
        ran = run("collect", folder)
        self.assertEqual((3, b""), (ran.status, ran.raw))
        self.assertIn("the expander has 3 phys, and there are responses of 2 and 0 vacant", ran.err)

    def test_longer_responses_are_cut(self):
        file = Rig.of_text(PAIR).file
        folders = self.store(file)
        frame = bytearray((folders[0] / "phy0").read_bytes() + bytes(64))
        frame[3] = 0x1C
        (folders[0] / "phy0").write_bytes(frame)
        general = bytearray((folders[0] / "general").read_bytes() + bytes(44))
        general[3] = 0x11
        (folders[0] / "general").write_bytes(general)
        ran = run("collect", *folders)
        self.assertEqual((0, file), (ran.status, ran.raw))
        self.assertIn("phy0: a DISCOVER response of 116 bytes is cut to 52\n", ran.err)
        self.assertIn("general: a REPORT GENERAL response of 72 bytes is cut to 28\n", ran.err)
        with self.assertRaises(ResponseError):
            for_file(Response(bytes([0x41, 0x10, 0, 1, 0, 0, 0, 0]), "phy0"))

    def test_a_collected_rig_is_judged(self):
        out = self.folder / "out"
        run("collect", *self.store(Rig.of_text(PAIR).file), "-o", out)
        self.assertEqual(0, run("judge", out).status)
        self.assertEqual(run("tables", out).out, run("tables", "-", stdin=out.read_bytes()).out)

    def test_errors(self):
        general, *phys = frames_of(Rig.of_text(PAIR).file)[0]
        wrong = bytearray(general)
        wrong[2] = 1
        nobody = "expander only 5000000000000010\nphy 0 vacant\n"
        for content, message in [
            (b"", "the file is empty"),
            (b"text", "this is no response to REPORT GENERAL or DISCOVER (it begins with 74 65"),
            (general[:20], "the response states 28 bytes, and the file has 20"),
            (general + b"\x00", "the response states 28 bytes, and the file has 29"),
            (phys[0], "a DISCOVER response comes after the REPORT GENERAL response"),
            (general + phys[0] + phys[0], "this is phy 0, twice"),
            (general + phys[0] + frames_of(Rig.of_text(PAIR).file)[1][3], "this is phy 2, but the"),
            (general + phys[0], "the expander has 2 phys, and there are responses of 1 and 0"),
            (bytes(wrong) + phys[0], "the REPORT GENERAL response cannot be used (refused 2 0 0)"),
            (b"".join(frames_of(Rig.of_text(nobody).file)[0]), "no phy says the address"),
        ]:
            with self.subTest(message=message):
                ran = run("collect", "-", stdin=content)
                self.assertEqual((3, b""), (ran.status, ran.raw))
                self.assertIn(message, ran.err)
                self.assertTrue(ran.err.startswith("metzurgo collect: standard input: "), ran.err)
                self.assertEqual(1, ran.err.count("\n"))
        folder = self.folder / "none"
        folder.mkdir()
        self.assertEqual(3, run("collect", folder).status)


@unittest.skipUnless(
    all(map(shutil.which, TOOLS)) and shutil.which("cc"), "smp_utils or a C compiler is not there"
)
class SmpUtils(Stored):
    """The real tools, which an expander of stored responses answers (smp_stored.c)."""

    def setUp(self):
        super().setUp()
        self.preload = self.folder / "smp_stored.so"
        source = Path(__file__).with_name("smp_stored.c")
        subprocess.run(["cc", "-shared", "-fPIC", "-o", self.preload, source], check=True)

    def tool(self, *words):
        return subprocess.run(
            [str(word) for word in words],
            env={**os.environ, "LD_PRELOAD": str(self.preload)},
            capture_output=True,
            check=False,
        ).stdout

    def test_responses_as_the_tools_write_them(self):
        count = 0
        for name, file in accepted():
            with self.subTest(sample=name):
                collected = self.folder / name
                folders = []
                for device in self.store(file, CRC):
                    folder = collected / device.name
                    folder.mkdir(parents=True)
                    raw = self.tool("smp_rep_general", "--raw", device)
                    (folder / "general").write_bytes(raw)
                    phys = len(list(device.glob("phy*")))
                    for phy in range(phys + 1):
                        raw = self.tool("smp_discover", "--raw", f"--phy={phy}", device)
                        (folder / f"phy{phy}").write_bytes(raw)
                    folders.append(folder)
                ran = run("collect", *folders)
                self.assertEqual((0, "", file), (ran.status, ran.err, ran.raw))
                count += 1
        self.assertGreater(count, 10)

    def test_all_phys_at_once(self):
        for name in ("pair", "vacant", "long-frames"):
            file = Rig.load(SAMPLES / f"{name}.rig").file
            paths = []
            for device in self.store(file):
                paths += [
                    self.folder / f"{device.name}.general",
                    self.folder / f"{device.name}.phys",
                ]
                paths[-2].write_bytes(self.tool("smp_rep_general", "--raw", device))
                paths[-1].write_bytes(self.tool("smp_discover", "--multiple", "--raw", device))
            self.assertEqual(file, run("collect", *paths).raw, name)

    def test_command_lines_send_the_frames(self):
        path = SAMPLES / "comb.rig"
        rig = Rig.load(path)
        names = {table.expander for table in rig.tables().tables}
        self.assertGreater(len(names), 1)
        for number in names:
            name = rig.expanders[number].name
            device = self.folder / name
            device.mkdir()
            for line in run(
                "frames", path, name, "--smp-utils", "--device", device
            ).out.splitlines():
                self.tool(*line.split())
            sent = (device / "requests").read_bytes()
            raw = run("frames", path, name, "--raw").raw
            self.assertEqual(len(raw) // 40 * 44, len(sent))
            requests = [sent[at : at + 40] for at in range(0, len(sent), 44)]
            self.assertEqual(raw, b"".join(requests))


if __name__ == "__main__":
    unittest.main()
