"""Tests of written files: each as a whole, and none where one cannot be written."""

import errno
import os
import resource
import subprocess
import unittest
from unittest import mock

from metzurgo import PAIR, Rig
from metzurgo.stored import lines
from metzurgo.writing import write, write_all

from .support import SAMPLES, FolderTest, run

PAIR_RIG = SAMPLES / "pair.rig"
ROW = SAMPLES / "plug-and-pull.rig"
LEFT, RIGHT = SAMPLES / "bench-left.rig", SAMPLES / "bench-right.rig"
EXPANDERS = ("5000000000000010", "5000000000000020")
FULL = "No space left on device\n"


def fail_at(path):
    """An os.replace that a file, as in a sticky folder of another user, does not let through."""
    replace = os.replace

    def act(new, old):
        if os.path.basename(old) == path.name:
            raise PermissionError(errno.EPERM, os.strerror(errno.EPERM), new, None, old)
        replace(new, old)

    return mock.patch("metzurgo.writing.os.replace", act)


class Files(FolderTest):
    def test_rights_and_links(self):
        """Rights stay, a symbolic link is followed, and hard links are parted."""
        old, other = self.path("old", b"old"), self.folder / "other"
        os.chmod(old, 0o640)
        os.link(old, other)
        link = self.folder / "link"
        link.symlink_to("old")
        write(str(link), b"new")
        self.assertEqual((b"new", b"old"), (old.read_bytes(), other.read_bytes()))
        self.assertEqual(("old", 0o640), (os.readlink(link), old.stat().st_mode & 0o777))
        mask = os.umask(0o027)
        write(str(self.folder / "fresh"), b"new")
        os.umask(mask)
        self.assertEqual(0o640, (self.folder / "fresh").stat().st_mode & 0o777)
        self.assertEqual({"old", "other", "link", "fresh"}, set(os.listdir(self.folder)))

    @unittest.skipIf(os.geteuid(), "only root gives files away")
    def test_the_owner(self):
        old = self.path("old", b"old")
        os.chown(old, 12, 34)
        write(str(old), b"new")
        self.assertEqual((b"new", 12, 34), (old.read_bytes(), old.stat().st_uid, old.stat().st_gid))
        with mock.patch("metzurgo.writing.os.chown", side_effect=PermissionError(1, "no")):
            write(str(old), b"newer")
        self.assertEqual((b"newer", 0), (old.read_bytes(), old.stat().st_uid))

    def test_all_or_none(self):
        """What was replaced or made before a file that cannot be replaced is put back."""
        first, last = self.path("first", b"1"), self.path("last", b"2")
        os.chmod(first, 0o604)
        fresh = self.folder / "fresh"
        contents = {str(path): b"new" for path in (first, fresh, last)}
        with fail_at(last), self.assertRaises(PermissionError) as seen:
            write_all(contents)
        self.assertEqual((str(last), None), (seen.exception.filename, seen.exception.filename2))
        self.assertEqual((b"1", b"2"), (first.read_bytes(), last.read_bytes()))
        self.assertEqual(0o604, first.stat().st_mode & 0o777)
        self.assertEqual({"first", "last"}, set(os.listdir(self.folder)))
        write_all(contents)
        self.assertEqual([b"new"] * 3, [path.read_bytes() for path in (first, fresh, last)])
        self.assertEqual({"first", "fresh", "last"}, set(os.listdir(self.folder)))

    def test_places_where_no_file_can_be(self):
        for path, told in [
            ("", '"": No such file or directory\n'),
            (f"{self.folder}/", f"{self.folder}/: Is a directory\n"),
            (f"{self.folder}/none/", f"{self.folder}/none/: Is a directory\n"),
            (f"{self.folder}/none/out", f"{self.folder}/none/out: No such file or directory\n"),
            ("/dev/full", f"/dev/full: {FULL}"),
        ]:
            for words in (
                ("build", PAIR_RIG, path),
                ("draw", PAIR_RIG, "-o", path),
                ("card", PAIR_RIG, "-o", path),
                ("plug", ROW, "bottom.2", "50000000000000c2", "-o", path),
                ("join", LEFT, "row0.3", RIGHT, "row0.3", "-o", path),
            ):
                with self.subTest(words=words):
                    self.assertEqual((3, "", told), run(*words)[:3])
        self.assertEqual([], os.listdir(self.folder))
        self.assertEqual('"": No such file or directory\n', run("judge", "").err)

    def test_standard_output_by_name(self):
        """Where /dev/stdout is a file, it takes the content and the lines after it."""
        rig = Rig.load(ROW)
        words = ("plug", ROW, "bottom.2", "50000000000000c2", "-o", "/dev/stdout")
        told = run(*words[:4], "--dry-run").raw
        rig.plug(rig.tables(), (2, 2), 0x50000000000000C2)
        out = self.folder / "out"
        with open(out, "wb") as target, self.command(*words, stdout=target) as ran:
            self.assertEqual("", ran.stderr.read())
        self.assertEqual(rig.file + told, out.read_bytes())

    def test_an_old_file_that_cannot_be_replaced(self):
        """It stays where the new one cannot be written, here since it is too large."""
        general = self.path("general", Rig.of_text(PAIR).file[10:38])
        phys = [self.path(f"phy{at}", Rig.of_text(PAIR).file[38 + 52 * at :][:52]) for at in (0, 1)]
        for words in (
            ("build", PAIR_RIG),
            ("draw", PAIR_RIG, "-o"),
            ("card", PAIR_RIG, "-o"),
            ("join", LEFT, "row0.3", RIGHT, "row0.3", "-o"),
            ("exercise", *EXPANDERS, "50000000000000b1", "-o"),
            ("collect", general, *phys, "-o"),
            ("pull", ROW, "bottom.1", "-o"),
        ):
            out = self.path("out", b"old")
            with self.subTest(words=words):
                with self.command(*words, out, stdout=subprocess.PIPE, preexec_fn=limit) as ran:
                    told = f"{out}: {os.strerror(errno.EFBIG)}\n"
                    self.assertEqual(("", told), (ran.stdout.read(), ran.stderr.read()))
                self.assertEqual((3, b"old"), (ran.returncode, out.read_bytes()))
        names = {"general", "phy0", "phy1", "out"}
        self.assertEqual(names, set(os.listdir(self.folder)))


def limit():
    """Lets a process write files of 10 bytes at most."""
    resource.setrlimit(resource.RLIMIT_FSIZE, (10, 10))


class Events(FolderTest):
    """The two files of plug and pull."""

    def setUp(self):
        super().setUp()
        rig = Rig.load(ROW)
        self.rig = self.path("rig.bin", rig.file)
        self.tables = self.path("rig.tables", "".join(lines(rig.tables(), rig.needed())))
        self.words = ("pull", self.rig, "E2.1", "--tables", self.tables)
        self.before = (self.rig.read_bytes(), self.tables.read_bytes())

    def unedited(self):
        self.assertEqual(self.before, (self.rig.read_bytes(), self.tables.read_bytes()))
        self.assertEqual({"rig.bin", "rig.tables"}, set(os.listdir(self.folder)))

    def test_a_full_device(self):
        self.assertEqual((3, "", f"/dev/full: {FULL}"), run(*self.words, "-o", "/dev/full")[:3])
        self.unedited()
        with open("/dev/full", "wb") as full:
            with self.command(*self.words, "-o", "-", stdout=full) as ran:
                self.assertEqual(f"standard output: {FULL}", ran.stderr.read())
        self.assertEqual(3, ran.returncode)
        self.unedited()

    def test_a_pipe_that_nobody_reads(self):
        reader, writer = os.pipe()
        os.close(reader)
        with self.command(*self.words, "-o", "-", stdout=writer) as ran:
            self.assertEqual("", ran.stderr.read())
        os.close(writer)
        self.assertEqual(3, ran.returncode)
        self.unedited()

    def test_a_file_that_cannot_be_replaced(self):
        for path in (self.rig, self.tables):
            with fail_at(path):
                ran = run(*self.words)
            self.assertEqual((3, "", f"{path}: Operation not permitted\n"), ran[:3])
            self.unedited()

    def test_one_file_for_both(self):
        """By any name of it this is wrong usage."""
        link, hard = self.folder / "link", self.folder / "hard"
        link.symlink_to("rig.tables")
        os.link(self.tables, hard)
        for out in (self.tables, f"{self.folder}/./rig.tables", link, hard):
            for more in ([], ["--dry-run"]):
                ran = run(*self.words, "-o", out, *more)
                self.assertEqual((2, "", 1), (ran.status, ran.out, ran.err.count("\n")), ran)
                self.assertIn("name two files", ran.err)
        self.assertEqual(2, run("pull", self.rig, "E2.1", "--tables", self.rig).status)
        link.unlink()
        hard.unlink()
        self.unedited()


if __name__ == "__main__":
    unittest.main()
