"""Tests of the package as a whole: docstrings, the library's calls, man pages, the samples."""

import contextlib
import ctypes
import doctest
import importlib
import io
import os
import pkgutil
import re
import shutil
import subprocess
import sys
import unittest
from array import array
from unittest import mock

import metzurgo
from metzurgo import library, manual
from metzurgo.__main__ import make_parser
from metzurgo.answers import OUTCOMES, Refusal, Setting
from metzurgo.form import Form, first_word
from metzurgo.rig import Rig

from .support import ROOT, SAMPLES, FolderTest, samples


def modules():
    """Every module of the package but the two that are programs."""
    found = pkgutil.walk_packages(metzurgo.__path__, "metzurgo.")
    return ["metzurgo"] + [module.name for module in found if not module.name.endswith("__main__")]


def load_tests(loader, tests, pattern):
    """The docstrings run as tests."""
    for name in modules():
        tests.addTests(doctest.DocTestSuite(importlib.import_module(name)))
    page = str(ROOT / "docs/COMMAND.md")
    folder = os.getcwd()
    tests.addTests(
        doctest.DocFileSuite(
            page,
            module_relative=False,
            setUp=lambda test: os.chdir(ROOT),  # the page reads the samples
            tearDown=lambda test: os.chdir(folder),
        )
    )
    return tests


class Calls(FolderTest):
    def test_the_calls_are_those_of_the_header(self):
        """Each call of include/metzurgo.h is declared with its parameters, and no other call."""
        header = (ROOT / "include/metzurgo.h").read_text(encoding="utf-8")
        found = dict(re.findall(r"^uint64_t (metzurgo_\w+)\(([^)]*)\);", header, re.M))
        self.assertEqual(sorted(found), sorted(library.CALLS))
        for name, parameters in library.CALLS.items():
            with self.subTest(call=name):
                declared = [parameter.strip() for parameter in found[name].split(",")]
                declared = [parameter for parameter in declared if parameter != "void"]
                self.assertEqual([kind(text) for text in declared], [kinds(t) for t in parameters])

    def test_the_library_that_is_looked_for(self):
        path = library.find_library()
        self.assertTrue(os.path.exists(path), path)
        with mock.patch.dict(os.environ, {"METZURGO_LIBRARY": "/none.so"}):
            self.assertEqual("/none.so", library.find_library())
            with self.assertRaises(metzurgo.LibraryMissing):
                metzurgo.Library()

    def test_the_order_of_places(self):
        """The package's folder, the one above, target/lib of the checkout, then the system."""
        package = self.folder / "bindings/python/metzurgo"
        target = self.folder / "target/lib"
        for folder in (package, target):
            folder.mkdir(parents=True)
        name = library.FILE_NAME
        places = [package / name, package.parent / name, target / name]
        unset = {key: value for key, value in os.environ.items() if key != "METZURGO_LIBRARY"}
        with mock.patch.object(library, "__file__", str(package / "library.py")):
            with mock.patch.dict(os.environ, unset, clear=True):
                for place in places:
                    self.assertNotEqual(str(place), library.find_library())
                for place in reversed(places):
                    place.touch()
                    self.assertEqual(str(place), library.find_library())

    def test_the_version_is_the_library_s(self):
        version = ".".join(map(str, metzurgo.Library().version()))
        self.assertEqual(metzurgo.__version__, version)


def kind(parameter):
    """A parameter of the header: pointer or not, and its type."""
    name, star = re.fullmatch(r"(?:const )?(\w+) (\*?)\w+", " ".join(parameter.split())).groups()
    return name.replace("size_t", "uint64_t") + star


def kinds(declared):
    """The same of a ctypes parameter; lengths have 64 bits, as the library has."""
    return {
        ctypes.c_char_p: "uint8_t*",
        ctypes.c_void_p: "void*",
        ctypes.POINTER(ctypes.c_uint8): "uint8_t*",
        ctypes.POINTER(ctypes.c_uint64): "uint64_t*",
        ctypes.c_uint8: "uint8_t",
        ctypes.c_uint16: "uint16_t",
        ctypes.c_uint32: "uint32_t",
        ctypes.c_uint64: "uint64_t",
    }[declared]


class Samples(unittest.TestCase):
    """Every sample answers what it states."""

    def test_each_call(self):
        count = 0
        for path in samples():
            for setting, call, answer, written in stated(path.read_text(encoding="utf-8")):
                with self.subTest(sample=path.stem, call=call):
                    rig = Rig.load(path, setting)
                    try:
                        found = answers(rig, call)
                    except Refusal as refusal:
                        found = str(refusal), []
                    if found is None:
                        continue
                    self.assertEqual(answer, found[0])
                    if written:
                        self.assertEqual(written, found[1])
                    count += 1
        self.assertGreater(count, 60)


def stated(text):
    """The calls that a sample states: setting, call, answer, words or expanders passed."""
    head = re.match(r"(#.*\n)*", text)[0]
    parts = re.split(r"^# call: ", re.sub(r"\n#   ", " ", head), flags=re.M)[1:]
    for part in parts:
        call, _, rest = part.partition("\n")
        setting = metzurgo.WIDEST
        match = re.fullmatch(r"setting ([0-9]+) ([0-9]+) ([0-9]+) (.*)", call)
        if match:
            setting, call = Setting(*map(int, match.groups()[:3])), match[4]
        answer = re.search(r"^# answer: (.*)$", rest, re.M)[1]
        kinds = "words|passed|card|form|answers"
        written = " ".join(re.findall(rf"^# (?:{kinds}): (.*)$", rest, re.M))
        yield setting, call, answer, written.split()


def answers(rig, call):
    """What the package answers to a call, with buffers as long as needed; None for others."""
    if call == "judge":
        return f"expanders {rig.judge()}", []
    match = re.fullmatch(r"tables ([0-9]+)", call)
    if match and int(match[1]) >= rig.needed().words:
        words = [f"{word:016x}" for word in rig.tables().words]
        return f"tables {rig.needed().tables} entries {rig.needed().words}", words
    if call == "compact":
        form = Form.of(rig)
        words = [f"{word:016x}" for word in form.words]
        return f"expanders {form.expanders} words {len(form)}", words
    match = re.fullmatch(r"compact_tables ([0-9a-f]+) ([0-9]+)", call)
    if match:
        words = [int(word, 16) for word in re.findall("." * 16, match[1])]
        form = Form(words, rig.setting)
        return f"tables {form.needed.tables} entries {form.needed.words}", []
    match = re.fullmatch(r"compact_trace_many((?: [0-9]+\.[0-9]+\.[0-9a-f]{16})*)", call)
    if match:
        parts = [request.split(".") for request in match[1].split()]
        words = array("Q")
        for start, arrival, address in parts:
            words.extend((first_word(int(start), int(arrival)), int(address, 16)))
        found = Form.of(rig).answers(rig.tables(), words)
        return f"requests {len(parts)}", [f"{answer:016x}" for answer in found]
    if call == "card_of_file":
        return f"bytes {len(rig.to_card())}", [rig.to_card().hex()]
    match = re.fullmatch(r"file_of_card ([0-9a-f]+)", call)
    if match:
        return f"bytes {len(Rig.of_card(bytes.fromhex(match[1])).file)}", []
    match = re.fullmatch(r"join ([0-9]+) ([0-9]+) (\S+) ([0-9]+) ([0-9]+)(?: then (.*))?", call)
    if match:
        near, far = tuple(map(int, match.groups()[:2])), tuple(map(int, match.groups()[3:5]))
        bench = rig.join(near, Rig.load(SAMPLES / f"{match[3]}.rig", rig.setting), far)
        return answers(bench, match[6]) if match[6] else (f"bytes {len(bench.file)}", [])
    match = re.fullmatch(r"event ([0-9]+) ([0-9]+) ([0-9a-f]{16})(?: then (.*))?", call)
    if match:
        tables, place, address = rig.tables(), (int(match[1]), int(match[2])), int(match[3], 16)
        event = rig.plug(tables, place, address) if address else rig.pull(tables, place)
        words = [f"{word:016x}" for word in tables.words]
        told = f"touched {event.moved.tables} changed {event.moved.words}"
        return answers(rig, match[4]) if match[4] else (told, words)
    match = re.fullmatch(r"make ([0-9a-f]+) ([0-9a-f]+)((?: [0-9a-f]+)*)", call)
    if match:
        words = [int(word, 16) for word in match[3].split()]
        made = library.library().make(int(match[1], 16), int(match[2], 16), words)
        return f"bytes {len(made)}", []
    match = re.fullmatch(r"trace ([0-9]+) ([0-9]+) ([0-9a-f]{16})", call)
    if match:
        request = int(match[1]), int(match[2]), int(match[3], 16)
        traced = rig.trace(rig.tables(), *request)
        passed = [str(expander) for expander in traced.passed]
        place = f"{traced.expander} {traced.phy}" if traced.arrived else str(traced.expander)
        return f"{OUTCOMES[traced.outcome]} {place} count {len(passed)}", passed
    return None


class Manual(FolderTest):
    def test_a_page_for_each_subcommand(self):
        self.assertEqual(0, manual.main([str(self.folder / "man")]))
        pages = {path.name for path in (self.folder / "man").iterdir()}
        parsers = manual.subcommands(make_parser())
        self.assertEqual({"metzurgo.1", *(f"metzurgo-{name}.1" for name in parsers)}, pages)
        with contextlib.redirect_stderr(io.StringIO()) as err:
            self.assertEqual(2, manual.main([]))
            self.assertEqual(3, manual.main([str(self.path("file", "")) + "/man"]))
        self.assertEqual(2, err.getvalue().count("\n"))

    @unittest.skipUnless(shutil.which("man"), "there is no man")
    def test_a_page_says_what_help_says(self):
        for name, text in manual.pages().items():
            with self.subTest(page=name):
                path = self.path(name, text)
                ran = subprocess.run(
                    ["man", "--warnings", "--no-hyphenation", "-l", str(path)],
                    capture_output=True,
                    text=True,
                    check=True,
                    env={**os.environ, "MANWIDTH": "200", "MANPAGER": "cat", "LC_ALL": "C"},
                )
                shown = re.sub(r".\x08", "", ran.stdout)
                self.assertEqual("", ran.stderr)
                for line in page_lines(name):
                    self.assertIn("".join(line.split()), "".join(shown.split()))


def page_lines(name):
    """What a page has to say: summary, prose, help of every argument, example."""
    parser = make_parser()
    if name != "metzurgo.1":
        parser = manual.subcommands(parser)[name[len("metzurgo-") : -len(".1")]]
    lines = [parser.summary, parser.prose, *parser.example.splitlines()]
    lines += [action.help for action in parser._actions if action.help]
    lines += [option for action in parser._actions for option in action.option_strings]
    return lines


class Installed(FolderTest):
    def test_pip_install(self):
        """Installed into an empty folder, the command runs outside of the checkout."""
        source = self.folder / "source"
        shutil.copytree(ROOT / "bindings/python", source)
        target = self.folder / "installed"
        subprocess.run(
            [
                sys.executable,
                "-m",
                "pip",
                "install",
                "--quiet",
                "--no-index",
                "--target",
                str(target),
                str(source),
            ],
            check=True,
            capture_output=True,
        )
        library_path = os.path.abspath(library.find_library())
        folder = os.open(self.folder, os.O_RDONLY)
        self.addCleanup(os.close, folder)
        accepted = "accepted: 2 expanders, 5 phys, 1 table, 4 words\n"
        # Also with a folder as standard input, on which Python itself does not start.
        for rig, stdin, status, out in (
            (str(ROOT / "samples/pair.rig"), subprocess.DEVNULL, 0, accepted),
            (str(ROOT / "samples/pair.rig"), folder, 0, accepted),
            ("-", folder, 3, ""),
        ):
            ran = subprocess.run(
                [str(target / "bin" / "metzurgo"), "judge", rig],
                env={**os.environ, "PYTHONPATH": str(target), "METZURGO_LIBRARY": library_path},
                cwd=self.folder,
                stdin=stdin,
                capture_output=True,
                text=True,
                check=False,
            )
            self.assertEqual((status, out), (ran.returncode, ran.stdout), ran.stderr)
            self.assertEqual(int(status != 0), ran.stderr.count("\n"), ran.stderr)
        self.assertTrue((target / "metzurgo/py.typed").exists())


class Tarball(FolderTest):
    @unittest.skipUnless((ROOT / "target/bin/routes").exists(), "there is no routes")
    def test_tar_fails(self):
        """Then there is no tarball, and its path is not printed."""
        tar = self.path("tar", "#!/bin/sh\nexit 2\n")
        tar.chmod(0o755)
        out = self.folder / "out"
        out.mkdir()
        ran = subprocess.run(
            [str(ROOT / "tools/make_tarball.sh"), str(out)],
            env={**os.environ, "PATH": f"{self.folder}:{os.environ['PATH']}"},
            capture_output=True,
            text=True,
            check=False,
        )
        self.assertEqual((2, "", []), (ran.returncode, ran.stdout, os.listdir(out)), ran.stderr)


if __name__ == "__main__":
    unittest.main()
