#!/usr/bin/env python3
"""Unpacks the tarball in an empty folder and compares the command with the archive.

    test_tarball.py TARBALL [--harness PROGRAM]

Every subcommand runs on every sample, where nothing but Python 3 is on the path. What
it answers is compared with the call of the test harness on the archive. A picture is
well-formed, has every name of its rig, and nothing in it overlaps. The program routes
lists every sample as the table call gives it. Ends with 1 where anything differs.
"""

import argparse
import concurrent.futures
import itertools
import json
import os
import re
import subprocess
import sys
import tarfile
import tempfile
import xml.etree.ElementTree as ElementTree
from pathlib import Path

ROOT = Path(__file__).resolve().parent.parent
SUBCOMMANDS = (
    "judge",
    "tables",
    "trace",
    "frames",
    "shelf",
    "draw",
    "build",
    "print",
    "card",
    "plug",
    "pull",
    "join",
    "exercise",
    "collect",
)
FILES = (
    "INSTALL",
    "README.md",
    "CHANGES.md",
    "bin/metzurgo",
    "bin/routes",
    "include/metzurgo.h",
    "lib/libmetzurgo.a",
    "lib/libmetzurgo.so",
    "lib/pkgconfig/metzurgo.pc",
    "share/man/man1/metzurgo.1",
    *(f"share/man/man1/metzurgo-{name}.1" for name in SUBCOMMANDS),
)
MANY = 65536  # words for the tables of any sample
NOBODY = "7fffffffffffffff"  # an address that no sample has
EXERCISE = ("7ffffffffffffffd", "7ffffffffffffffe")  # nor these, of the expanders of exercises
SVG = "{http://www.w3.org/2000/svg}"


class Wrong(Exception):
    """Something that is not as it should be."""


def same(what, expected, got):
    if expected != got:
        raise Wrong(f"{what}: {got!r}, and not {expected!r}")


# ------------------------------------------------------------ what is compared


class Unpacked:
    """The tarball in a folder of its own, and the commands in it."""

    def __init__(self, tarball, folder):
        empty = folder / "empty"
        empty.mkdir()
        with tarfile.open(tarball) as archive:
            for member in archive.getmembers():
                if member.name.startswith(("/", "..")) or member.linkname.startswith("/"):
                    raise Wrong(f"{member.name} leads out of the folder")
            archive.extractall(empty)
        (self.top,) = empty.iterdir()
        same("the folder in the tarball", tarball.name, f"{self.top.name}.tar.gz")
        # Nothing but Python 3 is on the path.
        path = folder / "path"
        path.mkdir()
        (path / "python3").symlink_to(os.path.realpath(sys.executable))
        self.environment = {"PATH": str(path), "LANG": "C.UTF-8"}

    def run(self, program, *arguments, stdin=b""):
        return subprocess.run(
            [self.top / "bin" / program, *map(str, arguments)],
            input=stdin,
            capture_output=True,
            env=self.environment,
            cwd=self.top,
        )

    def answer(self, what, *arguments, status=0, stdin=b""):
        """What a subcommand prints, where it ends with this status."""
        done = self.run("metzurgo", *arguments, stdin=stdin)
        if done.returncode != status:
            error = done.stderr.decode().strip()
            raise Wrong(f"{what} ends with {done.returncode}, and not {status}: {error}")
        return done.stdout


class Archive:
    """Calls on the archive, by the harness."""

    def __init__(self, harness):
        self.harness, self.calls = harness, 0

    def call(self, file, *call):
        """The answer, and what was written by its kind."""
        self.calls += 1
        done = subprocess.run(
            [self.harness, "call", file, *map(str, call)], capture_output=True, text=True
        )
        if done.returncode != 0:
            raise Wrong(f"the harness fails: {(done.stdout + done.stderr).strip()}")
        answer, *lines = done.stdout.splitlines()
        return answer, {line.split()[0]: line.split()[1:] for line in lines}


# ---------------------------------------------------------------- one sample


class Check:
    def __init__(self, unpacked, archive, folder):
        self.unpacked, self.archive = unpacked, archive
        self.file, self.folder = folder / "rig.bin", folder
        self.traces = self.requests = self.pictures = self.shelves = self.joined = self.events = 0

    def sample(self, path):
        """Every subcommand on one sample, as a text and as a domain file."""
        self.rig = path.relative_to(self.unpacked.top)
        self.unpacked.answer("build", "build", self.rig, self.file)
        self.bytes = self.file.read_bytes()
        self.print()
        answer, _ = self.archive.call(self.file, "judge")
        self.listing()
        self.card()
        if answer.startswith("refused"):
            self.refused(answer)
            return
        self.judge(answer)
        self.tables()
        self.join()
        self.plug_and_pull()
        self.all_traces()
        self.matrix()
        self.picture()
        self.collect()

    def text(self, *arguments, status=0):
        return self.unpacked.answer(arguments[0], *arguments, status=status).decode()

    def json(self, *arguments, status=0):
        return json.loads(self.text(*arguments, "--json", status=status))

    def print(self):
        """A domain file that is printed and built again is the same."""
        printed = self.folder / "printed.rig"
        printed.write_bytes(self.unpacked.answer("print", "print", self.file))
        again = self.unpacked.answer("build", "build", printed)
        same("the file printed and built again", self.bytes, again)

    def card(self):
        """The card is the archive's, a card that is read gives it again, and judges alike."""
        answer, written = self.archive.call(self.file, "card_of_file")
        refused = answer.startswith("refused")
        card = self.unpacked.answer("card", "card", self.rig, status=int(refused))
        if refused:
            same("the card of a refused rig", b"", card)
            return
        same("the card", written["card"], [card.hex()])
        same("the card of a card", card, self.unpacked.answer("card", "card", "-", stdin=card))
        judged = self.unpacked.run("metzurgo", "judge", self.rig)
        again = self.unpacked.run("metzurgo", "judge", "-", stdin=card)
        last = [done.stdout.decode().splitlines()[-1] for done in (judged, again)]
        same("the judgement of a card", last[0], last[1])

    def listing(self):
        """The program routes prints what the table call gives."""
        answer, written = self.archive.call(self.file, "tables", 8192)
        done = self.unpacked.run("routes", stdin=self.bytes)
        *lines, last = done.stdout.decode().splitlines()
        same("the last line of routes", answer, last)
        words = [line.split()[3] for line in lines]
        same("the words of routes", written.get("words", []), words)

    def refused(self, answer):
        """Every subcommand that asks the library says why, and ends with 1."""
        *_, last = self.text("judge", self.rig, status=1).splitlines()
        same("the last line of judge", answer, last)
        told = self.json("judge", self.rig, status=1)["refused"]
        numbers = [told["number"], told["expander"], told["phy"]]
        same("judge", answer, "refused {} {} {}".format(*numbers))
        for arguments in (
            ("tables",),
            ("trace", NOBODY, NOBODY),
            ("trace", "--all"),
            ("frames",),
            ("shelf", "0"),
            ("draw",),
        ):
            name, *others = arguments
            done = self.unpacked.run("metzurgo", name, self.rig, *others)
            if others[:1] == [NOBODY] and done.returncode == 2:
                continue  # the names of a request are looked up before the library is asked
            same(f"the status and output of {name}", (1, b""), (done.returncode, done.stdout))
            if answer not in done.stderr.decode():
                raise Wrong(f"{name} says: {done.stderr.decode().strip()}")

    def judge(self, answer):
        counts = self.json("judge", self.rig)["accepted"]
        same("judge", answer, f"expanders {counts['expanders']}")
        tables, _ = self.archive.call(self.file, "tables", MANY)
        same("judge", tables, f"tables {counts['tables']} entries {counts['words']}")

    def tables(self):
        """The tables, and the frames that load them, have the words of the table call."""
        _, written = self.archive.call(self.file, "tables", MANY)
        bits = [byte >> 7 - bit & 1 == 1 for byte in bytes.fromhex("".join(written["bits"]))
                for bit in range(8)]
        expected = list(zip(written["words"], bits))
        tables = self.json("tables", self.rig, "--all")["tables"]
        entries = [
            (table["expander"], table["phy"], index, entry["address"], entry["disabled"])
            for table in tables
            for index, entry in enumerate(table["entries"])
        ]
        same("tables", expected, [entry[3:] for entry in entries])
        for length in (0, 9):
            frames = self.json("frames", self.rig, "--length", length)["frames"]
            loaded = [frame_fields(bytes.fromhex(frame["frame"]), length) for frame in frames]
            same("frames", [entry[1:] for entry in entries], loaded)
            same("frames", [entry[0] for entry in entries], [frame["expander"] for frame in frames])
        self.load(tables)
        if tables:
            self.exercise([entry["address"] for entry in tables[0]["entries"]][:100])

    def exercise(self, words):
        """The exercise that is made of a table is the archive's, and has that table."""
        given = [word if word.strip("0") else "0" for word in words]
        _, written = self.archive.call(self.file, "make", *EXERCISE, *given)
        made = self.unpacked.answer("exercise", "exercise", *EXERCISE, *given)
        same("the exercise", written["file"], [made.hex()])
        listed = self.unpacked.answer("tables", "tables", "-", "--all", "--json", stdin=made)
        (table,) = json.loads(listed)["tables"]
        same("the table of the exercise", words, [entry["address"] for entry in table["entries"]])

    def load(self, tables):
        """A shelf like an expander holds its tables after the frames; a larger one is refused."""
        for number, (_, phys) in enumerate(expanders(self.bytes)):
            own = [table for table in tables if table["expander"] == number]
            if not own:
                continue
            frames = self.unpacked.answer("frames", "frames", self.rig, number)
            large = len(phys) > 16 or len(own[0]["entries"]) > 64
            loaded = self.unpacked.answer(
                "shelf", "shelf", self.rig, number, "--json", status=int(large), stdin=frames
            )
            told = json.loads(loaded)
            if large:
                same("the refusal of a shelf", 3, told["refused"]["number"])
            else:
                same("the tables of a shelf", own, told["tables"])
                self.shelves += 1

    def join(self):
        """The sample joined with another at its first empty subtractive phy, as the archive does."""
        places = [
            (number, phy)
            for number, (_, phys) in enumerate(expanders(self.bytes))
            for phy, frame in enumerate(phys)
            if not frame[2] and not frame[12] >> 4 and frame[44] & 15 == 1
        ]
        if not places:
            return
        expander, phy = places[0]
        out, other = self.folder / "bench.bin", self.folder / "other.bin"
        self.unpacked.answer("build", "build", "samples/bench-right.rig", other)
        answer, written = self.archive.call(self.file, "join", expander, phy, other, 0, 3)
        refused = answer.startswith("refused")
        words = ["join", self.rig, f"{expander}.{phy}", "samples/bench-right.rig", "row0.3"]
        told = self.json(*words, "-o", out, status=int(refused))
        if refused:
            numbers = [told["refused"][key] for key in ("number", "expander", "phy")]
            same("the refusal of a join", answer, "refused {} {} {}".format(*numbers))
            return
        same("a join", answer, f"bytes {told['bytes']}")
        same("the file of a join", written["file"], [out.read_bytes().hex()])
        self.joined += 1

    def plug_and_pull(self):
        """A drive is plugged into the last phy that is no expander's, and pulled at the first."""
        places = [
            (number, phy)
            for number, (_, phys) in enumerate(expanders(self.bytes))
            for phy, frame in enumerate(phys)
            if not frame[2] and frame[12] >> 4 & 7 < 2
        ]
        if places:
            listed = self.unpacked.answer("tables", "tables", self.rig, "--stored")
            self.event(listed, places[-1], "plug", NOBODY)
            self.event(listed, places[0], "pull")

    def event(self, listed, place, name, address=None):
        """An event edits the file and stored tables as the archive does, or neither."""
        answer, written = self.archive.call(self.file, "event", *place, address or "0")
        file, stored = self.folder / "edited.bin", self.folder / "stored"
        file.write_bytes(self.bytes)
        stored.write_bytes(listed)
        words = [name, file, "{}.{}".format(*place), *filter(None, [address])]
        told = self.json(*words, "--tables", stored, status=int(answer.startswith("refused")))
        if "refused" in told:
            numbers = [told["refused"][key] for key in ("number", "expander", "phy")]
            same("the refusal of an event", answer, "refused {} {} {}".format(*numbers))
            same("the file after a refusal", self.bytes, file.read_bytes())
            same("the tables after a refusal", listed, stored.read_bytes())
            return
        same("an event", answer, f"touched {told['tables']} changed {told['words']}")
        same("the file of an event", written["file"], [file.read_bytes().hex()])
        left = [line.split()[3] for line in stored.read_text().splitlines()[:-1]]
        same("the tables of an event", written["words"], left)
        self.events += 1

    # Requests.

    def all_traces(self):
        """Requests from each start, to each address, and to one that nobody has."""
        starts, addresses = self.devices()
        ends = [NOBODY, *addresses]
        for place in range(max(len(starts), len(ends))):
            (start, arrival), address = starts[place % len(starts)], ends[-place % len(ends)]
            self.traces += 1
            call = "trace", start, arrival, address
            answer, written = self.archive.call(self.file, *call)
            by = f"{start}" if arrival == 255 else f"{start}.{arrival}"
            told = self.json(
                "trace", self.rig, by, address, status=0 if answer.startswith("arrived") else 1
            )
            at = f" {255 if told['phy'] is None else told['phy']}"
            at = at if told["outcome"] == "arrived" else ""
            count = len(told["passed"])
            got = f"{told['outcome']} {told['expander']}{at} count {count}"
            same(f"the trace from {by} to {address}", answer, got)
            passed = [str(each["expander"]) for each in told["passed"]]
            same("the expanders passed", written["passed"], passed)

    def matrix(self):
        """All requests at once: the archive's answers to the list of them."""
        starts, _ = self.devices()
        rows = self.unpacked.run("metzurgo", "trace", "--all", self.rig, "--json")
        told = json.loads(rows.stdout)
        addresses = [each["address"] for each in told["addresses"]]
        got = [(each["expander"], 255 if each["arrival"] is None else each["arrival"])
               for each in told["starts"]]
        same("the starts of all requests", sorted(starts), sorted(got))
        same("their addresses", self.devices()[1], sorted(addresses))
        requests = [f"{start}.{arrival}.{to}" for start, arrival in got for to in addresses]
        answer, written = self.archive.call(self.file, "compact_trace_many", *requests)
        same("all requests", answer, f"requests {len(requests)}")
        ends = [end for each in told["starts"] for end in each["ends"]]
        same("their ends", written["answers"], [end_word(end) for end in ends])
        self.requests += len(requests)
        lines = self.unpacked.run("metzurgo", "trace", "--all", self.rig)
        status = int(any(
            int(word, 16) >> 24 and to != self.asking(*start)
            for word, (start, to) in zip(written["answers"], itertools.product(got, addresses))
        ))
        for done in (rows, lines):
            same("the status of all requests", status, done.returncode)
        cells = [line.split()[-len(addresses):] for line in lines.stdout.decode().splitlines()[1:-1]]
        signs = {"arrived": "{count}", "NO DESTINATION": "-", "BAD DESTINATION": "x"}
        same("the lines of all requests", [signs[end["outcome"]].format(**end) for end in ends],
             [cell for line in cells for cell in line])

    def asking(self, expander, arrival):
        """The address of the drive that a request comes from, or None where it is an expander."""
        _, phys = expanders(self.bytes)[expander]
        return None if arrival == 255 else phys[arrival][24:32].hex()

    def devices(self):
        """The starts of requests and the addresses of the file, as the harness numbers them."""
        starts, addresses = [], []
        for number, (address, phys) in enumerate(expanders(self.bytes)):
            starts.append((number, 255))
            addresses.append(address)
            for phy, frame in enumerate(phys):
                if frame[2] == 0 and frame[12] >> 4 & 7 == 1:
                    starts.append((number, phy))
                    addresses.append(frame[24:32].hex())
        return starts, sorted(set(addresses))

    # Pictures.

    def picture(self):
        starts, addresses = self.devices()
        target = self.folder / "rig.svg"
        start, address = starts[-1], addresses[0]
        by = f"{start[0]}" if start[1] == 255 else f"{start[0]}.{start[1]}"
        answer, _ = self.archive.call(self.file, "trace", *start, address)
        status = 0 if answer.startswith("arrived") else 1
        for more, ends in (((), 0), (("--trace", by, address), status)):
            self.text("draw", self.rig, *more, "-o", target, status=ends)
            self.pictures += 1
            try:
                drawn = ElementTree.fromstring(target.read_text(encoding="utf-8"))
            except ElementTree.ParseError as error:
                raise Wrong(f"the picture is not well-formed: {error}") from None
            names = re.findall(r"^\s*(?:drive|expander) (\S+)", self.rig_text(), re.M)
            check_picture(drawn, [*names, *addresses])

    def rig_text(self):
        return (self.unpacked.top / self.rig).read_text(encoding="utf-8")

    # Responses.

    def collect(self):
        """Responses as smp_utils writes them, without CRC and with one, make the file again."""
        for crc in (b"", b"\x01\x02\x03\x04"):
            folders = []
            for number, (address, phys) in enumerate(expanders(self.bytes)):
                folder = self.folder / f"expander{number}{'-crc' if crc else ''}"
                folder.mkdir()
                folders.append(folder)
                general = general_of(self.bytes, number)
                (folder / "general").write_bytes(general + crc)
                for phy, frame in enumerate(phys):
                    (folder / f"phy{phy}").write_bytes(frame + crc)
            same("collect", self.bytes, self.unpacked.answer("collect", "collect", *folders))


def end_word(end):
    """The end of a request as the calls pack it."""
    outcome = ["arrived", "NO DESTINATION", "BAD DESTINATION"].index(end["outcome"])
    phy = 255 if end["phy"] is None else end["phy"]
    return f"{outcome << 24 | end['expander'] << 16 | phy << 8 | end['count']:016x}"


def frame_fields(frame, length):
    """Phy, index, address and disabled of a loading frame, whose other bytes are fixed."""
    fixed = bytes([0x40, 0x90, 0, length])
    same("a loading frame", (40, fixed), (len(frame), frame[:4]))
    index = int.from_bytes(frame[6:8], "big")
    return frame[9], index, frame[16:24].hex(), frame[12] == 0x80


def expanders(file):
    """The address and the DISCOVER frames of each expander of an accepted file."""
    found, at = [], 2
    for _ in range(file[1]):
        address, count = file[at : at + 8].hex(), file[at + 17]
        at += 8 + (68 if file[at + 11] else 28)
        phys = []
        for _ in range(count):
            size = 64 if file[at + 3] else 52
            phys.append(file[at : at + size])
            at += size
        found.append((address, phys))
    return found


def general_of(file, number):
    """The REPORT GENERAL frame of an expander."""
    at = 2
    for place, (_, phys) in enumerate(expanders(file)):
        size = 68 if file[at + 11] else 28
        if place == number:
            return file[at + 8 : at + 8 + size]
        at += 8 + size + sum(map(len, phys))
    raise Wrong(f"there is no expander {number}")


# ------------------------------------------------------------------- pictures


def check_picture(drawn, names):
    """Every name is drawn, everything is on the paper, and nothing overlaps."""
    texts = [text.text for text in drawn.iter(SVG + "text")]
    for name in names:
        if name not in texts:
            raise Wrong(f"the picture does not have {name}")
    paper = (0, 0, float(drawn.get("width")), float(drawn.get("height")))
    boxes = [(rectangle.get("class"), box_of(rectangle)) for rectangle in drawn.iter(SVG + "rect")]
    boxes = [(kind, box) for kind, box in boxes if kind != "paper"]
    for one, other in itertools.combinations(boxes, 2):
        if overlap(one[1], other[1]):
            raise Wrong(f"in the picture {one} overlaps {other}")
    written = [(text.text, text_box(text)) for text in drawn.iter(SVG + "text")
               if text.get("textLength")]
    for one, other in itertools.combinations(written, 2):
        if overlap(one[1], other[1]):
            raise Wrong(f"in the picture {one} overlaps {other}")
    for _, box in boxes + written:
        if box[0] < 0 or box[1] < 0 or box[2] > paper[2] or box[3] > paper[3]:
            raise Wrong(f"{box} is not on the paper")
    for text, box in written:
        for kind, rectangle in boxes:
            inside = rectangle[0] <= box[0] and box[2] <= rectangle[2]
            if overlap(box, rectangle) and not (kind.startswith("box") and inside):
                raise Wrong(f"in the picture {text} overlaps the border of a {kind}")


def box_of(element):
    x, y, width, height = (float(element.get(name, 0)) for name in ("x", "y", "width", "height"))
    return x, y, x + width, y + height


def text_box(text):
    """The box of a text, whose letters go 9 above and 3 below their line."""
    x, y = float(text.get("x")), float(text.get("y"))
    return x, y - 9, x + float(text.get("textLength")), y + 3


def overlap(one, other):
    return (
        one[0] < other[2] and other[0] < one[2] and one[1] < other[3] and other[1] < one[3]
    )


# --------------------------------------------------------------------- all


def check_files(unpacked):
    """Everything is there, and the command says its version and its help."""
    for name in FILES:
        if not (unpacked.top / name).is_file():
            raise Wrong(f"{name} is missing")
    for folder in ("samples", "docs"):
        stored = sorted(path.name for path in (ROOT / folder).iterdir())
        same(folder, stored, sorted(path.name for path in (unpacked.top / folder).iterdir()))
    header = (unpacked.top / "include/metzurgo.h").read_text(encoding="utf-8")
    version = ".".join(re.findall(r"define METZURGO_VERSION_M?[A-Z]+ ([0-9]+)", header))
    same("the version", f"metzurgo {version}\n", unpacked.answer("version", "--version").decode())
    for name in SUBCOMMANDS:
        told = unpacked.answer(name, name, "--help").decode()
        check_names(unpacked, f"the help of {name}", told)
        if "example:" not in told:
            raise Wrong(f"the help of {name} has no example")
        page = (unpacked.top / f"share/man/man1/metzurgo-{name}.1").read_text(encoding="utf-8")
        if not page.startswith(".TH"):
            raise Wrong(f"metzurgo-{name}.1 is no man page")


def check_names(unpacked, what, text):
    """A text names no file of the checkout that is not in the tarball, nor the toolchain."""
    for path in re.findall(r"(?<![\w./-])[\w.][\w.-]*/[\w./-]*", text):
        if (ROOT / path.split("/")[0]).exists() and not (unpacked.top / path.rstrip(".")).exists():
            raise Wrong(f"{what} names {path}, which is not there")
    if re.search(r"^ *rt |`rt\b", text, re.M):
        raise Wrong(f"{what} names the toolchain")


def check_pages(unpacked):
    """README.md and INSTALL name what is there, and the examples of README.md are true."""
    for name in ("README.md", "INSTALL"):
        check_names(unpacked, name, (unpacked.top / name).read_text(encoding="utf-8"))
    page = (unpacked.top / "README.md").read_text(encoding="utf-8")
    examples = re.findall(r"^    \$ bin/(.*)\n((?:    [^$\n].*\n)*)", page, re.M)
    for command, output in examples:
        said = b""
        for part in command.split(" | bin/"):
            done = unpacked.run(*part.split(), stdin=said)
            same(f"the status of {part}", 0, done.returncode)
            said = done.stdout
        same(f"what {command} prints", re.sub("^    ", "", output, flags=re.M), said.decode())
    same("the examples of README.md", 3, len(examples))


def check_folder_as_input(unpacked):
    """With a folder as standard input a rig is read from a file, and `-` cannot be read."""
    for rig, status, errors in (("samples/pair.rig", 0, 0), ("-", 3, 1)):
        folder = os.open(unpacked.top, os.O_RDONLY)
        done = subprocess.run(
            [unpacked.top / "bin/metzurgo", "judge", rig],
            stdin=folder,
            capture_output=True,
            env=unpacked.environment,
            cwd=unpacked.top,
        )
        os.close(folder)
        what = f"judge {rig} with a folder as standard input"
        same(f"{what}: status", status, done.returncode)
        same(f"{what}: lines of error", errors, done.stderr.count(b"\n"))
        same(f"{what}: prints", status == 0, bool(done.stdout))


def check_sample(unpacked, archive, path, folder):
    """The check of one sample, and what is wrong, or None."""
    folder.mkdir()
    check = Check(unpacked, archive, folder)
    try:
        check.sample(path)
    except Wrong as error:
        return check, f"{path.name}: {error}"
    return check, None


def main():
    parser = argparse.ArgumentParser(
        description=__doc__, formatter_class=argparse.RawDescriptionHelpFormatter
    )
    parser.add_argument("TARBALL", type=Path)
    parser.add_argument("--harness", default=ROOT / "target/harness/release/harness")
    options = parser.parse_args()
    with tempfile.TemporaryDirectory() as folder:
        folder = Path(folder)
        try:
            unpacked = Unpacked(options.TARBALL, folder)
            check_files(unpacked)
            check_pages(unpacked)
            check_folder_as_input(unpacked)
        except Wrong as error:
            print(f"{options.TARBALL}: {error}")
            return 1
        archive = Archive(options.harness)
        samples = sorted((unpacked.top / "samples").glob("*.rig"))
        with concurrent.futures.ThreadPoolExecutor(os.cpu_count()) as workers:
            done = list(
                workers.map(
                    lambda path: check_sample(unpacked, archive, path, folder / path.stem), samples
                )
            )
    wrong = [line for _, line in done if line]
    traces = sum(check.traces for check, _ in done)
    pictures = sum(check.pictures for check, _ in done)
    shelves = sum(check.shelves for check, _ in done)
    requests = sum(check.requests for check, _ in done)
    for line in wrong:
        print(line)
    joined = sum(check.joined for check, _ in done)
    events = sum(check.events for check, _ in done)
    if wrong or not all((traces, requests, pictures, shelves, joined, events)):
        print(f"tarball: {len(wrong)} samples differ")
        return 1
    print(
        f"tarball: {len(samples)} samples, {traces} traces, {requests} requests in lists,"
        f" {shelves} shelves, {joined} joins, {events} events, {pictures} pictures;"
        f" the command answers as the archive does in {archive.calls} calls"
    )
    return 0


if __name__ == "__main__":
    sys.exit(main())
