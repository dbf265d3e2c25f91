#!/usr/bin/env python3
"""Builds every sample and compares its calls with the answers it states.

    check_samples.py [--harness PROGRAM] [--reference] [--routes PROGRAM] [--samples FOLDER]

The calls are made by the test harness, on the archive, or with --reference on the
harness's reference implementation. Each refused or
faulty sample is built and called a second time, repaired. A sample has no warnings. Every file
built is printed and built again. The file that a `make` call makes is the sample's own.
With --routes the program lists every file, and its listing is compared with the words
of the table call, and of a `make` call. docs/FILE-FORMAT.md,
docs/RIG-TEXT.md and samples/README.md are compared with the samples. Ends with 1
where anything differs, and where a refusal number has no sample.
"""

import argparse
import re
import subprocess
import sys
import tempfile
from pathlib import Path

sys.dont_write_bytecode = True
ROOT = Path(__file__).resolve().parent.parent
sys.path.insert(0, str(ROOT / "bindings/python"))
from metzurgo import rigtext  # noqa: E402

NUMBERS = [*range(1, 13), *range(14, 25)]  # 13 is withdrawn
WRITTEN = ("words", "bits", "passed", "card", "form", "answers")
KEYS = ("shows", "call", "answer", *WRITTEN, "repair", "repaired call", "repaired answer")


class Wrong(Exception):
    """Something that is not as it should be."""


# ------------------------------------------------------------------ samples


class Call:
    """A call that a sample states."""

    def __init__(self, call):
        self.call = call
        self.answer = None
        self.written = {}  # of WRITTEN, as far as stated
        self.repaired_call = None
        self.repaired_answer = None

    @property
    def refused(self):
        return self.answer.startswith("refused ")


class Sample:
    def __init__(self, path):
        self.name = path.stem
        self.text = path.read_text(encoding="utf-8")
        self.shows = self.repair = None
        self.calls = []
        for key, value in self.comments():
            self.state(key, value)
        if not self.shows:
            raise Wrong("does not state what it shows")
        if not self.calls:
            raise Wrong("states no call")
        for call in self.calls:
            if call.answer is None:
                raise Wrong(f'states no answer of the call "{call.call}"')
        self.check_refusals()

    def comments(self):
        """The comments before the first line that is not one: keys and values."""
        found = []
        for line in self.text.split("\n"):
            if not line.startswith("#"):
                break
            match = re.fullmatch(r"# ([a-z ]+): (\S.*)", line)
            if match and match[1] in KEYS:
                found.append([match[1], match[2]])
            elif line.startswith("#   ") and found:
                found[-1][1] += " " + line[4:].strip()
            else:
                raise Wrong(f'has the comment "{line}" among the statements at its top')
        return found

    def state(self, key, value):
        if key in ("shows", "repair"):
            if getattr(self, key):
                raise Wrong(f"states {key} twice")
            setattr(self, key, value)
            return
        if key == "call":
            self.calls.append(Call(value))
            return
        if not self.calls:
            raise Wrong(f"states {key} before a call")
        call = self.calls[-1]
        if key in WRITTEN:
            call.written.setdefault(key, []).extend(value.split())
            return
        field = key.replace(" ", "_")
        if getattr(call, field):
            raise Wrong(f"states {key} twice for one call")
        setattr(call, field, value)

    def check_refusals(self):
        """Only refused-NN samples are refused, with NN; they and fault samples say how to repair that."""
        name = re.fullmatch(r"refused-([0-9]{2})-[a-z-]+", self.name)
        refused = [call for call in self.calls if call.refused]
        if self.name.startswith("fault-"):
            self.number = None
            repaired = [call for call in self.calls if call.repaired_answer]
            if refused or not self.repair or not repaired or self.repaired() == self.text:
                raise Wrong("is refused, or not repaired")
            return
        if not name:
            if refused or self.repair or self.repaired() != self.text:
                raise Wrong("is refused or repaired, but not named refused-NN-...")
            if any(call.repaired_call or call.repaired_answer for call in self.calls):
                raise Wrong("is repaired, but not named refused-NN-...")
            self.number = None
            return
        self.number = int(name[1])
        if not refused:
            raise Wrong("states no refusal")
        for call in self.calls:
            if not call.refused and (call.repaired_call or call.repaired_answer):
                raise Wrong(f'repairs the call "{call.call}", which is not refused')
        if not self.repair:
            raise Wrong("does not state how to repair it")
        for call in refused:
            if not re.fullmatch(rf"refused {self.number} [0-9]+ [0-9]+", call.answer):
                raise Wrong(f'states the answer "{call.answer}", not a refusal {self.number}')
            if not call.repaired_answer:
                raise Wrong(f'states no repaired answer of the call "{call.call}"')
            if call.repaired_answer.startswith("refused"):
                raise Wrong("is refused when repaired")
            if not call.repaired_call and self.repaired() == self.text:
                raise Wrong("marks nothing as broken or repaired")

    def repaired(self):
        """The text without lines marked broken, and with those after "# repaired:"."""
        lines = []
        for line in self.text.split("\n"):
            match = re.fullmatch(r"\s*# repaired: (.*)", line)
            if match:
                line = match[1]
            elif line.endswith("# broken"):
                line = ""
            lines.append(line)
        return "\n".join(lines)


# -------------------------------------------------------------------- checks


class Check:
    def __init__(self, options, folder):
        self.harness, self.routes = options.harness, options.routes
        self.calls = "call-reference" if options.reference else "call"
        self.folder, self.samples = Path(folder), options.samples
        self.built = self.folder / "sample.bin"
        self.files = self.answers = self.listings = 0

    def sample(self, sample):
        file = self.build(sample.text)
        for call in sample.calls:
            self.compare(call.call, call.answer, call.written)
        self.list_tables(file)
        if not sample.repair:
            return
        file = self.build(sample.repaired())
        for call in sample.calls:
            if call.repaired_answer:
                changed = call.repaired_call or call.call
                self.compare(changed, call.repaired_answer, {}, "repaired: ")
        self.list_tables(file)

    def build(self, text):
        """Builds a text, and prints and builds the file again."""
        file = build(text)
        printed, notice = rigtext.print_file(file)
        if notice:
            raise Wrong(f"printed: {notice}")
        if build(printed, "printed: ", strict=False) != file:
            raise Wrong("printed and built again, the file differs")
        self.files += 1
        self.built.write_bytes(file)
        return file

    def call(self, call):
        """The answer of a call on the file built last, and what was written."""
        words = call.split()
        if "join" in words:  # with another sample
            at = words.index("join") + 3
            words[at] = self.other(words[at])
        done = subprocess.run(
            [self.harness, self.calls, self.built, *words], capture_output=True, text=True
        )
        if done.returncode != 0:
            raise Wrong(f'the call "{call}" fails: {(done.stdout + done.stderr).strip()}')
        answer, *rest = done.stdout.rstrip("\n").split("\n")
        written = {}
        for line in rest:
            kind, *values = line.split()
            written[kind] = values
        return answer, written

    def other(self, name):
        """The file of another sample."""
        path = self.folder / f"{name}.bin"
        if not path.exists():
            path.write_bytes(build((self.samples / f"{name}.rig").read_text(encoding="utf-8")))
        return path

    def compare(self, call, answer, stated, when=""):
        self.answers += 1
        got, written = self.call(call)
        if got != answer:
            raise Wrong(f'{when}the call "{call}" answers "{got}", not "{answer}"')
        for kind, values in stated.items():
            if written.get(kind) != values:
                got = " ".join(written.get(kind, ["none"]))
                raise Wrong(f'{when}the call "{call}" gives the {kind} {got}')
        if call.startswith("make ") and "file" in written:
            self.compare_made(call, bytes.fromhex(written["file"][0]), when)

    def compare_made(self, call, file, when):
        """A made file is that of the sample, and its listing is the solution, line by line."""
        if file != self.built.read_bytes():
            raise Wrong(f'{when}the call "{call}" makes another file than the sample\'s')
        words = solution(call)
        if not self.routes or len(words) > 8192:
            return
        lines = [f"0 0 {index} {word:016x}\n" for index, word in enumerate(words)]
        expected = "".join(lines) + f"tables 1 entries {len(words)}\n"
        if self.list_file(file) != expected:
            raise Wrong(f"{when}the program routes does not list the solution of {call}")

    def list_tables(self, file):
        """Compares the listing of the program routes with the table call."""
        if not self.routes:
            return
        self.listings += 1
        answer, written = self.call("tables 8192")
        expected = answer + "\n"
        if not answer.startswith("refused"):
            words = iter(written["words"])
            rig, _ = rigtext.read_file(file)
            lines = [
                f"{number} {phy.number} {index} {next(words)}\n"
                for number, expander in enumerate(rig.expanders)
                for phy in expander.phys
                if phy.result == 0 and phy.attribute == 2
                for index in range(expander.indexes)
            ]
            expected = "".join(lines) + expected
        got = self.list_file(file)
        if got != expected:
            raise Wrong(f"the program routes prints\n{got}and not\n{expected.rstrip()}")

    def list_file(self, file):
        done = subprocess.run([self.routes], input=file, capture_output=True)
        if done.returncode != 0:
            raise Wrong(f"the program routes ends with {done.returncode}")
        return done.stdout.decode()

    # The pair rig and the pages.

    def pair_rig(self, sample):
        folder = ROOT / "crates/routes"
        stored = (folder / "stdin").read_bytes()
        if self.build(sample.text) != stored:
            raise Wrong("builds another file than crates/routes/stdin")
        if self.routes and self.list_file(stored) != (folder / "stdout").read_text():
            raise Wrong("the program routes does not print crates/routes/stdout")
        example = first_block(ROOT / "docs/RIG-TEXT.md", "# The text form of a rig")
        if build(example, "docs/RIG-TEXT.md: ") != stored:
            raise Wrong("the text in docs/RIG-TEXT.md builds another file")
        page, ones = annotated(ROOT / "docs/FILE-FORMAT.md")
        if page != stored:
            raise Wrong("the bytes in docs/FILE-FORMAT.md are others")
        # What the page calls ignored changes no answer.
        self.built.write_bytes(bytes(byte | more for byte, more in zip(page, ones)))
        for call in sample.calls:
            self.compare(call.call, call.answer, call.written, "with ignored bits set: ")


def solution(call):
    """The words of a `make` call: addresses, or COUNTxADDRESS."""
    words = []
    for word in call.partition(" bytes ")[0].split()[3:]:
        count, times, address = word.rpartition("x")
        words += [int(address, 16)] * (int(count) if times else 1)
    return words


def build(text, when="", strict=True):
    reader = rigtext.Reader(text, strict)
    if reader.errors:
        raise Wrong(f"{when}{reader.errors[0]}")
    return reader.rig.file()


def first_block(page, heading):
    """The first fenced block after a heading."""
    text = page.read_text(encoding="utf-8")
    match = re.search(rf"^{re.escape(heading)}\n.*?^```\n(.*?)^```$", text, re.M | re.S)
    if not match:
        raise Wrong(f"{page.name} has no block after {heading}")
    return match[1]


def annotated(page):
    """The bytes of the annotated pair rig, and the bits that are called ignored."""
    file, ones = bytearray(), bytearray()
    for line in first_block(page, "## The pair rig, byte by byte").split("\n"):
        if not re.match(r" *[0-9]", line):
            continue
        row = re.fullmatch(r" *([0-9]+)  ((?:[0-9a-f]{2} )+|00 x [0-9]+ ) +(\S.*)", line)
        if not row:
            raise Wrong(f'{page.name}: not offset, bytes and meaning: "{line}"')
        if int(row[1]) != len(file):
            raise Wrong(f'{page.name}: {len(file)} bytes before "{line}"')
        value, times, count = row[2].partition(" x ")
        part = bytes.fromhex(value) * (int(count) if times else 1)
        file += part
        named = [
            sum(1 << bit for bit in range(int(low), int(high) + 1))
            for high, low in re.findall(r"bits ([0-7]) to ([0-7])", row[3])
        ]
        ignored = 0
        if row[3].startswith("ignored"):
            ignored = 0xFF
        elif row[3].endswith("other bits: ignored"):
            ignored = 0xFF - named[0]
        elif row[3].endswith(": ignored"):
            ignored = named[-1]
        ones += bytes([ignored] * len(part))
    return bytes(file), bytes(ones)


def table_rows(page, heading):
    """The four cells of each row of the first table after a heading, without its head."""
    text = page.read_text(encoding="utf-8")
    after = text.partition(heading + "\n")[2]
    rows = re.search(r"(?:^\|.*\n)+", after, re.M)
    if not rows:
        raise Wrong(f"{page.name} has no table after {heading}")
    cells = [
        [cell.strip() for cell in row.strip("|").split("|")]
        for row in rows[0].rstrip("\n").split("\n")[2:]
    ]
    for row in cells:
        if len(row) != 4:
            raise Wrong(f"{page.name}: not four cells in the row of {row[0]}")
    return cells


def check_refusal_table(samples):
    """docs/FILE-FORMAT.md: a row for each number, with a sample and its repair."""
    rows = table_rows(ROOT / "docs/FILE-FORMAT.md", "## Refusals")
    if [row[0] for row in rows] != [str(number) for number in NUMBERS]:
        raise Wrong("the table of refusals does not have the rows 1 to 12 and 14 to 24")
    for number, _, name, repair in rows:
        sample = samples.get(name.strip("`"))
        if not sample or sample.number != int(number):
            raise Wrong(f"row {number} names the sample {name}")
        if repair != sample.repair:
            raise Wrong(f'row {number}: {name} has the repair "{sample.repair}"')


def check_sample_list(samples, folder):
    """README.md of the samples: a row for each, with its first call."""
    page = folder / "README.md"
    rows = table_rows(page, "## Rigs that work")
    rows += table_rows(page, "## Rigs with a fault that no call refuses")
    rows += table_rows(page, "## Rigs and calls that are refused")
    for name, call, answer, shows in rows:
        sample = samples.get(name.strip("`"))
        if not sample:
            raise Wrong(f"there is no sample {name}")
        first = sample.calls[0]
        if (call, answer, shows) != (f"`{first.call}`", f"`{first.answer}`", sample.shows):
            raise Wrong(f"the row of {name} differs from the sample")
    listed = [row[0].strip("`") for row in rows]
    for name in samples:
        if listed.count(name) != 1:
            raise Wrong(f"{name} is in {listed.count(name)} rows")


def main():
    parser = argparse.ArgumentParser(
        description=__doc__, formatter_class=argparse.RawDescriptionHelpFormatter
    )
    parser.add_argument("--harness", default=ROOT / "target/harness/release/harness")
    parser.add_argument("--reference", action="store_true")
    parser.add_argument("--routes")
    parser.add_argument("--samples", type=Path, default=ROOT / "samples")
    options = parser.parse_args()
    wrong = []

    def attempt(what, act, *arguments):
        try:
            return act(*arguments)
        except Wrong as error:
            wrong.append(f"{what}: {error}")
        except OSError as error:
            wrong.append(f"{what}: {error.filename}: {error.strerror}")

    with tempfile.TemporaryDirectory() as folder:
        check = Check(options, folder)
        samples = {}
        paths = sorted(options.samples.glob("*.rig"))
        for path in paths:
            sample = attempt(path.name, Sample, path)
            if sample:
                samples[sample.name] = sample
                attempt(path.name, check.sample, sample)
        for number in NUMBERS:
            if not any(sample.number == number for sample in samples.values()):
                wrong.append(f"no sample is refused with {number}")
        if "pair" in samples:
            attempt("pair.rig", check.pair_rig, samples["pair"])
        else:
            wrong.append("there is no sample pair.rig")
        attempt("docs/FILE-FORMAT.md", check_refusal_table, samples)
        attempt("samples/README.md", check_sample_list, samples, options.samples)
    for line in wrong:
        print(line)
    if wrong:
        print(f"samples: {len(wrong)} of the checks failed")
        return 1
    listings = f", {check.listings} listings of routes" if options.routes else ""
    print(
        f"samples: {len(paths)} texts, {check.files} files built and printed back,"
        f" {check.answers} answers as stated{listings}"
    )
    return 0


if __name__ == "__main__":
    sys.exit(main())
