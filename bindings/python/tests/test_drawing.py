"""Pictures: the geometry of the layout, and the SVG made of it."""

import functools
import itertools
import random
import re
import unittest
import xml.etree.ElementTree as ElementTree
from typing import Callable, Iterator, List, Optional, Tuple

from metzurgo import layout, rigtext
from metzurgo.drawing import COLOURS, draw
from metzurgo.layout import Box, Picture, Point, Request, lay_out
from metzurgo.requests import address_of, start_of
from metzurgo.rig import Rig

from .support import ROOT, SAMPLES, FolderTest, run

SVG = "{http://www.w3.org/2000/svg}"


def rig_of(
    parents: List[Optional[int]],
    drives: Callable[[int], int] = lambda number: 1,
    width: Callable[[int], int] = lambda number: 1,
) -> Rig:
    """A rig of expanders that hang on others, with so many drives, by links so wide."""
    count = len(parents)
    lines = []
    for number in range(count):
        for drive in range(drives(number)):
            lines.append(f"drive d{number}-{drive} {0x6000000000000000 + 256 * number + drive:016x}")
    for number in range(count):
        lines.append(f"expander e{number} {0x5000000000000000 + number:016x} R 8000 configurable")
        phy = 0
        if parents[number] is not None:
            phy = width(number)
            lines.append(f"phy 0-{phy - 1} subtractive")
        for child in range(count):
            if parents[child] == number:
                last = width(child) - 1
                lines.append(f"phy {phy}-{phy + last} table to e{child}.0-{last}")
                phy += last + 1
        for drive in range(drives(number)):
            lines.append(f"phy {phy} direct to d{number}-{drive}")
            phy += 1
        if phy == 0:
            lines.append("phy 0 direct empty")
    return Rig.of_text("\n".join(lines), "made.rig")


def chain(count: int) -> List[Optional[int]]:
    return [None, *range(count - 1)]


@functools.lru_cache(maxsize=None)
def rigs() -> List[Tuple[str, Rig]]:
    return list(made_rigs())


def made_rigs() -> Iterator[Tuple[str, Rig]]:
    """Samples that are accepted, and trees of many forms up to 64 expanders."""
    for path in sorted(SAMPLES.glob("*.rig")):
        if not path.stem.startswith("refused"):
            yield path.stem, Rig.load(str(path))
    for count in (1, 2, 3, 9, 64):
        yield f"chain of {count}", rig_of(chain(count))
        yield f"star of {count}", rig_of([None] + [0] * (count - 1))
        halves: List[Optional[int]] = [None, *((number - 1) // 2 for number in range(1, count))]
        yield f"binary tree of {count}", rig_of(halves, lambda number: number % 4)
        comb: List[Optional[int]] = [None, *(max(0, (n - 1) // 2 * 2) for n in range(1, count))]
        yield f"comb of {count}", rig_of(comb)
    yield "many drives", rig_of([None, 0, 0, 2], lambda number: (0, 1, 7, 120)[number])
    long = rig_of([None, 0, 1, 1, 0]).text
    assert long is not None
    text = rigtext.rig_text(long)
    yield "long names", Rig.of_text(re.sub(r"\be([1-3])\b", r"a-name-that-hardly-ends-\1", text))
    yield "wide links", rig_of([None, 0, 0, 1], width=lambda number: 32)
    for seed in range(20):
        dice = random.Random(seed)
        parents: List[Optional[int]] = [None]
        for number in range(1, dice.randrange(2, 65)):
            parents.append(dice.randrange(max(0, number - dice.choice((1, 2, 5, 64))), number))
        counts = [dice.randrange(12) for _ in parents]
        widths = [dice.choice((1, 1, 1, 2)) for _ in parents]
        yield f"seed {seed}", rig_of(parents, counts.__getitem__, widths.__getitem__)


def request(rig: Rig, start: str, end: str) -> Request:
    asked = (*start_of(rig, start), address_of(rig, end))
    tables = rig.tables()
    return Request(rig.trace(tables, *asked), rig.steps(tables, *asked), *asked)


def boxes(picture: Picture) -> List[Tuple[str, Box]]:
    """Every box that stands by itself."""
    found = [(f"caption {text.text}", text.box) for text in picture.captions]
    found += [(f"expander {node.number}", node.box) for node in picture.nodes]
    found += [(f"tag {tag.text}", tag.box) for link in picture.links for tag in link.tags]
    return found


def segments(link: layout.Link) -> List[Tuple[Point, Point]]:
    return [*link.trunk, *zip(link.branch, link.branch[1:])]


def hull(segment: Tuple[Point, Point]) -> Box:
    """The box of a segment, which is upright or level: one of its sides is 0."""
    (x, y), (right, bottom) = segment
    left, right, top, bottom = min(x, right), max(x, right), min(y, bottom), max(y, bottom)
    return Box(left, top, right - left, bottom - top)


def crosses(segment: Tuple[Point, Point], box: Box) -> bool:
    """Whether a segment comes inside a box; along or up to its border is outside."""
    line = hull(segment)
    return (
        line.x < box.right
        and box.x < line.right
        and line.y < box.bottom
        and box.y < line.bottom
        or line.width == 0
        and box.x < line.x < box.right
        and line.y < box.bottom
        and box.y < line.bottom
        or line.height == 0
        and box.y < line.y < box.bottom
        and line.x < box.right
        and box.x < line.right
    )


class Geometry(unittest.TestCase):
    def each(self) -> Iterator[Tuple[Rig, Picture]]:
        count = 0
        for name, rig in rigs():
            with self.subTest(name):
                rig.judge()
                count += 1
                yield rig, lay_out(rig)
        self.assertGreater(count, 40)

    def test_no_two_boxes_overlap(self) -> None:
        for _, picture in self.each():
            for (one, first), (other, second) in itertools.combinations(boxes(picture), 2):
                self.assertFalse(first.overlaps(second), f"{one} overlaps {other}")

    def test_texts_stand_inside_their_expander(self) -> None:
        for _, picture in self.each():
            for node in picture.nodes:
                for text in node.texts:
                    self.assertTrue(node.box.holds(text.box), text.text)
                for one, other in itertools.combinations(node.texts, 2):
                    self.assertFalse(one.box.overlaps(other.box), f"{one.text}, {other.text}")

    def test_all_stands_on_the_paper(self) -> None:
        for _, picture in self.each():
            paper = Box(0, 0, picture.width, picture.height)
            for name, box in boxes(picture):
                self.assertTrue(paper.holds(box), name)
            for link in picture.links:
                for x, y in itertools.chain(*segments(link)):
                    self.assertTrue(paper.holds(Box(x, y, 0, 0)), (x, y))

    def test_a_box_is_as_wide_as_its_text(self) -> None:
        for _, picture in self.each():
            for text in [text for node in picture.nodes for text in node.texts]:
                self.assertEqual(text.box.width, len(text.text) * layout.ADVANCE)
            for tag in [tag for link in picture.links for tag in link.tags]:
                self.assertGreaterEqual(tag.box.width, len(tag.text) * layout.ADVANCE)

    def test_links_join_their_expanders(self) -> None:
        for _, picture in self.each():
            nodes = {node.number: node.box for node in picture.nodes}
            self.assertEqual(len(picture.links), len(nodes) - 1)
            for link in picture.links:
                upper, lower = nodes[link.upper], nodes[link.lower]
                (x, y), (end_x, end_y) = link.trunk[0][0], link.branch[-1]
                self.assertTrue(upper.x < x < upper.right and y == upper.bottom)
                self.assertTrue(lower.x < end_x < lower.right and end_y == lower.y)
                self.assertEqual(link.trunk[-1][1], link.branch[0])
                for start, end in segments(link):
                    self.assertTrue(start[0] == end[0] or start[1] == end[1])

    def test_a_cut_trunk_goes_on_in_the_next_column(self) -> None:
        cut = 0
        for _, picture in self.each():
            tops = {link.trunk[1][0][1] for link in picture.links if len(link.trunk) > 1}
            self.assertLessEqual(len(tops), 1)
            for link in picture.links:
                for (_, one), (other, _) in zip(link.trunk, link.trunk[1:]):
                    cut += 1
                    self.assertGreater(other[0], one[0])
                    self.assertLess(other[1], one[1])
        self.assertGreater(cut, 50)

    def test_no_line_crosses_a_box(self) -> None:
        for _, picture in self.each():
            for link in picture.links:
                own = [tag.box for tag in link.tags]
                for segment, (name, box) in itertools.product(segments(link), boxes(picture)):
                    if box not in own:
                        self.assertFalse(crosses(segment, box), f"{link.upper}: {name}")

    def test_lines_of_two_trunks_never_meet(self) -> None:
        for _, picture in self.each():
            for one, other in itertools.combinations(picture.links, 2):
                for first, second in itertools.product(segments(one), segments(other)):
                    if one.upper != other.upper:
                        near, far = hull(first), hull(second)
                        apart = near.right < far.x or far.right < near.x
                        self.assertTrue(apart or near.bottom < far.y or far.bottom < near.y)

    def test_tags_lie_on_their_line(self) -> None:
        for _, picture in self.each():
            for link in picture.links:
                for tag in link.tags:
                    self.assertTrue(any(crosses(part, tag.box) for part in segments(link)))

    def test_a_large_picture_is_no_ribbon(self) -> None:
        for name, parents in (("chain", chain(64)), ("star", [None] + [0] * 63)):
            with self.subTest(name):
                picture = lay_out(rig_of(parents))
                self.assertLess(picture.height, 1.2 * picture.width)
                self.assertLess(picture.width, 4 * picture.height)


class Content(unittest.TestCase):
    def test_everything_is_named(self) -> None:
        for name, rig in rigs():
            with self.subTest(name):
                texts = [element.text for element in ElementTree.fromstring(draw(rig)).iter(SVG + "text")]
                for expander in rig.expanders:
                    self.assertIn(expander.name, texts)
                    self.assertIn(f"{expander.address:016x}", texts)
                    self.assertIn(f"R {expander.indexes}", texts)
                for device, address in rig.names.items():
                    self.assertIn(device, texts)
                    self.assertIn(f"{address:016x}", texts)

    def test_a_domain_file_is_drawn(self) -> None:
        text = Rig.load(str(SAMPLES / "comb.rig"))
        picture = draw(Rig(text.file))
        ElementTree.fromstring(picture)
        for address in text.names.values():
            self.assertIn(f">{address:016x}<", picture)

    def test_links_show_phys_attributes_and_width(self) -> None:
        (link,) = lay_out(Rig.load(str(SAMPLES / "wide-link.rig"))).links
        tags = [(tag.text, tag.kind) for tag in link.tags]
        ends = [("top.0-3 table", "table"), ("bottom.0-3 subtractive", "subtractive")]
        self.assertEqual(tags, [ends[0], ("4 wide", "wide"), ends[1]])
        (link,) = lay_out(Rig.load(str(SAMPLES / "pair.rig"))).links
        self.assertEqual([tag.text for tag in link.tags], ["top.0 table", "bottom.0 subtractive"])

    def test_the_top_is_the_expander_that_nothing_leads_up_from(self) -> None:
        turned = rig_of([1, None, 1])
        self.assertEqual(lay_out(turned).nodes[0].number, 1)
        self.assertEqual(lay_out(Rig.load(str(SAMPLES / "subtractive-link.rig"))).nodes[0].number, 0)

    def test_a_wide_drive_and_a_wrong_attribute(self) -> None:
        drive = "drive W 6000000000000000\nexpander e 5000000000000000 R 1 configurable\n"
        rig = Rig.of_text(drive + "phy 0 direct empty\nphy 1-2 table to W.0-1\n")
        (node,) = lay_out(rig).nodes
        self.assertIn("phys 1-2 table", [text.text for text in node.texts])

    def test_strange_names_are_escaped(self) -> None:
        rig = rig_of([None, 0])
        rig.source = 'a<b> & "c".rig'
        titles = [text.text for text in ElementTree.fromstring(draw(rig)).iter(SVG + "text")]
        self.assertIn(rig.source, titles)

    def test_light_and_dark(self) -> None:
        light, _, dark = draw(rig_of([None, 0])).partition("@media (prefers-color-scheme: dark)")
        for what, part, colour, other in COLOURS:
            self.assertIn(f"{what} {{ {part}: {colour} }}", light)
            self.assertIn(f"{what} {{ {part}: {other} }}", dark)
            self.assertNotEqual(colour, other)


class Traces(unittest.TestCase):
    def test_the_way_is_marked(self) -> None:
        rig = Rig.load(str(SAMPLES / "comb.rig"))
        for start, end, passed in (
            ("B2", "A0", ["tooth2", "row2", "row1", "row0"]),
            ("row0", "B1", ["row0", "row1", "tooth1"]),
            ("row1", "row1", ["row1"]),
        ):
            picture = lay_out(rig, request(rig, start, end))
            names = [rig.expanders[node.number].name for node in picture.nodes if node.taken]
            self.assertCountEqual(names, passed)
            taken = {
                (link.upper, link.lower) if link.taken > 0 else (link.lower, link.upper)
                for link in picture.links
                if link.taken
            }
            numbers = [rig.expander(name).number for name in passed]  # type: ignore[union-attr]
            self.assertEqual(taken, set(zip(numbers, numbers[1:])))

    def test_what_each_expander_did(self) -> None:
        rig = Rig.load(str(SAMPLES / "comb.rig"))
        picture = lay_out(rig, request(rig, "A0", "B2"))
        steps = [text.text for node in picture.nodes for text in node.texts if text.kind == "step"]
        self.assertEqual(
            steps,
            [
                "1. (iii) phy 0 index 6",
                "2. (iii) phy 1 index 2",
                "3. (iii) phy 1 index 0",
                "4. (ii) phy 1 arrived",
            ],
        )
        ends = [text.text for node in picture.nodes for text in node.texts if text.taken]
        self.assertEqual(ends, ["A0", "B2"])
        self.assertEqual(picture.captions[-1].text, "A0 to B2: arrived")

    def test_a_request_that_does_not_arrive(self) -> None:
        rig = Rig.load(str(SAMPLES / "comb.rig"))
        picture = lay_out(rig, request(rig, "B2", "5000000000000099"))
        self.assertEqual(picture.captions[-1].text, "B2 to 5000000000000099: NO DESTINATION")
        last = [node for node in picture.nodes if node.number == 0][0].texts[-1]
        self.assertEqual(last.text, "4. (v) NO DESTINATION")

    def test_geometry_with_a_trace(self) -> None:
        for count in (2, 17, 64):
            rig = rig_of(chain(count))
            picture = lay_out(rig, request(rig, "d0-0", f"d{count - 1}-0"))
            self.assertEqual(sum(link.taken > 0 for link in picture.links), count - 1)
            for (one, first), (other, second) in itertools.combinations(boxes(picture), 2):
                self.assertFalse(first.overlaps(second), f"{one} overlaps {other}")
            for node in picture.nodes:
                self.assertTrue(all(node.box.holds(text.box) for text in node.texts))

    def test_arrows_point_where_the_request_goes(self) -> None:
        rig = Rig.load(str(SAMPLES / "pair.rig"))
        for start, end, place in (("top", "B1", "lower"), ("B1", "top", "upper")):
            picture = ElementTree.fromstring(draw(rig, request(rig, start, end)))
            (arrow,) = [line for line in picture.iter(SVG + "polyline") if "marker-end" in line.keys()]
            (link,) = lay_out(rig).links
            points = [tuple(map(float, point.split(","))) for point in arrow.get("points", "").split()]
            (lowest, highest) = points[::-1][0], points[0]
            self.assertEqual(lowest[1] > highest[1], place == "lower")
            self.assertEqual(len(points), len(link.branch) + 1)


class Command(FolderTest):
    def test_to_standard_output_and_to_a_file(self) -> None:
        drawn = run("draw", SAMPLES / "comb.rig")
        self.assertEqual((drawn.status, drawn.err), (0, ""))
        ElementTree.fromstring(drawn.out)
        target = self.path("comb.svg")
        self.assertEqual(run("draw", SAMPLES / "comb.rig", "-o", target)[:3], (0, "", ""))
        self.assertEqual(target.read_text(encoding="utf-8"), drawn.out)
        given = (SAMPLES / "comb.rig").read_bytes()
        self.assertIn("standard input", run("draw", "-", stdin=given).out)

    def test_the_picture_of_the_pages(self) -> None:
        drawn = run("draw", SAMPLES / "comb.rig", "--trace", "B2", "A0")
        self.assertEqual((ROOT / "docs" / "comb.svg").read_text(encoding="utf-8"), drawn.out)

    def test_exit_statuses(self) -> None:
        comb = SAMPLES / "comb.rig"
        self.assertEqual(run("draw", comb, "--trace", "B2", "A0").status, 0)
        lost = run("draw", comb, "--trace", "B2", "5000000000000099")
        self.assertEqual((lost.status, "NO DESTINATION" in lost.out), (1, True))
        ring = run("draw", SAMPLES / "refused-11-ring.rig")
        self.assertEqual((ring.status, ring.out, ring.err.count("\n")), (1, "", 1))
        self.assertIn("refused 11 0 0", ring.err)
        self.assertEqual(run("draw", comb, "--trace", "nobody", "A0")[:2], (2, ""))
        self.assertEqual(run("draw", comb, "-o", self.path("none") / "comb.svg").status, 3)
        self.assertEqual(run("draw", self.path("none")).status, 3)


if __name__ == "__main__":
    unittest.main()
