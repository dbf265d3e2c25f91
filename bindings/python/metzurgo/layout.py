"""Where everything stands in the picture of a rig: boxes, and the lines that join them.

The expanders are laid out as an outline. An expander that hangs on another stands
below it, and is indented where it is not the only one; a trunk at the left joins them.
So an outline grows downwards with every expander, and to the right only where the tree
forks. A long one is cut into columns, like a text in a newspaper: a trunk that is cut
goes on in the next column at the same distance from its left.

Every text has a box. No two boxes overlap, but for the texts inside the box of their
expander.
"""

import os
from typing import Dict, Iterable, List, NamedTuple, Optional, Tuple

from .answers import NO_PHY, OUTCOMES, RULES, Traced
from .rig import Expander, Passed, Phy, Rig, address_text
from .sentences import plural

SIZE = 12  # of the font, in pixels
ADVANCE = 0.602 * SIZE  # the width of each character
LINE = 16  # the height of a text
MARGIN = 20  # around the picture
PAD = 10  # between the border of a box and its texts
GAP = 2 * ADVANCE  # between two texts of a line
TAG_PAD = 7  # between the border of a tag and its text
TAG = 20  # the height of a tag
SPACE = 12  # between boxes, tags and lines
GUTTER = 40  # between two columns
LONG = 900  # a column of this height is not cut
TRUNK = 18  # from the left border of an expander to its trunk
INDENT = 44  # of expanders that hang on a trunk
MOST_COLUMNS = 6  # of drives in a box

Point = Tuple[float, float]


class Box(NamedTuple):
    """A rectangle.

    >>> Box(0, 0, 10, 10).overlaps(Box(9, 9, 5, 5)), Box(0, 0, 10, 10).overlaps(Box(10, 0, 5, 5))
    (True, False)
    >>> Box(0, 0, 10, 10).holds(Box(2, 2, 8, 8)), Box(0, 0, 10, 10).holds(Box(2, 2, 9, 8))
    (True, False)
    """

    x: float
    y: float
    width: float
    height: float

    @property
    def right(self) -> float:
        return self.x + self.width

    @property
    def bottom(self) -> float:
        return self.y + self.height

    @property
    def middle(self) -> Point:
        return self.x + self.width / 2, self.y + self.height / 2

    def overlaps(self, other: "Box") -> bool:
        """Whether the two have more in common than a border."""
        return (
            self.x < other.right
            and other.x < self.right
            and self.y < other.bottom
            and other.y < self.bottom
        )

    def holds(self, other: "Box") -> bool:
        return (
            self.x <= other.x
            and self.y <= other.y
            and other.right <= self.right
            and other.bottom <= self.bottom
        )


class Text(NamedTuple):
    """A text and its box. Kinds: name, plain, dim, step."""

    text: str
    kind: str
    box: Box
    taken: bool = False  # the start or the end of the traced request


class Tag(NamedTuple):
    """A text on a link, with a border. Kinds: direct, subtractive, table, wide."""

    text: str
    kind: str
    box: Box


class Node(NamedTuple):
    """An expander: its box and the texts in it."""

    number: int
    box: Box
    rule: Optional[float]  # the height at which a line parts the drives from the name
    texts: List[Text]
    taken: bool  # the traced request passed here


class Link(NamedTuple):
    """The cables between two expanders.

    The trunk leaves the upper expander's box, goes down, and is in several pieces where
    columns cut it; other links may share it. The branch leaves the trunk at its end, and
    comes to the lower expander's box from above.
    """

    upper: int
    lower: int
    width: int
    trunk: List[Tuple[Point, Point]]
    branch: List[Point]
    tags: List[Tag]
    taken: int  # by the traced request: 0 not, positive downwards, negative upwards


class Picture(NamedTuple):
    width: float
    height: float
    captions: List[Text]
    nodes: List[Node]
    links: List[Link]


class Request(NamedTuple):
    """A traced request: how it ended, what each expander did, from where to which address."""

    traced: Traced
    passed: List[Passed]
    start: int
    arrival: int
    address: int


# -------------------------------------------------------------------- the tree


class Cables(NamedTuple):
    """A link as the file has it: the phys at both ends."""

    upper: int
    lower: int
    upper_phys: List[Phy]
    lower_phys: List[Phy]


def cables(rig: Rig) -> List[Cables]:
    """The links of a rig, each named from its topmost expander down."""
    numbers = {expander.address: expander.number for expander in rig.expanders}
    found: Dict[Tuple[int, int], List[Phy]] = {}
    for expander in rig.expanders:
        for phy in expander.phys:
            if phy.at_expander and not phy.vacant:
                ends = expander.number, numbers[phy.attached]
                found.setdefault(ends, []).append(phy)
    links: List[Cables] = []
    order = [topmost(rig.expanders)] if rig.expanders else []
    for upper in order:
        lowers = [lower for at, lower in found if at == upper and lower not in order]
        for lower in sorted(lowers, key=lambda lower: found[upper, lower][0].number):
            links.append(Cables(upper, lower, found[upper, lower], found[lower, upper]))
            order.append(lower)
    return links


def topmost(expanders: List[Expander]) -> int:
    """The expander at the top: the first that no subtractive phy leads away from, else 0."""
    for expander in expanders:
        up = (phy.at_expander and phy.kind == "subtractive" for phy in expander.phys)
        if not any(up):
            return expander.number
    return 0


def runs(numbers: Iterable[int]) -> str:
    """Numbers in rising order, short.

    >>> runs([0, 1, 2, 5, 7, 8])
    '0-2,5,7-8'
    """
    found: List[List[int]] = []
    for number in numbers:
        if found and found[-1][-1] == number - 1:
            found[-1].append(number)
        else:
            found.append([number])
    return ",".join(f"{run[0]}-{run[-1]}" if len(run) > 1 else f"{run[0]}" for run in found)


def drives_of(expander: Expander) -> List[List[Phy]]:
    """The phys of each drive at an expander, in the order of the lowest."""
    drives: Dict[int, List[Phy]] = {}
    for phy in expander.phys:
        if phy.at_drive and not phy.vacant:
            drives.setdefault(phy.attached, []).append(phy)
    return list(drives.values())


# ------------------------------------------------------------------ the boxes


def text_width(text: str) -> float:
    return len(text) * ADVANCE


def put(text: str, kind: str, x: float, y: float, taken: bool = False) -> Text:
    """A text whose box has its upper left corner at a point."""
    return Text(text, kind, Box(x, y, text_width(text), LINE), taken)


def tag_width(text: str) -> float:
    return text_width(text) + 2 * TAG_PAD


def put_tag(text: str, kind: str, x: float, y: float) -> Tag:
    return Tag(text, kind, Box(x, y, tag_width(text), TAG))


def step_text(request: Request, place: int) -> str:
    """What the expander did that the request passed as number `place`."""
    step = request.passed[place].step
    words = [f"{place + 1}. ({RULES[step.rule]})"]
    if step.phy is not None:
        words.append(f"phy {step.phy}")
    if step.route_index is not None:
        words.append(f"index {step.route_index}")
    if place == len(request.passed) - 1:
        words.append(OUTCOMES[request.traced.outcome])
    return " ".join(words)


class Layout:
    """Lays out a rig, with or without a traced request."""

    def __init__(self, rig: Rig, request: Optional[Request] = None) -> None:
        self.rig, self.request = rig, request
        self.nodes: List[Node] = []
        self.links: List[Link] = []
        self.below: Dict[int, List[Cables]] = {}
        for link in cables(rig):
            self.below.setdefault(link.upper, []).append(link)
        self.places: Dict[int, int] = {}
        self.ends: List[Tuple[int, int]] = []  # the phys at which the request started and ended
        if request:
            self.places = {passed.expander: k for k, passed in enumerate(request.passed)}
            self.ends = [
                (request.start, request.arrival),
                (request.traced.expander, request.traced.phy),
            ]

    def picture(self) -> Picture:
        captions = self.captions()
        top = captions[-1].box.bottom + SPACE
        self.place(topmost(self.rig.expanders), MARGIN, top)
        columns = Columns(self.nodes, self.links, top)
        nodes = [columns.node(node) for node in self.nodes]
        links = [columns.link(link) for link in self.links]
        boxes = [text.box for text in captions] + [node.box for node in nodes]
        boxes += [tag.box for link in links for tag in link.tags]
        width = max(box.right for box in boxes) + MARGIN
        height = max(box.bottom for box in boxes) + MARGIN
        return Picture(width, height, captions, nodes, links)

    def captions(self) -> List[Text]:
        """The head of the picture: the rig, and the request."""
        drives = {phys[0].attached for each in self.rig.expanders for phys in drives_of(each)}
        counts = f"{plural(len(self.rig.expanders), 'expander')}, {plural(len(drives), 'drive')}"
        title = put(os.path.basename(self.rig.source), "name", MARGIN, MARGIN)
        captions = [title, put(counts, "dim", title.box.right + GAP, MARGIN)]
        if self.request:
            _, _, start, arrival, address = self.request
            sender = self.rig.expanders[start]
            name = sender.name
            if arrival != NO_PHY:
                name = self.rig.label(sender.phys[arrival].attached)
            outcome = OUTCOMES[self.request.traced.outcome]
            line = f"{name} to {self.rig.label(address)}: {outcome}"
            captions.append(put(line, "step", MARGIN, title.box.bottom))
        return captions

    # An expander, with all that hang on it.

    def place(self, number: int, x: float, y: float) -> float:
        """Places an expander and all below it; gives the height at which they end."""
        node = self.node(self.rig.expanders[number], x, y)
        self.nodes.append(node)
        links = self.below.get(number, [])
        indent = INDENT if len(links) > 1 else 0
        bottom = node.box.bottom
        for link in links:
            bottom = self.hang(link, node.box, bottom + SPACE, indent)
        return bottom

    def hang(self, link: Cables, box: Box, y: float, indent: float) -> float:
        """Hangs an expander on the trunk of another, with the tags of the link above it."""
        trunk = box.x + TRUNK
        tags: List[Tag] = []
        x = trunk + SPACE
        for text, kind in self.tag_texts(link):
            tags.append(put_tag(text, kind, x, y))
            x = tags[-1].box.right + SPACE
        down, middle = tags[-1].box.middle
        lower = y + TAG + SPACE
        start, end = self.places.get(link.upper), self.places.get(link.lower)
        self.links.append(
            Link(
                link.upper,
                link.lower,
                len(link.upper_phys),
                [((trunk, box.bottom), (trunk, middle))],
                [(trunk, middle), (down, middle), (down, lower)],
                tags,
                0 if start is None or end is None else end - start,
            )
        )
        return self.place(link.lower, box.x + indent, lower)

    def tag_texts(self, link: Cables) -> List[Tuple[str, str]]:
        """The texts and kinds of a link's tags, from the upper end to the lower one."""
        width = len(link.upper_phys)
        upper = self.end_text(link.upper, link.upper_phys)
        lower = self.end_text(link.lower, link.lower_phys)
        return [upper, (f"{width} wide", "wide"), lower] if width > 1 else [upper, lower]

    def end_text(self, number: int, phys: List[Phy]) -> Tuple[str, str]:
        """One end of a link, as a rig text names it, with its routing attribute."""
        name = self.rig.expanders[number].name
        numbers = runs(phy.number for phy in phys)
        return f"{name}.{numbers} {phys[0].kind}", phys[0].kind

    # The box of one expander.

    def node(self, expander: Expander, x: float, y: float) -> Node:
        texts = self.header(expander, x + PAD, y + PAD / 2)
        bottom = texts[-1].box.bottom + PAD / 2
        rule = None
        cells = [self.drive_texts(expander, phys) for phys in drives_of(expander)]
        if cells:
            rule = bottom
            texts += self.grid(cells, x + PAD, bottom + PAD / 2)
            bottom = max(text.box.bottom for text in texts) + PAD / 2
        place = self.places.get(expander.number)
        if self.request and place is not None:
            step = put(step_text(self.request, place), "step", x + PAD, bottom)
            texts.append(step)
            bottom = step.box.bottom + PAD / 2
        lowest = self.least_width(expander.number)
        width = max(lowest, max(text.box.right for text in texts) + PAD - x)
        return Node(expander.number, Box(x, y, width, bottom - y), rule, texts, place is not None)

    def header(self, expander: Expander, x: float, y: float) -> List[Text]:
        name = put(expander.name, "name", x, y)
        address = put(address_text(expander.address), "dim", name.box.right + GAP, y)
        return [name, address, put(f"R {expander.indexes}", "dim", address.box.right + GAP, y)]

    def least_width(self, number: int) -> float:
        """So wide that the box reaches as far to the right as the tags above it."""
        for links in self.below.values():
            for link in links:
                if link.lower == number:
                    indent = INDENT if len(links) > 1 else 0
                    tags = [tag_width(text) for text, _ in self.tag_texts(link)]
                    return TRUNK - indent + sum(tags) + SPACE * len(tags)
        return 0

    def drive_texts(self, expander: Expander, phys: List[Phy]) -> List[Tuple[str, str, bool]]:
        """Texts, kinds, and whether the request started or ended here, for one drive."""
        taken = any((expander.number, phy.number) in self.ends for phy in phys)
        phy, address = phys[0], phys[0].attached
        where = ("phy " if len(phys) == 1 else "phys ") + runs(phy.number for phy in phys)
        if phy.kind != "direct":
            where += " " + phy.kind
        name = self.rig.label(address)
        texts = [(where, "dim", False), (name, "plain", taken)]
        if name != address_text(address):
            texts.append((address_text(address), "dim", False))
        return texts

    def grid(self, cells: List[List[Tuple[str, str, bool]]], x: float, y: float) -> List[Text]:
        """The drives in columns, each as wide as its longest texts, downwards first."""
        columns = 1
        while columns < MOST_COLUMNS and 2 * columns * columns < len(cells):
            columns += 1
        rows = -(-len(cells) // columns)
        texts: List[Text] = []
        for first in range(0, len(cells), rows):
            column = cells[first : first + rows]
            at = x
            for part in range(max(map(len, column))):
                filled = [cell[part] if part < len(cell) else None for cell in column]
                for row, cell in enumerate(filled):
                    if cell:
                        texts.append(put(cell[0], cell[1], at, y + row * LINE, cell[2]))
                at += max(text_width(cell[0]) for cell in filled if cell) + ADVANCE
            x = at + GAP
        return texts


# ---------------------------------------------------------------- the columns


class Columns:
    """Cuts an outline into columns. Every box and tag stays in one piece."""

    def __init__(self, nodes: List[Node], links: List[Link], top: float) -> None:
        self.top = top
        above = {link.lower: link.tags for link in links}
        self.rows = [self.row(node, above.get(node.number, [])) for node in nodes]
        count = 1
        self.cuts = self.cut(count)
        while self.height() > max(LONG, 0.75 * sum(self.widths())):
            count += 1
            self.cuts = self.cut(count)
        widths = self.widths()
        self.lefts = [sum(widths[:column]) for column in range(len(widths))]

    def row(self, node: Node, tags: List[Tag]) -> Tuple[float, float, float]:
        """Where an expander with the tags above it begins and ends, and its right end."""
        boxes = [node.box, *(tag.box for tag in tags)]
        right = max(box.right for box in boxes)
        return min(box.y for box in boxes), node.box.bottom, right

    def cut(self, count: int) -> List[float]:
        """Where each column begins, for no more than so many, as even as can be."""
        most = (self.rows[-1][1] - self.top) / count
        cuts = self.cut_by(most)
        while len(cuts) > count:
            most += LINE
            cuts = self.cut_by(most)
        return cuts

    def cut_by(self, most: float) -> List[float]:
        """Where each column begins, if none is higher than so much."""
        cuts = [self.top]
        for begin, end, _ in self.rows:
            if end - cuts[-1] > most and begin > cuts[-1] + SPACE:
                cuts.append(begin - SPACE / 2)
        return cuts

    def height(self) -> float:
        """The height of the highest column."""
        ends = self.cuts[1:] + [self.rows[-1][1]]
        return max(end - begin for begin, end in zip(self.cuts, ends))

    def widths(self) -> List[float]:
        """The width of each column, with the gutter after it."""
        widest = [0.0] * len(self.cuts)
        for begin, _, right in self.rows:
            column = self.column(begin)
            widest[column] = max(widest[column], right - MARGIN + GUTTER)
        return widest

    def column(self, y: float) -> int:
        """The column of a height."""
        return max(0, sum(begin <= y for begin in self.cuts) - 1)

    def shift(self, y: float) -> Point:
        """How far something at a height is moved."""
        column = self.column(y)
        return self.lefts[column], self.top - self.cuts[column]

    def box(self, box: Box) -> Box:
        right, down = self.shift(box.y)
        return box._replace(x=box.x + right, y=box.y + down)

    def node(self, node: Node) -> Node:
        rule = None if node.rule is None else node.rule + self.shift(node.box.y)[1]
        texts = [text._replace(box=self.box(text.box)) for text in node.texts]
        return node._replace(box=self.box(node.box), rule=rule, texts=texts)

    def link(self, link: Link) -> Link:
        """A link whose trunk is cut where a column ends."""
        ((x, begin), (_, end)) = link.trunk[0]
        heights = [begin, *(cut for cut in self.cuts if begin < cut < end), end]
        pieces: List[Tuple[Point, Point]] = []
        for first, last in zip(heights, heights[1:]):
            right, down = self.shift(first)
            pieces.append(((x + right, first + down), (x + right, last + down)))
        right, down = self.shift(end)
        branch = [(x + right, y + down) for x, y in link.branch]
        tags = [tag._replace(box=self.box(tag.box)) for tag in link.tags]
        return link._replace(trunk=pieces, branch=branch, tags=tags)


def lay_out(rig: Rig, request: Optional[Request] = None) -> Picture:
    """The picture of an accepted rig."""
    return Layout(rig, request).picture()
