"""The picture of a rig as SVG."""

from typing import List, Optional
from xml.sax.saxutils import escape, quoteattr

from .layout import SIZE, Box, Link, Node, Picture, Point, Request, Tag, Text, lay_out
from .rig import Rig

# Each rule of the style: what it is for, with its colours in light and in dark.
COLOURS = (
    (".paper", "fill", "#ffffff", "#0d1117"),
    (".box", "fill", "#f6f8fa", "#151b23"),
    (".box, .rule, .line", "stroke", "#818b98", "#656c76"),
    ("text", "fill", "#1f2328", "#e6edf3"),
    ("text.dim", "fill", "#59636e", "#9198a1"),
    (".tag.table", "fill", "#ddf4ff", "#121d2f"),
    (".tag.table", "stroke", "#0969da", "#4493f8"),
    (".tag.subtractive", "fill", "#fff8c5", "#272115"),
    (".tag.subtractive", "stroke", "#9a6700", "#d29922"),
    (".tag.direct, .tag.wide", "fill", "#ffffff", "#0d1117"),
    (".tag.direct, .tag.wide", "stroke", "#818b98", "#656c76"),
    (".box.taken, .line.taken", "stroke", "#bf3989", "#f778ba"),
    (".arrow, text.step, text.taken", "fill", "#bf3989", "#f778ba"),
)
STYLE = f"""\
text {{ font: {SIZE}px "DejaVu Sans Mono", Menlo, Consolas, "Liberation Mono", monospace;
  white-space: pre }}
text.name, text.taken {{ font-weight: bold }}
.box, .tag, .rule {{ stroke-width: 1 }}
.box.taken {{ stroke-width: 2 }}
.line {{ fill: none; stroke-width: 1.5 }}
.line.wide {{ stroke-width: 4 }}
.line.taken {{ stroke-width: 3 }}"""
BASELINE = 0.75  # of a text's box, from above


def style() -> str:
    """The style, in light colours, and in dark ones where those are asked for."""
    light = [f"{what} {{ {part}: {colour} }}" for what, part, colour, _ in COLOURS]
    dark = [f"  {what} {{ {part}: {colour} }}" for what, part, _, colour in COLOURS]
    media = ["@media (prefers-color-scheme: dark) {", *dark, "}"]
    return "\n".join([STYLE, *light, *media])


def number(value: float) -> str:
    """
    >>> number(12.0), number(7.224)
    ('12', '7.22')
    """
    return f"{value:.2f}".rstrip("0").rstrip(".")


def rectangle(kind: str, box: Box, round_by: int) -> str:
    x, y, width, height = map(number, box)
    return (
        f'<rect class="{kind}" x="{x}" y="{y}" width="{width}" height="{height}" rx="{round_by}"/>'
    )


def written(text: Text) -> str:
    """A text, as wide as its box in every font."""
    kind = f"{text.kind} taken" if text.taken else text.kind
    x, y = number(text.box.x), number(text.box.y + BASELINE * text.box.height)
    width = number(text.box.width)
    return f'<text class="{kind}" x="{x}" y="{y}" textLength="{width}">{escape(text.text)}</text>'


def drawn_tag(tag: Tag) -> List[str]:
    x, y = tag.box.middle
    lowered = number(y + 0.36 * SIZE)
    text = f'<text x="{number(x)}" y="{lowered}" text-anchor="middle">{escape(tag.text)}</text>'
    return [rectangle(f"tag {tag.kind}", tag.box, 6), text]


def line(kind: str, points: List[Point], more: str = "") -> str:
    path = " ".join(f"{number(x)},{number(y)}" for x, y in points)
    return f'<polyline class="{kind}" points="{path}"{more}/>'


def drawn_link(link: Link) -> List[str]:
    """The line of a link; its branch shows the width."""
    trunk = [line("line", list(piece)) for piece in link.trunk]
    return [*trunk, line("line wide" if link.width > 1 else "line", link.branch)]


def taken_link(link: Link) -> List[str]:
    """The line of a link that a request took, with an arrow at its end."""
    ways = [*(list(piece) for piece in link.trunk[:-1]), [link.trunk[-1][0], *link.branch]]
    if link.taken < 0:
        ways = [way[::-1] for way in ways[::-1]]
    arrow = ' marker-end="url(#arrow)"'
    return [*(line("line taken", way) for way in ways[:-1]), line("line taken", ways[-1], arrow)]


def drawn_node(node: Node) -> List[str]:
    parts = [rectangle("box taken" if node.taken else "box", node.box, 4)]
    if node.rule is not None:
        ends: List[Point] = [(node.box.x, node.rule), (node.box.right, node.rule)]
        parts.append(line("rule", ends))
    return parts + [written(text) for text in node.texts]


def svg(picture: Picture, title: str) -> str:
    """A picture as SVG."""
    width, height = number(picture.width), number(picture.height)
    taken = [link for link in picture.links if link.taken]
    parts = [
        f'<svg xmlns="http://www.w3.org/2000/svg" width="{width}" height="{height}"'
        f' viewBox="0 0 {width} {height}" role="img" aria-label={quoteattr(title)}>',
        f"<title>{escape(title)}</title>",
        f"<style>\n{style()}\n</style>",
        '<defs><marker id="arrow" viewBox="0 0 10 10" refX="9" refY="5" markerWidth="12"'
        ' markerHeight="12" markerUnits="userSpaceOnUse" orient="auto">'
        '<path class="arrow" d="M0,0 L10,5 L0,10 z"/></marker></defs>',
        f'<rect class="paper" width="{width}" height="{height}"/>',
        *(written(text) for text in picture.captions),
    ]
    for link in picture.links:
        parts += drawn_link(link)
    for link in taken:
        parts += taken_link(link)
    for link in picture.links:
        for tag in link.tags:
            parts += drawn_tag(tag)
    for node in picture.nodes:
        parts += drawn_node(node)
    return "\n".join([*parts, "</svg>", ""])


def draw(rig: Rig, request: Optional[Request] = None) -> str:
    """The picture of an accepted rig, with a traced request or without."""
    picture = lay_out(rig, request)
    return svg(picture, " ".join(text.text for text in picture.captions))
