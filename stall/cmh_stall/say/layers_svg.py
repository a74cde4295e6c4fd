"""The layout in layers as SVG, of the same groups and classes that Graphviz gives a picture."""
from __future__ import annotations

import xml.etree.ElementTree as ElementTree
from typing import Iterator, List, Tuple

from .arrow_words import lines_of_words
from .dot import ARROWS, CAPTION, FONT, LOOKS, notes_of, wrap
from .layers import LETTER, LINE, MARGIN, WIDTHS, Layers, Spot
from .picture import MESSAGE, Picture
from .titles import FIT, SPACE, Element, Point

HEADLINE = 19.0  # the room of a line of the caption
KEY = 16.0  # of a form in the legend
ROOT_FILL, ROOT_EDGE = "#fff4f2", "#b3261e"


def element(parent: Element, name: str, **attributes: object) -> Element:
    named = {key.rstrip("_").replace("_", "-"): text_of(value) for key, value in attributes.items()}
    return ElementTree.SubElement(parent, f"{{{SPACE}}}{name}", named)


def text_of(value: object) -> str:
    return f"{value:.1f}" if isinstance(value, float) else str(value)


def text(parent: Element, words: str, left: float, base: float, size: int = 11, anchor: str = "start") -> None:
    element(parent, "text", x=left, y=base, text_anchor=anchor, font_family=FONT, font_size=size).text = words


def group(parent: Element, sort: str, title: str) -> Element:
    made = element(parent, "g", class_=sort)
    element(made, "title").text = title
    return made


def layered_tree(picture: Picture) -> Element:
    """Returns a picture as SVG, laid out here."""
    layers = Layers(picture)
    layers = layers if layers.width <= FIT else Layers(picture, WIDTHS[1])
    caption = [line for words in (picture.cure, picture.caption()) if words for line in wrap(words, CAPTION)]
    above = MARGIN + HEADLINE * len(caption)
    tree = ElementTree.Element(f"{{{SPACE}}}svg")
    graph = group(tree, "graph", "stall")
    for number, line in enumerate(caption, 1):
        text(graph, line, MARGIN, HEADLINE * number, 15)
    draw_frames(graph, layers, above)
    for path in layers.paths:
        draw_arrow(graph, layers, path.arrow, [(right, down + above) for right, down in path.corners])
    for number, spot in layers.boxes.items():
        draw_box(graph, layers, number, spot.shift(0, above))
    bottom = draw_legend(graph, picture, above + layers.height + MARGIN)
    longest = max([0, *(len(line) for line in caption)])
    width = max(layers.width, longest * LETTER * 1.36 + 2 * MARGIN, 30 * LETTER)
    tree.set("viewBox", f"0 0 {width:.1f} {bottom:.1f}")
    tree.set("width", f"{width:.0f}pt")
    tree.set("height", f"{bottom:.0f}pt")
    return tree


def draw_frames(graph: Element, layers: Layers, above: float) -> None:
    """Draws the frame of each root, with its title."""
    for unit, frame in layers.frames.items():
        if unit < 0:
            made, spot = group(graph, "cluster rootframe", f"cluster_root_{-1 - unit}"), frame.shift(0, above)
            right, bottom = spot.right(), spot.top + spot.height
            element(made, "path", fill=ROOT_FILL, stroke=ROOT_EDGE, stroke_width=2,
                    d=f"M{spot.left:.1f},{spot.top:.1f} H{right:.1f} V{bottom:.1f} H{spot.left:.1f} Z")
            for number, line in enumerate(layers.clusters[unit].title, 1):
                text(made, line, spot.left + 8, spot.top + LINE * number + 2)


def corners_of(spot: Spot) -> str:
    right, bottom = spot.right(), spot.top + spot.height
    corners = (spot.left, spot.top), (right, spot.top), (right, bottom), (spot.left, bottom), (spot.left, spot.top)
    return " ".join(f"{across:.1f},{down:.1f}" for across, down in corners)


def draw_form(parent: Element, sort: str, spot: Spot) -> None:
    """Draws the form of a box, which shows what it is by its edge too."""
    look = LOOKS[sort]
    dashes = {"stroke_dasharray": "5,2" if "dashed" in look.style else "1,3"} if \
        "dashed" in look.style or "dotted" in look.style else {}
    element(parent, "polygon", fill=look.fill, stroke="#222222", stroke_width=look.width, points=corners_of(spot),
            **dashes)
    if "diagonals" in look.style:
        element(parent, "polyline", fill="none", stroke="#222222",
                points=f"{spot.left:.1f},{spot.top + 8:.1f} {spot.left + 8:.1f},{spot.top:.1f}")


def draw_box(graph: Element, layers: Layers, number: int, spot: Spot) -> None:
    sort = layers.picture.boxes[number].part.sort
    made = group(graph, f"node {sort}", f"p{number}")
    draw_form(made, sort, spot)
    lines = layers.lines(number)
    top = spot.top + (spot.height - LINE * len(lines) - 10) / 2
    for line_number, line in enumerate(lines, 1):
        text(made, line, spot.left + spot.width / 2, top + LINE * line_number + 1, anchor="middle")


def draw_arrow(graph: Element, layers: Layers, number: int, corners: List[Point]) -> None:
    arrow = layers.picture.arrows[number]
    is_message = arrow.style == MESSAGE
    made = group(graph, f"edge message a{number}" if is_message else f"edge a{number}", f"p{arrow.start}->p{arrow.end}")
    look = {"stroke_dasharray": "5,2"} if is_message else {}
    color = "#0b57d0" if is_message else "#222222"
    element(made, "path", fill="none", stroke=color, stroke_width=2.6 if "penwidth" in ARROWS[arrow.style].look else 1,
            d="M" + " L".join(f"{across:.1f},{down:.1f}" for across, down in corners), **look)
    element(made, "polygon", fill=color, stroke=color, points=point_of(corners[-2:]))
    if arrow.words:
        draw_words(group(graph, f"node a{number}", f"w{number}"), arrow.words, corners, layers.links[number] is None)


def draw_words(label: Element, words: str, corners: List[Point], is_within: bool) -> None:
    """Draws the words on an arrow: at the left of its lane in a root, and else in the middle of its first piece."""
    (left, first), (right, last) = corners[:2]
    if is_within:
        first, last, left = corners[1][1], corners[2 % len(corners)][1], min(left, right) - 3
    lines = lines_of_words(words)
    for number, line in enumerate(lines):
        base = (first + last) / 2 + 4 + LINE * (number - (len(lines) - 1) / 2)
        text(label, line, left if is_within else (left + right) / 2, base, anchor="end" if is_within else "middle")


def point_of(last: List[Point]) -> str:
    """Returns the head of an arrow, which ends with two corners."""
    (left, top), (right, bottom) = last
    length = max(((right - left) ** 2 + (bottom - top) ** 2) ** 0.5, 0.1)
    along, across = ((right - left) / length * 8, (bottom - top) / length * 8), 0.45
    sides = [(right - along[0] + sign * along[1] * across, bottom - along[1] - sign * along[0] * across)
             for sign in (1, -1)]
    return " ".join(f"{x:.1f},{y:.1f}" for x, y in ((right, bottom), *sides, (right, bottom)))


def draw_legend(graph: Element, picture: Picture, top: float) -> float:
    """Draws what the forms mean, and returns where that ends."""
    left = MARGIN
    for sort in {LOOKS[box.part.sort]: box.part.sort for box in picture.boxes}.values():
        made = group(graph, f"node {sort}", f"k{sort}")
        draw_form(made, sort, Spot(left, top, KEY, KEY - 4))
        text(made, LOOKS[sort].text, left + KEY + 6, top + 10)
        left += KEY + 26 + LETTER * len(LOOKS[sort].text)
    top += 2 * LINE
    for line in words_of_arrows(picture):
        text(graph, line, MARGIN, top)
        top += LINE
    return top + MARGIN


def words_of_arrows(picture: Picture) -> Iterator[str]:
    styles: List[Tuple[str, str]] = [(ARROWS[style].start, ARROWS[style].end) for style in ARROWS
                                     if any(arrow.style == style for arrow in picture.arrows)]
    for start, end in styles:
        yield f"An arrow: {start} → {end}"
    yield from notes_of(picture)
