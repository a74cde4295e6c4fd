"""Whether an arrow of a laid-out picture crosses a title: of the whole, or of a frame. Where no plan of a layout keeps
all titles free, those of roots go above the picture, where no arrow is, and other frames do without."""
from __future__ import annotations

import re
import xml.etree.ElementTree as ElementTree
from typing import Iterator, List, NamedTuple, Tuple

SPACE = "http://www.w3.org/2000/svg"
FIT = 1230  # wide at most, in points: its letters of 11 points have 11 pixels on a screen of 1,300
WIDE = 0.62  # of a letter, of its height, in a font that is wide
STEPS = 16  # points of a piece of a curve
LINE = 1.25  # of the height of letters
NUMBER = re.compile(r"-?\d+(?:\.\d+)?")
Point = Tuple[float, float]
Element = ElementTree.Element


class Area(NamedTuple):
    """A rectangle."""

    left: float
    top: float
    right: float
    bottom: float

    def has(self, point: Point) -> bool:
        return self.left < point[0] < self.right and self.top < point[1] < self.bottom


def tag_of(element: Element) -> str:
    return element.tag.replace(f"{{{SPACE}}}", "")


def groups_with_titles(tree: Element) -> List[Element]:
    """Returns the groups that have a title: the graph, and its frames."""
    return [group for group in tree.iter() if tag_of(group) == "g" and
            {"graph", "cluster"}.intersection(group.get("class", "").split())]


def texts(group: Element) -> List[Element]:
    return [element for element in group if tag_of(element) == "text"]


def area_of(text: Element) -> Area:
    """Returns where the letters of a text stand."""
    size = float(text.get("font-size", "14"))
    width, left = WIDE * size * len(text.text or ""), float(text.get("x", "0"))
    left -= {"middle": width / 2, "end": width}.get(text.get("text-anchor", "start"), 0)
    base = float(text.get("y", "0"))
    return Area(left, base - 0.8 * size, left + width, base + 0.22 * size)


def points(path: str) -> Iterator[Point]:
    """Yields points on the curve of an arrow."""
    numbers = [float(number) for number in NUMBER.findall(path)]
    corners = list(zip(numbers[::2], numbers[1::2]))
    if "C" not in path.upper():
        for first, last in zip(corners, corners[1:]):
            yield from (between(part / STEPS, first, last) for part in range(STEPS + 1))
        return
    for start in range(0, len(corners) - 3, 3):
        yield from (on_curve(corners[start:start + 4], part / STEPS) for part in range(STEPS + 1))


def between(part: float, first: Point, last: Point) -> Point:
    return first[0] + (last[0] - first[0]) * part, first[1] + (last[1] - first[1]) * part


def on_curve(corners: List[Point], part: float) -> Point:
    """Returns a point of a curve of Bezier, by halving the lines between its corners."""
    while len(corners) > 1:
        corners = [between(part, first, last) for first, last in zip(corners, corners[1:])]
    return corners[0]


def crossed_groups(tree: Element) -> List[Element]:
    """Returns the groups whose title an arrow crosses."""
    curves = [point for group in tree.iter() if "edge" in group.get("class", "").split()
              for path in group if tag_of(path) == "path" for point in points(path.get("d", ""))]
    areas = [(group, [area_of(text) for text in texts(group)]) for group in groups_with_titles(tree)]
    return [group for group, lines in areas if any(area.has(point) for area in lines for point in curves)]


def free_titles(tree: Element) -> None:
    """Takes the titles that an arrow crosses from their frames: those of roots stand below that of the whole then, for
    which the picture gets more room above."""
    graph = next(group for group in tree.iter() if "graph" in group.get("class", "").split())
    left, top, width, height = map(float, tree.get("viewBox", "0 0 0 0").split())
    moved: List[Element] = []
    groups = crossed_groups(tree)
    for group in groups:
        moved += texts(group) if "rootframe" in group.get("class", "").split() else []
        for text in texts(group) if group is not graph else ():
            group.remove(text)
    right, down = shift_of(graph)
    above = texts(graph) if moved or graph in groups else []
    room = sum(map(line_of, moved)) + (sum(map(line_of, above)) if graph in groups else 0)
    base = top - room
    for text in [*above, *moved]:
        base += line_of(text)
        text.attrib.update({"x": f"{left + 12 - right:.2f}", "y": f"{base - down:.2f}", "text-anchor": "start"})
    graph.extend(moved)
    tree.set("viewBox", f"{left:.2f} {top - room:.2f} {width:.2f} {height + room:.2f}")
    tree.set("height", f"{height + room:.0f}pt")


def line_of(text: Element) -> float:
    return LINE * float(text.get("font-size", "14"))


def shift_of(graph: Element) -> Point:
    """Returns by how much Graphviz moves all of a graph."""
    moved = re.search(r"translate\((-?[\d.]+)[ ,]+(-?[\d.]+)\)", graph.get("transform", ""))
    return (float(moved[1]), float(moved[2])) if moved else (0, 0)
