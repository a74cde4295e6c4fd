"""A picture as SVG, laid out by `dot` of Graphviz. Of what that writes, forms and texts alone are taken over, so that
nothing of a name is ever more than a text."""
from __future__ import annotations

import shutil
import subprocess
import xml.etree.ElementTree as ElementTree
from typing import Dict, Iterator, List, Tuple

from ..core.files import Failure, cause_of, shown, signal_words
from ..core.start import SIGNALS
from .dot import Plan, dot, in_svg
from .folding import MOST
from .picture import Picture
from .titles import FIT, SPACE, crossed_groups, free_titles, tag_of

# The layouts that are tried, one after the other.
PLANS = (Plan(), Plan(has_site_frames=False), Plan(width=28, gap=0.35), Plan(width=28, gap=0.3, has_site_frames=False))
SECONDS = 120  # that a layout may take: one of 40 boxes takes less than one
NO_GRAPHVIZ = "the command dot isn't there, which lays out pictures (Debian: apt-get install graphviz)"
ROOT = "cluster_root_"
FORMS = {"g", "path", "polygon", "polyline", "ellipse", "text"}
ATTRIBUTES = {"class", "transform", "fill", "stroke", "stroke-width", "stroke-dasharray", "points", "d", "cx", "cy",
              "rx", "ry", "x", "y", "text-anchor", "font-family", "font-size", "font-weight"}


def check_graphviz() -> None:
    """Raises Failure if Graphviz isn't there."""
    if not shutil.which("dot"):
        raise Failure(NO_GRAPHVIZ)


def svg(picture: Picture) -> str:
    """Returns the text of a picture as SVG. Raises Failure if Graphviz isn't there, or fails."""
    check_graphviz()
    return text_of_tree(picture, best_tree(picture))


def best_tree(picture: Picture) -> ElementTree.Element:
    """Returns the first layout that is narrow enough, and whose titles no arrow crosses, or else the best one."""
    trees: List[Tuple[float, int, int, ElementTree.Element]] = []
    for plan in PLANS if len(picture.boxes) <= MOST else PLANS[:1]:
        tree = tree_of(dot(picture, plan))
        faults = len(crossed_groups(tree)), max(width_of(tree) - FIT, 0)
        if faults == (0, 0):
            return tree
        trees.append((faults[1], faults[0], len(trees), tree))
    tree = min(trees, key=lambda row: row[:3])[3]
    free_titles(tree)
    return tree


def width_of(tree: ElementTree.Element) -> float:
    return float(tree.get("viewBox", "0 0 0 0").split()[2])


def tree_of(text: str) -> ElementTree.Element:
    """Returns what Graphviz makes of the text of a graph."""
    try:
        return ElementTree.fromstring(lay_out(text))
    except ElementTree.ParseError as error:
        raise Failure(f"what dot prints is no SVG: {error}") from None


def text_of_tree(picture: Picture, tree: ElementTree.Element) -> str:
    """Returns the text of an SVG with the words of a picture."""
    made = ElementTree.Element("svg", {"xmlns": SPACE, "role": "img", "aria-labelledby": "cmh-title",
                                       "aria-describedby": "cmh-desc", "viewBox": tree.get("viewBox", "")})
    made.set("width", tree.get("width", ""))
    made.set("height", tree.get("height", ""))
    ElementTree.SubElement(made, "title", {"id": "cmh-title"}).text = in_svg(picture.caption())
    ElementTree.SubElement(made, "desc", {"id": "cmh-desc"}).text = in_svg(" ".join(picture.sentences()))
    boxes = {f"p{box.number}": "\n".join(map(in_svg, box.lines)) for box in picture.boxes}
    made.extend(list(copies(tree, boxes)))
    return ElementTree.tostring(made, encoding="unicode") + "\n"


def lay_out(text: str) -> bytes:
    """Returns what Graphviz makes of a graph."""
    ran = None
    try:
        with SIGNALS.hold():
            ran = subprocess.Popen(["dot", "-Tsvg"], stdin=subprocess.PIPE, stdout=subprocess.PIPE,
                                   stderr=subprocess.PIPE)
        out, errors = ran.communicate(text.encode("utf-8", "backslashreplace"), SECONDS)
        if ran.returncode:
            said = shown(errors.decode("utf-8", "replace").strip())
            raise Failure(f"dot {signal_words(ran.returncode) or f'ended with status {ran.returncode}: {said}'}")
        return out
    except subprocess.TimeoutExpired:
        raise Failure(f"dot takes longer than {SECONDS} s: without --all a picture has few boxes") from None
    except OSError as error:
        raise Failure(f"dot can't be run: {cause_of(error)}") from error
    finally:
        if ran:
            ran.kill()
            ran.wait()


def copies(tree: ElementTree.Element, boxes: Dict[str, str]) -> Iterator[ElementTree.Element]:
    """Yields the forms and texts below an element. What Graphviz calls one of the boxes gets its words as a title, and
    its number; the frame of a root has the number of that."""
    for drawn in tree:
        name = tag_of(drawn)
        if name in FORMS:
            made = ElementTree.Element(name, {key: value for key, value in drawn.attrib.items() if key in ATTRIBUTES})
            made.text = drawn.text if name == "text" else None
            title = drawn.find(f"{{{SPACE}}}title")
            called, sort = "" if title is None else title.text or "", drawn.get("class", "")
            if called in boxes and sort.startswith("node"):
                made.attrib.update({"id": f"b{called[1:]}", "data-box": called[1:]})
                ElementTree.SubElement(made, "title").text = boxes[called]
            if called.startswith(ROOT) and "rootframe" in sort:
                made.set("data-root", str(int(called[len(ROOT):]) + 1))
            made.extend(list(copies(drawn, boxes)))
            yield made
