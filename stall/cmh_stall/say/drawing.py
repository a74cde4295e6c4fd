"""The picture of an answer as it stands in a page: laid out, and folded until its letters are large enough."""
from __future__ import annotations

import re
from typing import Callable, List, NamedTuple, Sequence
from xml.etree.ElementTree import Element

from ..core.files import Failure, say
from .folding import MOST
from .layers_svg import layered_tree
from .picture import Picture
from .svg import best_tree, check_graphviz, text_of_tree, width_of
from .titles import FIT
from .wait_graph import WaitGraph

SIZES = (MOST, 24, 16, 10, 6, 3)  # boxes, of which the first are tried that fit


class Drawing(NamedTuple):
    """A picture and its SVG."""

    picture: Picture
    svg: str

    def beside(self) -> str:
        """Returns the SVG as it stands in a page beside another, whose parts alone have numbers."""
        words = re.sub(r' (?:id="b\d+"|data-(?:box|root)="\d+")', "", self.svg)
        return re.sub(r'"cmh-(title|desc)"', r'"cmh-older-\1"', words)


def drawings(answers: Sequence[WaitGraph]) -> List[Drawing]:
    """Returns the drawings of some answers, laid out by Graphviz, or, where that isn't there or fails, here."""
    try:
        check_graphviz()
        return [fit(graph, best_tree) for graph in answers]
    except Failure as failure:
        say(f"cmh-explain: the page has a simple picture: {failure}")
    return [fit(graph, layered_tree) for graph in answers]


def fit(graph: WaitGraph, lay_out: Callable[[Picture], Element]) -> Drawing:
    """Returns a drawing that is narrow enough for its letters, if one is."""
    sizes: List[int] = []
    for most in SIZES:
        picture = Picture(graph, most=most)
        if len(picture.boxes) in sizes:
            continue
        sizes.append(len(picture.boxes))
        tree = lay_out(picture)
        if width_of(tree) <= FIT:
            break
    return Drawing(picture, text_of_tree(picture, tree))
