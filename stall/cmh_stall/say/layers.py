"""A small layout in layers, for where Graphviz isn't there. Whoever waits stands at the right of those whom it waits
for. Each root is a cluster: a ring in two rows, or a column with its arrows at the left. An arrow goes from layer to
layer in between, and through one by a place of its own, so it crosses no box and no title."""
from __future__ import annotations

import math
from typing import Dict, FrozenSet, Iterable, List, NamedTuple, Optional, Set, Tuple

from .arrow_words import lines_of_words
from .dot import HEAD, wrap
from .folding import ROOT
from .picture import MESSAGE, Arrow, Picture
from .titles import Point

WIDTHS = 26, 18  # letters of a line in a box, of which the first is tried that fits
LETTER, LINE = 6.7, 14.0  # the room of a letter, and of a line
ROW, COLUMN, MARGIN = 18.0, 44.0, 16.0  # between boxes below each other, between layers, and around boxes
LANE = 14.0  # between arrows that run side by side
TALL = 10.0  # of the place by which an arrow goes through a layer
SWEEPS = 6
Unit = int  # a cluster: that of a root is below 0, and a box by itself has its number


class Spot(NamedTuple):
    """Where a box, or the frame of a root, stands."""

    left: float
    top: float
    width: float
    height: float

    def middle(self) -> float:
        return self.top + self.height / 2

    def right(self) -> float:
        return self.left + self.width

    def shift(self, right: float, down: float) -> Spot:
        return self._replace(left=self.left + right, top=self.top + down)


class Cluster(NamedTuple):
    """The boxes of a root, or one by itself, with their places in it, and the paths of arrows in it. `inlets` are the
    paths by which an arrow comes to a box from the right end of the cluster, and `outlets` from the left end."""

    width: float
    height: float
    boxes: Dict[int, Spot]
    paths: Dict[int, List[Point]]
    inlets: Dict[int, List[Point]]
    outlets: Dict[int, List[Point]]
    title: List[str]


class Path(NamedTuple):
    """The corners of an arrow, from its start to its end."""

    arrow: int
    corners: List[Point]


def width_of_words(words: str) -> float:
    return LETTER * max([0, *map(len, lines_of_words(words))])


def size_of(lines: List[str]) -> Tuple[float, float]:
    return LETTER * max(map(len, lines)) + 18, LINE * len(lines) + 10


class Layers:
    """The places of all boxes and frames, and the paths of all arrows."""

    def __init__(self, picture: Picture, letters: int = WIDTHS[0]) -> None:
        self.picture, self.letters = picture, letters
        self.unit_of = {box.number: -1 - (box.part.root or 0) if box.part.sort == ROOT else box.number
                        for box in picture.boxes}
        self.links = {number: self.link(arrow) for number, arrow in enumerate(picture.arrows)}
        self.clusters = {unit: self.cluster(unit) for unit in dict.fromkeys(self.unit_of.values())}
        self.layer = layers_of(list(self.clusters), [link for link in self.links.values() if link])
        self.columns = self.order_columns(self.fill_columns())
        self.width, self.height = 0.0, 0.0
        self.frames: Dict[Unit, Spot] = {}
        self.gates: Dict[Tuple[int, int], Tuple[Point, Point]] = {}
        self.rights: Dict[int, float] = {}
        self.place_columns()
        self.boxes = {number: spot.shift(self.frames[unit].left, self.frames[unit].top)
                      for unit, cluster in self.clusters.items() for number, spot in cluster.boxes.items()}
        self.parts = self.parts_of_boxes()
        self.paths = [Path(number, self.path(number)) for number in self.links]

    def lines(self, number: int) -> List[str]:
        return [line for text in self.picture.boxes[number].text() for line in wrap(text, self.letters)]

    # Clusters

    def cluster(self, unit: Unit) -> Cluster:
        numbers = [number for number, own in self.unit_of.items() if own == unit]
        sizes = {number: size_of(self.lines(number)) for number in numbers}
        if unit >= 0:
            width, height = sizes[unit]
            height = max(height, 3 * LINE * sum(arrow.start == unit and arrow.words != "" for arrow in
                                                self.picture.arrows))
            spot = Spot(0, 0, width, height)
            ends = {unit: [(width, height / 2)]}, {unit: [(0.0, height / 2)]}
            return Cluster(width, height, {unit: spot}, {}, *ends, [])
        letters = HEAD * self.letters // WIDTHS[0]
        title = [line for text in self.picture.root_lines(-1 - unit) for line in wrap(text, letters)]
        is_ring = all(number in self.picture.ring for number in numbers)
        cluster = self.ring(numbers, sizes, title) if is_ring else self.column(numbers, sizes, title)
        return cluster._replace(width=max(cluster.width, LETTER * max(map(len, title)) + 2 * MARGIN))

    def parts_of_boxes(self) -> Dict[int, float]:
        """Returns for each arrow between clusters at which part of the height of its box it begins: the higher the
        higher it leads."""
        by_box: Dict[int, List[int]] = {}
        for number, link in self.links.items():
            arrow = self.picture.arrows[number]
            if link:
                by_box.setdefault(arrow.end if arrow.style == MESSAGE else arrow.start, []).append(number)
        return {number: (place + 1) / (len(arrows) + 1) for arrows in by_box.values()
                for place, number in enumerate(sorted(arrows, key=self.aim))}

    def aim(self, number: int) -> float:
        """Returns how far down an arrow between clusters leads first."""
        link, arrow = self.links[number], self.picture.arrows[number]
        high, low = (self.layer[unit] for unit in link) if link else (0, 0)
        gates = self.gates.get((number, high - 1 if high > low else high + 1))
        return gates[0][1] if gates else self.boxes[arrow.start if arrow.style == MESSAGE else arrow.end].middle()

    def arrows_within(self, numbers: Iterable[int]) -> List[Tuple[int, Arrow]]:
        inside = set(numbers)
        return [(number, arrow) for number, arrow in enumerate(self.picture.arrows)
                if {arrow.start, arrow.end} <= inside and not arrow.to_root]

    def column(self, numbers: List[int], sizes: Dict[int, Tuple[float, float]], title: List[str]) -> Cluster:
        """Boxes below each other, with their arrows in lanes at the left."""
        arrows = self.arrows_within(numbers)
        words = sum(width_of_words(arrow.words) for _, arrow in arrows)
        left, top = MARGIN + LANE * (len(arrows) + 1) + words, MARGIN + LINE * len(title) + 6
        wide = max(width for width, _ in sizes.values())
        boxes: Dict[int, Spot] = {}
        for number in numbers:
            boxes[number] = Spot(left + (wide - sizes[number][0]) / 2, top, *sizes[number])
            top += sizes[number][1] + ROW
        paths, along = {}, left
        for lane, (number, arrow) in enumerate(arrows, 1):
            first, last, along = boxes[arrow.start], boxes[arrow.end], along - LANE
            part = lane / (len(arrows) + 1) if arrow.start != arrow.end else 0.3
            down, up = first.top + first.height * part, last.top + last.height * (1 - part)
            paths[number] = [(first.left, down), (along, down), (along, up), (last.left, up)]
            along -= width_of_words(arrow.words)
        width = left + wide + MARGIN
        inlets = {number: [(width, spot.middle()), (spot.right(), spot.middle())] for number, spot in boxes.items()}
        outlets = {number: [(0.0, spot.middle()), (spot.left, spot.middle())] for number, spot in boxes.items()}
        return Cluster(width, top - ROW + MARGIN, boxes, paths, inlets, outlets, title)

    def ring(self, numbers: List[int], sizes: Dict[int, Tuple[float, float]], title: List[str]) -> Cluster:
        """A ring in two rows: the upper one leads to the right, and the lower one back."""
        order = sorted(numbers, key=lambda number: self.picture.ring[number])
        upper, lower = order[:(len(order) + 1) // 2], order[(len(order) + 1) // 2:][::-1]
        wide, tall = (max(size[side] for size in sizes.values()) for side in (0, 1))
        first, second = MARGIN + LINE * len(title) + 6, MARGIN + LINE * len(title) + 6 + tall + 3 * LANE
        boxes = {number: Spot(MARGIN + place * (wide + 36), row, wide, tall)
                 for row, members in ((first, upper), (second, lower)) for place, number in enumerate(members)}
        width = MARGIN + len(upper) * (wide + 36) - 36 + MARGIN
        paths: Dict[int, List[Point]] = {}
        pairs: Dict[FrozenSet[int], int] = {}
        for number, arrow in self.arrows_within(numbers):
            pair = frozenset((arrow.start, arrow.end))
            pairs[pair] = pairs.get(pair, -1) + 1
            paths[number] = edge_between(boxes[arrow.start], boxes[arrow.end], pairs[pair] * LANE)
        height = second + tall + MARGIN + LANE
        inlets = {}
        for number, spot in boxes.items():
            is_upper = number in upper
            lane = first + tall + 1.5 * LANE if is_upper else second + tall + LANE
            across = spot.left + spot.width * 0.7
            inlets[number] = [(width, lane), (across, lane), (across, spot.top + spot.height)]
        outlets = {number: [(0.0, corners[0][1]), *corners[1:]] for number, corners in inlets.items()}
        return Cluster(width, height, boxes, paths, inlets, outlets, title)

    # Layers

    def link(self, arrow: Arrow) -> Optional[Tuple[Unit, Unit]]:
        """Returns the clusters between which an arrow leads, as whoever waits and for whom; or nothing within one."""
        start, end = self.unit_of[arrow.start], self.unit_of[arrow.end]
        start, end = (end, start) if arrow.style == MESSAGE else (start, end)
        return None if start == end else (start, end)

    def fill_columns(self) -> List[List[Tuple[int, int]]]:
        """Returns what each layer has: clusters, as (0, unit), and places of arrows that go through, as (1 + arrow, 0).
        """
        columns: List[List[Tuple[int, int]]] = [[] for _ in range(max(self.layer.values(), default=-1) + 1)]
        for unit, layer in self.layer.items():
            columns[layer].append((0, unit))
        for number, link in self.links.items():
            if link:
                low, high = sorted((self.layer[link[0]], self.layer[link[1]]))
                for layer in range(low + 1, high):
                    columns[layer].append((1 + number, 0))
        return columns

    def order_columns(self, columns: List[List[Tuple[int, int]]]) -> List[List[Tuple[int, int]]]:
        """Returns the layers in such an order that each stands near the middle of those to which it is joined."""
        for sweep in range(SWEEPS):
            layers = range(1, len(columns)) if sweep % 2 == 0 else range(len(columns) - 2, -1, -1)
            for layer in layers:
                beside = columns[layer - 1 if sweep % 2 == 0 else layer + 1]
                places = {key: place for place, key in enumerate(beside)}
                middles = {}
                for place, key in enumerate(columns[layer]):
                    near = [places[other] for other in self.neighbours_of(key, places)]
                    middles[key] = sum(near) / len(near) if near else place
                columns[layer] = sorted(columns[layer], key=lambda key: middles[key])
        return columns

    def neighbours_of(self, key: Tuple[int, int], places: Dict[Tuple[int, int], int]) -> Set[Tuple[int, int]]:
        """Returns what of a layer beside a cluster, or the place of an arrow, is joined to it."""
        joined = set()
        for number, link in self.links.items():
            if link and (key == (1 + number, 0) or key[0] == 0 and key[1] in link):
                joined |= {other for other in ((1 + number, 0), (0, link[0]), (0, link[1])) if other in places}
        return joined - {key}

    def place_columns(self) -> None:
        """Gives each cluster its frame, and each arrow that goes through a layer its gates."""
        heights = [sum(self.tall(key) + ROW for key in column) - ROW for column in self.columns]
        left, tallest = MARGIN, max(heights, default=0.0)
        for layer, column in enumerate(self.columns):
            wide = max(self.clusters[unit].width if not number else 0 for number, unit in column)
            top = MARGIN + (tallest - heights[layer]) / 2
            self.rights[layer] = left + wide
            for number, unit in column:
                if number:
                    self.gates[number - 1, layer] = (left, top + TALL / 2), (left + wide, top + TALL / 2)
                else:
                    self.frames[unit] = Spot(left, top, self.clusters[unit].width, self.clusters[unit].height)
                top += self.tall((number, unit)) + ROW
            left += wide + COLUMN + self.words_beside(layer)
        self.width, self.height = left - COLUMN + MARGIN, tallest + 2 * MARGIN

    def words_beside(self, layer: int) -> float:
        """Returns how wide the words are of arrows that come into a layer from whoever waits at its right."""
        return max([0.0, *(width_of_words(self.picture.arrows[number].words) for number, link in self.links.items()
                           if link and self.layer[link[1]] <= layer < self.layer[link[0]] == layer + 1)])

    def tall(self, key: Tuple[int, int]) -> float:
        return TALL if key[0] else self.clusters[key[1]].height

    # Arrows

    def path(self, number: int) -> List[Point]:
        """Returns the corners of an arrow, from whoever waits to for whom, or from a sender to a receiver."""
        arrow, link = self.picture.arrows[number], self.links[number]
        if link is None:
            return self.path_within(number, arrow)
        waiting, wanted = (arrow.end, arrow.start) if arrow.style == MESSAGE else (arrow.start, arrow.end)
        high, low = self.layer[link[0]], self.layer[link[1]]
        start = (self.outlet(waiting, number) if high > low else self.inlet(waiting))[::-1]
        end = self.inlet(wanted) if high >= low else self.outlet(wanted)
        if arrow.to_root and high >= low:
            frame = self.frames[link[1]]
            down = frame.top + frame.height * (0.5 + self.parts[number] / 2.5)
            end = [(self.rights[low], down), (frame.right(), down)]
        if high == low:
            lane = self.rights[low] + LANE * (0.5 + self.parts[number] * 2)
            start, end = [*start, (lane, start[-1][1])], [(lane, end[0][1]), *end]
        through = sorted((layer for arrow_, layer in self.gates if arrow_ == number), reverse=high > low)
        gates = [point for layer in through for point in self.gates[number, layer][::-1 if high > low else 1]]
        corners = without_doubles([*start, *gates, *end])
        return corners[::-1] if arrow.style == MESSAGE else corners

    def inlet(self, box: int) -> List[Point]:
        """Returns the path from the right end of a layer to a box in it."""
        unit = self.unit_of[box]
        corners = self.clusters[unit].inlets[box]
        frame = self.frames[unit]
        return [(self.rights[self.layer[unit]], frame.top + corners[0][1]),
                *((frame.left + right, frame.top + down) for right, down in corners[len(corners) > 1:])]

    def outlet(self, box: int, arrow: Optional[int] = None) -> List[Point]:
        """Returns the path from the left end of a layer to a box in it, by a place of its own for an arrow."""
        unit = self.unit_of[box]
        frame, corners = self.frames[unit], self.clusters[unit].outlets[box]
        if len(corners) == 1 and arrow is not None:
            return [(frame.left, frame.top + frame.height * self.parts[arrow])]
        return [(frame.left + right, frame.top + down) for right, down in corners]

    def path_within(self, number: int, arrow: Arrow) -> List[Point]:
        unit = self.unit_of[arrow.start]
        own, frame = self.clusters[unit].paths.get(number), self.frames[unit]
        if own:
            return [(frame.left + right, frame.top + down) for right, down in own]
        spot = self.boxes[arrow.start]
        right, top, bottom = spot.right(), spot.top + spot.height * 0.3, spot.top + spot.height * 0.7
        return [(right, top), (right + LANE, top), (right + LANE, bottom), (right, bottom)]


def without_doubles(corners: List[Point]) -> List[Point]:
    """Returns the corners of a path, each of which is at another place than the one before."""
    return [point for place, point in enumerate(corners) if not place or math.dist(point, corners[place - 1]) > 0.5]


def edge_between(first: Spot, last: Spot, beside: float) -> List[Point]:
    """Returns the arrow between two boxes beside or below each other, at a distance from others between them."""
    if abs(first.top - last.top) < 1:
        ends = (first.right(), last.left) if first.left < last.left else (first.left, last.right())
        return [(ends[0], first.middle() + beside), (ends[1], last.middle() + beside)]
    across = first.left + first.width / 2 + beside, last.left + last.width / 2 + beside
    is_down = first.top < last.top
    return [(across[0], first.top + (first.height if is_down else 0)),
            (across[1], last.top + (0 if is_down else last.height))]


def layers_of(units: List[Unit], links: List[Tuple[Unit, Unit]]) -> Dict[Unit, int]:
    """Returns the layer of each cluster: one more than the last of those that it waits for. Of a circle, one link is
    left out, and of a root, all that lead elsewhere than to roots."""
    whom: Dict[Unit, List[Unit]] = {unit: [] for unit in units}
    for start, end in links:
        whom[start] += [end] if start >= 0 or end < 0 else []
    layers: Dict[Unit, int] = {}
    begun: Set[Unit] = set()

    def visit(unit: Unit) -> int:
        begun.add(unit)
        below = [layers[other] if other in layers else visit(other) for other in whom[unit]
                 if other in layers or other not in begun]
        layers[unit] = 1 + max(below) if below else 0
        return layers[unit]

    for unit in units:
        if unit not in layers:
            visit(unit)
    return layers
