"""Shortest ways through a graph whose nodes are numbers: from one, and from each to the nearest of some ends."""
from __future__ import annotations

from typing import Container, Dict, Iterable, List, NamedTuple, Optional

START = -1  # no node
Edges = Dict[int, List[int]]  # from each node to others


class Way(NamedTuple):
    """How many steps a way has, and where it ends."""

    length: int
    end: int


def way(edges: Edges, start: int, ends: Container[int]) -> List[int]:
    """Returns a shortest way from one to any of the ends, or only the start if there is none."""
    before: Dict[int, Optional[int]] = {start: None}
    todo = [start]
    for node in todo:
        if node in ends:
            return way_back(before, node)
        for other in edges.get(node, ()):
            if other not in before:
                before[other] = node
                todo.append(other)
    return [start]


def way_back(before: Dict[int, Optional[int]], end: int) -> List[int]:
    """Returns the way to an end, by who comes before each."""
    back: List[int] = []
    node: Optional[int] = end
    while node is not None:
        back.append(node)
        node = before[node]
    return back[::-1]


def steps_to(edges: Edges, ends: Iterable[int]) -> Dict[int, int]:
    """Returns for each one that reaches an end the next one on a shortest way there."""
    back: Dict[int, List[int]] = {}
    for node, others in edges.items():
        for other in others:
            back.setdefault(other, []).append(node)
    steps: Dict[int, int] = {}
    todo = list(ends)
    seen = {*todo}
    for node in todo:
        new = [before for before in back.get(node, ()) if before not in seen]
        steps.update((before, node) for before in new)
        seen.update(new)
        todo += new
    return steps


def ways_of(steps: Dict[int, int]) -> Dict[int, Way]:
    """Returns the way of each one that has a next step."""
    ways: Dict[int, Way] = {}
    for start in steps:
        node, trail = start, []
        while node in steps and node not in ways:
            trail.append(node)
            node = steps[node]
        way_on = ways.get(node, Way(0, node))
        for number, step in enumerate(reversed(trail), 1):
            ways[step] = Way(way_on.length + number, way_on.end)
    return ways
