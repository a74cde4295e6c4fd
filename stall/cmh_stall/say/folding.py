"""Folds the processes of a stall into groups, each of which is a box of its picture, so that a picture of any size has
at most MOST boxes, and whoever there is is counted in one.

Each process is in one part: in a root, behind one, undecided and so on. A part is folded step by step: those that are
alike, as they wait for the same ones at one place, and the same ones wait for them; those at one line of source on one
site; on any; all but the largest groups; all. A small picture is only folded by the first step, and a whole one not.
"""
from __future__ import annotations

from collections import Counter
from typing import Collection, Dict, Iterable, List, NamedTuple, Optional, Set, Tuple

from ..core.files import shown
from ..core.model import Strength
from ..core.sketch import ENDED, RUNS, UNKNOWN
from .view import Tree
from .wait_graph import WaitGraph

ALIKE, LINE_OF_SITE, LINE, LARGEST, ONE = range(5)  # the steps
ROOT, BEHIND, SHARED, MORE, UNDECIDED, OPEN, FREE, RUNNING, OVER = SORTS = (
    "root", "behind", "shared", "more", "undecided", "unknown", "free", "runs", "ended")
SMALL, FEW, MOST = 16, 24, 40  # boxes: of a small picture, and of a large one without and with those of roots folded
ROOTS = 6  # roots that are drawn apart
PARTS = 4  # a part has at most one of so many boxes
ALIKE_ROOTS = 3  # of so many that are alike, one is drawn
AMPLE = {ROOT: 8, BEHIND: 6, SHARED: 4, MORE: 1, UNDECIDED: 4, OPEN: 4, FREE: 3, RUNNING: 3, OVER: 2}  # of a part
BESIDE = (Strength.AGAINST.value, Strength.UNSEEN.value)  # of those who end a wait in another way, or aren't seen
Row = List[int]  # of processes that share a box


class PicturePart(NamedTuple):
    """What a process is in the answer, and in or behind which root, if it is one alone."""

    sort: str
    root: Optional[int] = None


class Folding:
    """The rows of each part, at most `most`. `alone` are those that share no box, as they are asked for; if `is_whole`,
    nobody does."""

    def __init__(self, graph: WaitGraph, indices: Iterable[int], alone: Collection[int], is_whole: bool,
                 most: int = MOST) -> None:
        self.graph, self.alone, self.is_whole = graph, alone, is_whole
        self.small, self.few, self.most = min(SMALL, most), min(FEW, most), most
        self.senders = {name for row in graph.rows for name in row["in_transit_from"]}
        self.apart = {*range(len(graph.roots))} if is_whole else {*roots_apart(graph, most)}
        self.parts: Dict[PicturePart, Row] = {}
        indices = list(indices)
        for index in indices:
            self.parts.setdefault(self.part_of(index), []).append(index)
        self.whom, self.waiters = known_by(graph.successors, indices), known_by(graph.predecessors, indices)

    def part_of(self, index: int) -> PicturePart:
        row, kind = self.graph.rows[index], self.graph.kind(index)
        numbers = [row["root"]] if row["root"] else row["behind"]
        if numbers[1:]:
            return PicturePart(SHARED)
        if numbers:
            sort, number = ROOT if row["root"] else BEHIND, numbers[0] - 1
            return PicturePart(sort, number) if number in self.apart else PicturePart(MORE)
        if kind == ENDED:
            return PicturePart(OVER)
        if row["verdict"] == UNDECIDED:
            return PicturePart(OPEN if kind == UNKNOWN else UNDECIDED)
        return PicturePart(RUNNING if kind == RUNS or self.graph.is_quiet(index) else FREE)

    def rows(self) -> List[Tuple[PicturePart, Row]]:
        """Returns the rows with their parts, those of roots first."""
        rows = self.fold()
        order = sorted(rows, key=lambda part: (SORTS.index(part.sort), part.root or 0))
        return [(part, row) for part in order for row in rows[part]]

    def fold(self) -> Dict[PicturePart, List[Row]]:
        """Returns the rows of each part: if they are too many, as many as are ample for it, and then one for each part
        that has most, those of roots last."""
        if self.is_whole:
            return {part: [[index] for index in indices] for part, indices in self.parts.items()}
        rows = {part: self.groups(part, ONE if part.sort == MORE else ALIKE) for part in self.parts}
        if count(rows) > self.small:
            rows = {part: self.groups(part, self.first_step(part)) for part in self.parts}
        by_size = sorted(rows, key=lambda part: len(rows[part]))
        for most, parts in ((self.few, [part for part in by_size if part.sort != ROOT]), (self.most, by_size)):
            while count(rows) > most and parts:
                part = parts.pop()
                rows[part] = self.groups(part, ONE)
        return rows

    def first_step(self, part: PicturePart) -> int:
        """Returns the first step after which a part has no more rows than are ample."""
        if part.sort == MORE:
            return ONE
        fit = (step for step in (ALIKE, LINE_OF_SITE, LINE) if len(self.groups(part, step)) <= self.ample(part))
        return next(fit, LARGEST)

    def ample(self, part: PicturePart) -> int:
        """Returns how many rows are ample for a part: fewer where there are few in all. Where nobody is stuck, those
        that wait have more."""
        ample = AMPLE[ROOT if part.sort == FREE and not self.graph.roots else part.sort]
        return min(ample, max(self.most // PARTS, 1))

    def groups(self, part: PicturePart, step: int) -> List[Row]:
        """Returns the rows of a part after a step."""
        by_key: Dict[object, Row] = {}
        for index in self.parts[part]:
            by_key.setdefault(index if index in self.alone else self.key(index, step), []).append(index)
        rows = sorted(by_key.values(), key=lambda row: row[0] not in self.alone)
        if step < LARGEST:
            return rows
        kept = sum(row[0] in self.alone for row in rows)
        if step == LARGEST:
            rows[kept:] = sorted(rows[kept:], key=lambda row: (-len(row), not self.is_next_to_root(row[0])))
            kept = max(kept, self.ample(part) - 1)
        rest = [index for row in rows[kept:] for index in row]
        return rows[:kept] + ([rest] if rest else [])

    def is_next_to_root(self, index: int) -> bool:
        graph = self.graph
        return any(graph.rows[other]["root"] for other in graph.successors[index] if other < graph.number)

    def key(self, index: int, step: int) -> object:
        """Returns what those have in common that share a row after a step. One whose place isn't known shares none."""
        row = self.graph.rows[index]
        place, sort = self.graph.note(index) or shown(row["reason"]), (row["kind"], row["goes_on"])
        if step == ALIKE:
            return sort, place, row["site"], self.whom[index], self.waiters[index], row["name"] in self.senders
        if row["frames"]:
            place = f"{row['operation']} {row['frames'][0]}"
        return (sort, place, row["site"] if step == LINE_OF_SITE else None) if place else index


def roots_apart(graph: WaitGraph, most: int) -> List[int]:
    """Returns the roots that are drawn: one of those that are alike, and at most a few, fewer where boxes are few."""
    alike: Dict[object, List[int]] = {}
    for number, members in enumerate(graph.roots):
        alike.setdefault(tuple(sorted(map(graph.note, members))), []).append(number)
    drawn = (number for numbers in alike.values() for number in numbers[:1 if len(numbers) >= ALIKE_ROOTS else None])
    return sorted(drawn)[:min(ROOTS, max(most // PARTS, 1))]


def stand_for_others(graph: WaitGraph) -> Set[int]:
    """Returns those who only stand for others: with no place of their own, waiting for nobody, and named by no wait but
    as somebody who isn't in the state, or who may end it in another way."""
    named: Dict[object, Tree] = {}
    beside: Dict[object, Tree] = {}
    for wakers in (wakers for row in graph.rows for part in row["wakers"] for wakers in part):
        who = wakers["who"]
        (beside if wakers["strength"] in BESIDE else named).setdefault(who if isinstance(who, str) else id(who), wakers)
    needed, others = ({name for wakers in lists.values() for name in graph.names_of(wakers)}
                      for lists in (named, beside))
    numbers = [graph.index[name] for name in others - needed if name in graph.index]
    return {number for number in numbers if is_without_place(graph.rows[number])}


def is_without_place(row: Tree) -> bool:
    is_bare = row["frames"] in ([], [row["name"]])
    return is_bare and not (row["wakers"] or row["site"] or row["operation"] or row["thread"])


def known_by(lists: List[List[int]], indices: Iterable[int]) -> Dict[int, Tuple[int, ...]]:
    """Returns for some processes what those have in common whose lists are equal. Where three or more have each the
    others in their lists, or all of them, these are equal too."""
    closed = {index: tuple(sorted({*lists[index], index})) for index in indices if len(lists[index]) > 1}
    counts = Counter(closed.values())
    return {index: closed[index] if index in closed and counts[closed[index]] > 2 else tuple(lists[index])
            for index in indices}


def count(rows: Dict[PicturePart, List[Row]]) -> int:
    return sum(map(len, rows.values()))
