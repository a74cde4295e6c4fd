"""What a picture of a stall shows: boxes, each one process or several that are folded, the arrows between them, and
the sentence above. How it is drawn is for `dot` and `svg`, or `layers` and `layers_svg`."""
from __future__ import annotations

import re
from collections import Counter
from functools import cached_property
from typing import Collection, Dict, Iterator, List, NamedTuple, Optional, Set, Tuple

from ..core.files import short_name, shown
from ..core.sketch import ALL, ANY
from ..core.words import number_of
from .arrow_words import by_first, coverage_of, far_words, words_of
from .captions import cure, headline, restarts
from .folding import (BEHIND, FREE, MORE, MOST, OPEN, OVER, ROOT, RUNNING, SHARED, SMALL, SORTS, UNDECIDED, Folding,
                      Row, PicturePart, stand_for_others)
from .wait_graph import WaitGraph

NAMES, ARROWS, WAYS = 3, 6, 2  # of a box: names, arrows, and those of several behind a root
PART = 4  # one of so many at a place is a good part of a box
ENDS = 12  # of each end of a chain, as many have a box of their own
AROUND = 5  # names of a cycle
PLACE = re.compile(r"\(([^()\s]+:\d+)\)")
MESSAGE = "message"  # the style of an arrow, beside ANY and ALL
ANSWERS = ((ROOT, BEHIND, SHARED, MORE), (UNDECIDED, OPEN), (FREE, RUNNING, OVER))


class Box(NamedTuple):
    """One process, or several that are folded. `lines` are its text, but for its site; `is_at_one_site` says that they
    have one, if there are several."""

    number: int
    part: PicturePart
    members: Row
    lines: List[str]
    site: str
    is_at_one_site: bool

    def text(self, has_site: bool = True) -> List[str]:
        """Returns its lines with its site, if that is told, behind its name."""
        return [*self.lines[:1], *([f"on {self.site}"] if has_site and self.site else []), *self.lines[1:]]


class Arrow(NamedTuple):
    """From a box to one that it waits for, or, if `to_root`, to several of the root that this is in, also through
    others if `is_far`. A message goes the other way, from its sender to its receiver. `words` say how many have whom,
    if not all have all."""

    start: int
    end: int
    style: str
    to_root: bool = False
    words: str = ""
    is_far: bool = False


class Picture:
    """The boxes and arrows of all processes, or of the chain of the one that is asked for, with all of the root that it
    ends in. If `is_whole`, nothing is folded or left out; else there are at most `most` boxes, and who only stands for
    others has none."""

    def __init__(self, graph: WaitGraph, is_whole: bool = False, most: int = MOST) -> None:
        self.graph, self.is_whole = graph, is_whole
        chain = graph.numbers(graph.tree["why"]["chain"]) if graph.tree["why"] else []
        self.asked = chain[0] if chain else None
        drawn = self.with_root(chain) if chain else list(range(graph.number))
        others = set() if is_whole else stand_for_others(graph).difference(chain)
        self.stand_ins = len(others.intersection(drawn)) if not others.issuperset(drawn) else 0
        drawn = [number for number in drawn if number not in others] if self.stand_ins else drawn
        self.has_sites = len({row["site"] for row in graph.rows}) > 1
        rows = Folding(graph, drawn, {*chain[:ENDS], *chain[-ENDS:]}, is_whole, most).rows()
        self.boxes = [self.box(number, part, row) for number, (part, row) in enumerate(rows)]
        self.box_of = {member: box.number for box in self.boxes for member in box.members}
        self.restarts = restarts(graph)
        self.pairs = list(self.in_transit())
        self.left_out = 0  # arrows that aren't drawn
        self.within: Set[int] = set()  # boxes of which some wait for others in them, with no arrow for that
        self.arrows = [arrow._replace(words=self.words_of(arrow))
                       for arrow in (*self.waits_of_boxes(), *self.messages())]
        self.ring = self.places_in_rings()

    def places_in_rings(self) -> Dict[int, Tuple[int, int]]:
        """Returns of each box of a root that is a ring of three or more, none of which is folded, its place in the ring
        and the length of that."""
        places: Dict[int, Tuple[int, int]] = {}
        for number in {box.part.root for box in self.boxes if box.part.sort == ROOT}:
            members = self.graph.roots[number or 0] if self.graph.is_cycle(number or 0) else []
            boxes = [self.box_of[member] for member in members if member in self.box_of]
            if 2 < len(members) == len(set(boxes)) and all(len(self.boxes[box].members) == 1 for box in boxes):
                places.update((box, (place, len(boxes))) for place, box in enumerate(boxes))
        return places

    def turn(self, arrow: Arrow) -> int:
        """Returns where an arrow within a root leads: 1 away from its first box, as nearly all do, -1 back to it, or 0
        where a ring turns."""
        if arrow.start not in self.ring or arrow.end not in self.ring:
            return 1
        (start, length), (end, _) = self.ring[arrow.start], self.ring[arrow.end]
        far, near = min(end, length - end), min(start, length - start)
        return (far > near) - (far < near)

    def with_root(self, chain: Row) -> Row:
        """Returns a chain with all of the root that it ends in."""
        number = self.graph.rows[chain[-1]]["root"]
        return list(dict.fromkeys([*chain, *(self.graph.roots[number - 1] if number else [])]))

    def caption(self) -> str:
        """Returns the sentence above."""
        if self.asked is None:
            return headline(self.graph)
        return f"{self.graph.name(self.asked)}: {self.graph.answer(self.asked)}"

    @cached_property
    def cure(self) -> str:
        """What to do first, or nothing."""
        return cure(self.graph, self.restarts) if self.asked is None else ""

    def root_lines(self, number: int) -> List[str]:
        """Returns what stands above a root: how many are in it and behind it, who waits for whom around, and what can
        be restarted, if that isn't said above."""
        members, row = self.graph.roots[number], self.graph.tree["roots"][number]
        circle = f"{len(members):,} {'in a circle' if row['is_cycle'] else 'wait for each other'}"
        head, behind = circle if members[1:] else "nobody can unblock it", len(row["behind"])
        likely = "" if row["is_certain"] else ", likely"
        lines = [f"Root {number + 1}{likely}: {head}{f', {behind:,} behind it' if behind else ''}", self.around(number)]
        return [*filter(None, lines), *([] if self.cure else [self.restarts[number]])]

    def around(self, number: int) -> str:
        """Returns who waits for whom in a root, each with its line of source: all of it if it is one cycle."""
        members = self.graph.roots[number]
        cycle = members if self.graph.is_cycle(number) else self.graph.shortest_cycle(number)
        names = [self.name_with_line(index) for index in cycle[:AROUND]]
        if not names[1:]:
            return f"{names[0]} waits for itself" if names else ""
        names += [f"{len(cycle) - AROUND:,} more"] if cycle[AROUND:] else []
        return f"{'' if len(cycle) == len(members) else 'in it: '}{' → '.join([*names, self.graph.name(cycle[0])])}"

    def name_with_line(self, index: int) -> str:
        """Returns the name of one with its line of source, if that is known."""
        row = self.graph.rows[index]
        place = PLACE.search((row["frames"] or [row["note"]])[0])
        return f"{self.graph.name(index)} ({shown(place[1])})" if place else self.graph.name(index)

    # Boxes

    def box(self, number: int, part: PicturePart, members: Row) -> Box:
        lines = self.lines_of_one(part, members[0]) if len(members) == 1 else self.lines_of_many(part, members)
        sites = {self.graph.rows[member]["site"] for member in members}
        named = [site_words(site) for site in sites if site is not None] if self.has_sites else []
        site = f"{len(named):,} sites" if named[1:] else "".join(named if len(sites) == 1 else [])
        return Box(number, part, members, [line for line in lines if line], site, len(sites) == 1)

    def lines_of_one(self, part: PicturePart, index: int) -> List[str]:
        graph, row = self.graph, self.graph.rows[index]
        reason = shown(row["reason"])
        state = {OPEN: f"unknown: {reason}" if reason else "unknown", OVER: graph.answer(index),
                 RUNNING: f"runs: {reason}" if reason else "runs",
                 FREE: graph.goes_on_words(index) if row["goes_on"] is not None else ""}
        return [graph.name(index), graph.note(index), state.get(part.sort, "")]

    def lines_of_many(self, part: PicturePart, members: Row) -> List[str]:
        if part.sort == MORE:
            return self.lines_of_more(members)
        if len(members) <= NAMES:
            return [", ".join(map(self.graph.name, members)), self.place_of(members)]
        shown_ones = self.examples(members)
        names = ", ".join(map(self.graph.name, shown_ones))
        number = f"{len(members):,}"
        unknown = "an unknown one" if len(self.graph.tree["unknown"]) == 1 else "unknown ones"
        head = {ROOT: f"{number} processes", BEHIND: f"+{number} behind root {(part.root or 0) + 1}",
                SHARED: f"+{number} behind several roots", UNDECIDED: f"{number} hang on {unknown}",
                OPEN: f"{number} unknown", FREE: f"{number} not stuck", RUNNING: f"{number} run",
                OVER: f"{number} have ended"}[part.sort]
        return [head, self.place_of(members), f"{names} and {len(members) - len(shown_ones):,} more"]

    def lines_of_more(self, members: Row) -> List[str]:
        rows = [self.graph.rows[member] for member in members]
        inside = sum(row["root"] is not None for row in rows)
        numbers = {(row["root"] or row["behind"][0]) - 1 for row in rows}
        notes = {number: sorted(map(self.graph.note, self.graph.roots[number])) for number in (0, *numbers)}
        like = " like root 1" if all(notes[number] == notes[0] for number in numbers) else ""
        return [f"{number_of(len(numbers), 'root', 'roots')} more{like}", f"{number_of(inside)} in them",
                f"{len(members) - inside:,} stuck behind one of them"]

    def examples(self, members: Row) -> Row:
        """Returns a few of a box that are named: of those that stand where most do, if that is said."""
        notes = [*map(self.graph.note, members)]
        (often, _), = Counter(notes).most_common(1)
        return [member for member, note in zip(members, notes) if note == often][:NAMES]

    def place_of(self, members: Row) -> str:
        """Returns where those of a box stand: what all or many have as their note, or as their line, or how many
        places."""
        notes, rows = [*map(self.graph.note, members)], [self.graph.rows[member] for member in members]
        if not any(notes):
            return most_of([shown(row["reason"]) for row in rows], "for {:,} reasons", "reason")
        lines = {shown(frame) for row in rows for frame in row["frames"][:1]}
        is_one_line = len(lines) == 1 and len(set(notes)) > 1
        return f"at {lines.pop()}" if is_one_line else most_of(notes, "at {:,} places", "place")

    # Arrows

    def waits_of_boxes(self) -> List[Arrow]:
        by_kind: Dict[Tuple[int, str], Dict[int, None]] = {}
        lists: Dict[int, List[int]] = {}
        for box in self.boxes:
            for member in box.members if box.part.sort != MORE else ():
                ends = by_kind.setdefault((box.number, self.graph.kind(member)), {})
                ends.update(dict.fromkeys(self.ends_of(member, lists)))
        return [arrow for (start, style), ends in by_kind.items() for arrow in self.arrows_of(start, style, list(ends))]

    def ends_of(self, index: int, lists: Dict[int, List[int]]) -> List[int]:
        """Returns the boxes of those that one waits for. `lists` keeps those of the lists that several share."""
        nodes = self.graph.successors[index]
        for node in nodes:
            if node >= self.graph.number and node not in lists:
                lists[node] = list(dict.fromkeys(self.boxes_of(self.graph.successors[node])))
        return [box for node in nodes for box in lists.get(node) or self.boxes_of([node])]

    def boxes_of(self, members: Row) -> List[int]:
        return [self.box_of[member] for member in members if member in self.box_of]

    def arrows_of(self, start: int, style: str, ends: List[int]) -> List[Arrow]:
        """Returns the arrows from a box: if several behind a root wait for many boxes, one to that. A large picture has
        only those between boxes of the same answer, and of these at most a few."""
        if self.is_whole:
            return [Arrow(start, end, style) for end in ends]
        box = self.boxes[start]
        arrows = self.arrows_to(start, style, self.ends_that_tell(start, ends))
        if box.part.sort == BEHIND and len(box.members) > 1 and len(arrows) > WAYS:
            return [Arrow(start, self.first_of_root(box.part.root), style, True, is_far=True)]
        return arrows if len(self.boxes) <= SMALL else self.cut_arrows(start, arrows)

    def arrows_to(self, start: int, style: str, ends: List[int]) -> List[Arrow]:
        """Returns the arrows from a box to some: one to a root as a whole if it waits for several boxes of it."""
        ends = self.ends_beside(start, ends)
        own, of = self.boxes[start].part, {end: self.boxes[end].part for end in ends}
        counts = Counter(of.values())
        first = {of[end]: end for end in reversed(ends)
                 if of[end].sort == ROOT and of[end] != own and counts[of[end]] > 1}
        arrows = [Arrow(start, first[part], style, True) for part in counts if part in first]
        return arrows + [Arrow(start, end, style) for end in ends if of[end] not in first]

    def ends_beside(self, start: int, ends: List[int]) -> List[int]:
        """Returns the boxes that some of a box wait for, but for itself: that is told of a root, or if it's all."""
        is_folded = len(self.boxes[start].members) > 1
        if start not in ends or (self.boxes[start].part.sort == ROOT if is_folded else ends == [start]):
            return ends
        self.within.update([start] if is_folded else [])
        return [end for end in ends if end != start]

    def ends_that_tell(self, start: int, ends: List[int]) -> List[int]:
        """Returns the boxes to which a box that isn't stuck has arrows: of a picture in which some are folded, none of
        the stuck, for these don't tell why it goes on."""
        if len(self.boxes) == len(self.box_of) or answer_of(self.boxes[start]) != len(ANSWERS) - 1:
            return ends
        kept = [end for end in ends if answer_of(self.boxes[end])]
        self.left_out += len(ends) - len(kept)
        return kept

    def first_of_root(self, number: Optional[int]) -> int:
        """Returns the first box of a root."""
        return next(box.number for box in self.boxes if box.part == PicturePart(ROOT, number))

    def cut_arrows(self, start: int, arrows: List[Arrow]) -> List[Arrow]:
        """Returns the arrows from a box that a large picture has."""
        kept = [arrow for arrow in arrows if answer_of(self.boxes[arrow.end]) == answer_of(self.boxes[start])]
        kept = sorted(kept, key=lambda arrow: SORTS.index(self.boxes[arrow.end].part.sort))[:ARROWS]
        self.left_out += len(arrows) - len(kept)
        return kept

    def messages(self) -> List[Arrow]:
        """Returns the messages in transit that end a wait."""
        pairs = dict.fromkeys((self.box_of[sender], self.box_of[receiver]) for sender, receiver in self.pairs)
        return [Arrow(start, end, MESSAGE) for start, end in pairs]

    def in_transit(self) -> Iterator[Tuple[int, int]]:
        """Yields who has sent whom a message that is in transit and ends a wait."""
        for sender, receiver in map(self.graph.numbers, self.graph.tree["in_transit"]):
            if sender in self.box_of and receiver in self.box_of and self.ends_wait(sender, receiver):
                yield sender, receiver

    def ends_wait(self, sender: int, receiver: int) -> bool:
        """Whether a message of one ends the wait of another, or its wait for that one."""
        graph = self.graph
        name, row = graph.rows[sender]["name"], graph.rows[receiver]
        return name in row["in_transit_from"] or graph.is_for_all(receiver) and \
            any(name in graph.names_of(wakers) for part in row["wakers"] for wakers in part)

    # Words

    def words_of(self, arrow: Arrow) -> str:
        """Returns how many have whom, if not all have all."""
        start, box = self.boxes[arrow.start].members, self.boxes[arrow.end]
        end = self.graph.roots[box.part.root or 0] if arrow.to_root else box.members
        if len(start) == len(end) == 1:
            return ""
        if arrow.is_far:
            return far_words(coverage_of(self.lists_of(start, arrow.style), end).number, len(start))
        return words_of(coverage_of(self.lists_of(start, arrow.style), end), len(start), len(end), arrow.style != ANY)

    def lists_of(self, members: Row, style: str) -> List[Tuple[Row, Collection[int], bool]]:
        """Returns whom some have, those that share a list once, and whether a list is of one alone."""
        if style == MESSAGE:
            sent = by_first(self.pairs)
            return [([member], sent.get(member, []), True) for member in members]
        graph, waiting = self.graph, [member for member in members if self.graph.kind(member) == style]
        lists = by_first((node, member) for member in waiting for node in [graph.list_of(member)] if node is not None)
        own = [([member], graph.without_lists(graph.successors[member]), True) for member in waiting
               if graph.list_of(member) is None]
        return [*own, *((row, graph.successors[node], False) for node, row in lists.items())]

    def sentences(self) -> Iterator[str]:
        """Yields in words what the arrows say."""
        rows: Dict[Tuple[int, str], List[str]] = {}
        for arrow in self.arrows:
            rows.setdefault((arrow.start, arrow.style), []).append(self.end_words(arrow))
        for (start, style), ends in rows.items():
            verb = "has a message in transit to" if style == MESSAGE else "needs" if style == ALL else "waits for"
            is_one = len(self.boxes[start].members) == 1
            several = {MESSAGE: "", ALL: " each of"}.get(style, " any of") if ends[1:] and is_one else ""
            yield f"{self.boxes[start].lines[0]} {verb}{several} {', '.join(ends)}."

    def end_words(self, arrow: Arrow) -> str:
        box = self.boxes[arrow.end]
        name = f"root {(box.part.root or 0) + 1}" if arrow.to_root else box.lines[0]
        return f"{name} ({arrow.words})" if arrow.words else name


def site_words(site: str) -> str:
    """Returns what a site is called: a name alone could be anything, and several words say what it is."""
    return short_name(site) if " " in site else f"site {short_name(site)}"


def most_of(texts: List[str], several: str, one: str) -> str:
    """Returns what all texts are, or a good part of them, and how many others there are."""
    counts = Counter(texts)
    first, number = counts.most_common(1)[0]
    if len(counts) == 1:
        return first
    if number * PART < len(texts) or not first:
        return several.format(len(counts))
    return f"{first}: {number:,}, and {number_of(len(counts) - 1, f'other {one}', f'other {one}s')}"


def answer_of(box: Box) -> int:
    """Returns which answer a box has: stuck, undecided, or not stuck."""
    return next(place for place, sorts in enumerate(ANSWERS) if box.part.sort in sorts)
