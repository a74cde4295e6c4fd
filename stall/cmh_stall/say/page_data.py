"""What the script of a page knows: of each row what it is and whom it waits for, by numbers, with each text once."""
from __future__ import annotations

import json
from typing import Any, Dict, Iterable, Iterator, List, Sequence, Tuple, Union

from ..core.files import MOST_OF_LINE, shown
from ..core.sketch import ALL, ANY, ENDED, RUNS, UNKNOWN
from .picture import Picture
from .view import LIKELY, NOT_STUCK, STUCK, UNDECIDED, Tree, View

VERDICTS = [STUCK, LIKELY, UNDECIDED, NOT_STUCK, ENDED]
KINDS = {ANY: 1, ALL: 2}
MOST = 300_000  # numbers in all lists of those that are waited for
FIRST = 5  # of a list, as many are there in any case
FRAMES = 20  # of a process, in its own part
WORDS = {"system": "what the system keeps", "by hand": "the sketch", "an older version": "an older version"}
Whom = Union[int, List[int]]


class Texts:
    """Texts, as people are shown them, with their numbers. An empty one is number 0."""

    def __init__(self) -> None:
        self.known: Dict[str, int] = {"": 0}

    def number(self, text: str) -> int:
        return self.known.setdefault(shown(text), len(self.known))

    def numbers(self, texts: Iterable[str]) -> List[int]:
        return [*map(self.number, texts)]


class Data:
    """The data of the rows of an answer, which are the processes of `order`. `steps` has the next one on the way from
    each, `anchors` those of facts and premises, and `changes` what became of some since an older answer."""

    def __init__(self, view: View, order: Sequence[int], steps: Dict[int, int], anchors: Dict[str, int],
                 changes: Dict[str, str]) -> None:
        self.view, self.order, self.steps, self.anchors, self.changes = view, order, steps, anchors, changes
        self.rows = [view.rows[index] for index in order]
        self.place = {index: row for row, index in enumerate(order)}
        self.texts = Texts()
        self.reasons: Dict[str, int] = {}
        self.left = MOST
        self.lists: List[List[int]] = []
        self.list_of: Dict[str, int] = {}

    def tree_of(self, picture: Picture) -> Tree:
        """Returns all of it, with the boxes and arrows of a picture."""
        columns = {**self.answers(), **self.waits(), **self.ways(), **self.frames()}
        return {**columns, "alike": alike(columns), "lists": self.lists, "roots": len(self.view.roots),
                "verdicts": VERDICTS, "texts": list(self.texts.known), **self.picture_columns(picture),
                "reasons": [[shown(words), self.anchors.get(key, -1)] for key, words in self.reason_words()]}

    # The columns. Those of a few rows alone have these by their numbers.

    def answers(self) -> Tree:
        names = [*map(self.view.name, self.order)]
        return {
            "names": names,
            "numbers": list(self.order),
            "full": {number: row["name"] for number, row in enumerate(self.rows)
                     if row["name"] != names[number] and len(row["name"]) <= MOST_OF_LINE},
            "verdict": [VERDICTS.index(row["verdict"]) for row in self.rows],
            "answer": self.texts.numbers(map(self.view.answer, self.order)),
            "root": [row["root"] or 0 for row in self.rows],
            "behind": [row["behind"][0] if len(row["behind"]) == 1 else row["behind"] or 0 for row in self.rows],
        }

    def waits(self) -> Tree:
        return {
            "site": self.texts.numbers(row["site"] or "" for row in self.rows),
            "place": self.texts.numbers(row["note"] for row in self.rows),
            "kind": [KINDS.get(row["kind"], 0) for row in self.rows],
            "whom": [*map(self.whom, self.rows)],
            "said": self.texts.numbers(said_of(self.view, index) for index in self.order),
            "sent": {number: self.places(row["in_transit_from"]) for number, row in enumerate(self.rows)
                     if row["in_transit_from"]},
        }

    def ways(self) -> Tree:
        return {
            "next": [self.place.get(self.steps.get(index, -1), -1) for index in self.order],
            "end": self.texts.numbers(end_words(self.view, index) for index in self.order),
            "rests": [*map(self.rests, self.rows)],
            "change": self.texts.numbers(self.changes.get(row["name"], "") for row in self.rows),
        }

    def frames(self) -> Tree:
        return {
            "operation": self.texts.numbers(row["operation"] for row in self.rows),
            "frames": {number: self.texts.numbers(row["frames"][:FRAMES]) for number, row in enumerate(self.rows)
                       if row["frames"]},
            "thread": {number: row["thread"] for number, row in enumerate(self.rows) if row["thread"]},
        }

    def reason_words(self) -> Iterator[Tuple[str, str]]:
        for key in self.reasons:
            yield key, WORDS.get(key) or key.partition(" ")[2]

    def places(self, names: Sequence[str]) -> List[int]:
        return [self.place[index] for index in self.view.numbers(names) if index in self.place]

    def whom(self, row: Tree) -> Whom:
        """Returns the rows of those that one waits for, or the number of the list that has them. What the page hasn't
        is counted at the end, below 0."""
        shared = row["waits_for_list"]
        if row["waits_for"] or shared is None:
            return self.cut(row["waits_for"])
        if shared not in self.list_of:
            self.list_of[shared] = len(self.lists)
            self.lists.append(self.cut(self.view.list_named(shared)))
        return self.list_of[shared]

    def cut(self, names: Sequence[str]) -> List[int]:
        rows = self.places(names)
        rows = rows if self.view.everything or len(rows) <= self.left else rows[:FIRST]
        self.left -= len(rows)
        return [*rows, len(rows) - len(names)] if len(rows) < len(names) else rows

    def rests(self, row: Tree) -> Whom:
        """Returns the numbers of the reasons of a row, or that of a text that says why."""
        numbers = [self.reasons.setdefault(reason, len(self.reasons)) for reason in row["rests_on"]]
        return numbers or self.texts.number(row["reason"] or "")

    def picture_columns(self, picture: Picture) -> Tree:
        arrows = [[arrow.start, [arrow.end] if not arrow.to_root else
                   [box.number for box in picture.boxes if box.part == picture.boxes[arrow.end].part]]
                  for arrow in picture.arrows]
        return {"box": [picture.box_of.get(index, -1) for index in self.order], "arrows": arrows,
                "boxes": [[shown(line, MOST_OF_LINE) for line in box.text()] for box in picture.boxes]}


def said_of(view: View, index: int) -> str:
    """Returns in words why one waits for nobody, or nothing if it waits."""
    row = view.rows[index]
    if row["kind"] not in KINDS:
        return view.wait(index)
    if row["waits_for"] or view.tree["lists"].get(row["waits_for_list"]):
        return ""
    return "can never be unblocked" if row["kind"] == ANY else "has all that it waited for"


def end_words(view: View, index: int) -> str:
    """Returns what is at the end of a way."""
    row = view.rows[index]
    if row["root"]:
        return f"in root {row['root']}"
    if row["kind"] in (UNKNOWN, RUNS, ENDED):
        return view.answer(index)
    return view.goes_on_words(index) if row["goes_on"] else ""


def alike(columns: Dict[str, Any]) -> List[int]:
    """Returns for each row the number of those that are like it: of the same answer at the same place, which wait for
    such of the same answer at the same place."""
    own = list(zip(columns["answer"], columns["site"], columns["place"], columns["kind"]))
    known: Dict[object, int] = {}
    numbers: List[int] = []
    for row, whom in enumerate(columns["whom"]):
        others = frozenset(own[other] for other in whom if other >= 0) if isinstance(whom, list) else whom
        key = own[row], columns["said"][row], others, str(columns["rests"][row])
        numbers.append(known.setdefault(key, len(known)))
    return numbers


def text_of_data(tree: Tree) -> str:
    """Returns data as JSON of ASCII alone, in which nothing ends an element or begins one."""
    text = json.dumps(tree, separators=(",", ":"))
    return text.replace("<", "\\u003c").replace(">", "\\u003e").replace("&", "\\u0026")
