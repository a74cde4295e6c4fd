"""Makes the two dumps of a sketch: low, with unknown ones active, and high, with unknown ones idle for good.

Names that the program refuses are made acceptable and stay apart. A sketch above the program's limits is made to fit
them (`reduction`), as far as that goes.
"""
from __future__ import annotations

import json
import re
from functools import cached_property
from typing import Any, Dict, List, NamedTuple, Optional, Sequence, Set

from .doubts import Doubt, Likely
from .limits import DEPENDENTS, ENTRIES, LONGEST
from .reduction import Reduction
from .roots import Knots
from .sketch import Sketch
from .sketch_json import text_of_rows, text_of_sketch
from .stuck import Answer, Waits

NAME = re.compile(rf"[A-Za-z0-9][A-Za-z0-9_.:/-]{{0,{LONGEST - 1}}}")
NO_SITE = "no-site"
MARK = "made-by-cmh-dump"  # a site of each dump that these tools make, mostly one without processes
HUB = "list"
TOO_LARGE = "not confirmed by cmh: too large, as {:,} processes with {:,} names are left, and it takes " \
    f"{ENTRIES:,} with {DEPENDENTS:,}"


def program_names(names: List[str]) -> Dict[str, str]:
    """Returns for each name, which stands once, a name that the program accepts: itself if it can be."""
    named = {name: name for name in names if NAME.fullmatch(name)}
    taken = set(named)
    numbers: Dict[str, int] = {}
    for name in names:
        if name in named:
            continue
        stem = re.sub(r"[^A-Za-z0-9_.:/-]+", "-", name).strip("-")
        stem = re.sub(r"^[^A-Za-z0-9]+", "", stem)[:LONGEST - 8] or "unnamed"
        new = stem
        while new in taken:
            numbers[stem] = numbers.get(stem, 1) + 1
            new = f"{stem}.{numbers[stem]}"
        named[name] = new
        taken.add(new)
    return named


def mark_sites(rows: List[Dict[str, Any]]) -> List[str]:
    """Returns the sites of the rows of a dump, and the mark. Without room for one more the last one is called so."""
    sites = {row["site"] for row in rows}
    if MARK not in sites and len(sites) >= ENTRIES:
        last = max(sites)
        sites.remove(last)
        for row in rows:
            row["site"] = MARK if row["site"] == last else row["site"]
    return sorted({*sites, MARK})


def is_marked(tree: Any) -> bool:
    """Whether a dump, or its tree, says that these tools have made it."""
    sites = tree.get("sites") if isinstance(tree, dict) else None
    return isinstance(sites, list) and MARK in sites


def without_mark(tree: Any) -> Any:
    """Returns the tree of a dump as versions up to 1.2.0 made it."""
    return {**tree, "sites": [site for site in tree["sites"] if site != MARK]} if is_marked(tree) else tree


class LikelyAnswer(NamedTuple):
    """The dump of a likely answer, and the doubts on which it hangs. `likely` has the keys of these in the order of
    their numbers, also of those that are none any more."""

    dump: Dump
    doubts: List[Doubt]
    likely: Likely


class Dump:
    """The dumps of a sketch. `kept` are the indices of those in them, `left_out` of those that aren't, and `folded` has
    who stands for each of the others. `named` has the names in the dump, also of hubs, and `known` the keys of doubts
    in the order of their numbers."""

    def __init__(self, sketch: Sketch, known: Sequence[str] = (), certain: Optional[Dump] = None,
                 waits: Optional[Waits] = None) -> None:
        self.sketch, self.known = sketch, known
        self.waits = waits or Waits(sketch)
        self.kept_likely: Optional[LikelyAnswer] = None
        self.texts: Dict[bool, str] = {}  # by whether they are of the high answer
        sites = dict.fromkeys(process.site for process in sketch.processes if process.site is not None)
        self.names: Dict[str, str] = certain.names if certain else program_names(
            [process.name for process in sketch.processes])
        self.sites: Dict[str, str] = certain.sites if certain else program_names(list(sites))
        self.no_site = NO_SITE
        while self.no_site in self.sites.values():
            self.no_site += "-"
        self.taken = set(self.names.values())
        hubs = len(self.waits.left) - self.waits.number
        self.named = [*(self.names[process.name] for process in sketch.processes),
                      *(self.new_name(f"{HUB}-{number}") for number in range(1, hubs + 1))]
        self.low = self.waits.low()
        self.high = self.waits.high(self.low)
        self.cut = Reduction(self.waits)
        self.kept, self.left_out, self.folded = self.cut.kept, self.cut.left_out, self.cut.folded
        self.is_too_large = self.cut.is_too_large

    # The likely answer

    def likely_answer(self) -> LikelyAnswer:
        """Returns the likely answer. Its dump is this one where nobody is likely to be stuck and not certain to be."""
        if self.kept_likely is None:
            likely = Likely(self.waits, self.known)
            self.kept_likely = LikelyAnswer(self, [], likely)
            if likely.numbers:
                sketch = likely.sketch(self.sketch)
                dump = Dump(sketch, (), self, self.waits.without_doubts(sketch, likely.numbers.values()))
                members = dump.knots.in_roots()
                doubts = likely.doubts({self.waits.processes[index].name for index in members})
                self.kept_likely = LikelyAnswer(dump, doubts, likely)
        return self.kept_likely

    @property
    def likely(self) -> Dump:
        return self.likely_answer().dump

    @property
    def doubts(self) -> List[Doubt]:
        return self.likely_answer().doubts

    @cached_property
    def knots(self) -> Knots:
        """Those who wait for each other, of all who are stuck."""
        return Knots(self.waits, self.low.members())

    # The dump

    def new_name(self, name: str) -> str:
        """Returns the name of an added process, which no other one has."""
        while name in self.taken:
            name += "-"
        return name

    def site(self, index: int) -> str:
        """Returns the site of one in the dump. That of a hub is the site of one that waits for it, through other hubs
        too."""
        while index >= self.waits.number:
            index = self.waits.waiters[index][0]
        site = self.waits.processes[index].site
        return self.no_site if site is None else self.sites[site]

    def tree(self, answer: Answer) -> Dict[str, Any]:
        """Returns the dump with the picks of an answer, which is `low` or `high`, as a tree of JSON."""
        rows, pairs = [self.row(index, answer) for index in self.kept], self.pairs(answer)
        return {"version": 2 if pairs else 1, "sites": mark_sites(rows), "processes": rows,
                **({"in_transit": pairs} if pairs else {})}

    def text(self, answer: Answer) -> str:
        """Returns the text of this tree, with a line for each process, made once."""
        key = answer is self.high
        if key not in self.texts:
            tree = self.tree(answer)
            lines, sites = text_of_rows(tree["processes"]), json.dumps(tree["sites"])
            more = f',\n"in_transit":{json.dumps(tree["in_transit"])}' if "in_transit" in tree else ""
            self.texts[key] = \
                f'{{"version":{tree["version"]},"sites":{sites},"processes":[\n  {lines}]{more}}}\n'
        return self.texts[key]

    def row(self, index: int, answer: Answer) -> Dict[str, Any]:
        """Returns the row of a process."""
        row: Dict[str, Any] = {"name": self.named[index], "site": self.site(index)}
        others = self.cut.dependents(index, answer)
        if others is None:
            return {**row, "state": "active"}
        return {**row, "state": "idle", "dependents": [self.named[other] for other in others]}

    def pairs(self, answer: Answer) -> List[List[str]]:
        """Returns the messages that unblock their receiver: all, or if that is too many one for each receiver."""
        rows = []
        for index in filter(self.waits.senders.__getitem__, self.kept):
            senders = set(map(self.cut.stands_for, self.waits.senders[index]))
            there = senders.intersection(self.cut.dependents(index, answer) or ())
            rows.append([[self.named[sender], self.named[index]] for sender in sorted(there)])
        pairs = [pair for row in rows for pair in row]
        return pairs if len(pairs) <= ENTRIES else [row[0] for row in rows if row]

    def stuck_names(self, answer: Answer) -> Set[str]:
        """Returns whom the program has to call deadlocked in the dump."""
        return {self.named[index] for index in self.kept if answer.is_stuck(index)}

    def cut_lines(self) -> List[str]:
        """Returns in words what became of those that the dump hasn't as they are."""
        rows = [(len(self.left_out), "process", "processes", "that nobody waits for {} not in it"),
                (len(self.folded), "process", "processes", "{} folded into a twin"),
                (sum(index >= self.waits.number for index in self.kept), "list", "lists",
                 "that several share {} a process of the dump")]
        return [f"{number:,} {one if number == 1 else many} {text.format('is' if number == 1 else 'are')}"
                for number, one, many, text in rows if number]

    def unconfirmed(self) -> str:
        """Returns in words that the program doesn't confirm it, if it is too large for that."""
        return TOO_LARGE.format(len(self.kept), self.cut.names) if self.is_too_large else ""

    def notes(self, **about: object) -> str:
        """Returns the text of the notes: the sketch, what became of its names and processes, and what `about` says."""
        named, keys = [process.name for process in self.sketch.processes], self.likely_answer().likely.keys
        more: Dict[str, object] = {
            "names": {name: new for name, new in self.names.items() if name != new},
            "sites": {site: new for site, new in self.sites.items() if site != new},
            "left_out": [named[index] for index in self.left_out],
            "folded": {named[index]: named[one] for index, one in self.folded.items()},
            **({"doubts": keys} if keys else {}),
            **about,
        }
        lines = "".join(f",\n{json.dumps(key)}: {json.dumps(value)}" for key, value in more.items())
        return f'{{"sketch": {text_of_sketch(self.sketch)}{lines}}}\n'
