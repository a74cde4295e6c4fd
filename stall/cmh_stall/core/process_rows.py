"""The rows of the processes in an answer's tree, and the lists of wakers that several of them share."""
from __future__ import annotations

import re
from collections import Counter
from functools import lru_cache
from typing import Any, Dict, List, Optional, Sequence, Tuple

from .findings import COME, LIKELY, MESSAGE, NOT_STUCK, RUNNING, STUCK, UNDECIDED, Findings
from .model import Anybody, Part, Sign, Strength, Wakers
from .nearness import MAY_HAVE
from .sketch import ALL, ANY, ENDED, UNKNOWN, Process
from ..systems import all_described, described
from .words import first_words

NOBODY: List[str] = []  # stands in all rows that name nobody, as there may be very many
LONG = 20  # names in a list; one that is longer stands once, if several waits have it
UNSHOWN = frozenset(MAY_HAVE)
SIGNS = {sign: sign.value for sign in Sign}  # (the property takes longer)
STRENGTHS = {strength: strength.value for strength in Strength}
Tree = Dict[str, Any]


class SharedLists:
    """The lists of wakers that are long and stand in several waits, each once with a name, which is that of its hub if
    it has one."""

    def __init__(self, processes: Sequence[Process], hubs: Dict[int, str]) -> None:
        found = [wakers for process in processes for part in process.parts for wakers in part]
        counts = Counter(id(wakers.who) for wakers in found)
        self.lists = {id(wakers.who): wakers.names() for wakers in found
                      if counts[id(wakers.who)] > 1 and len(wakers.names()) > LONG}
        self.called = {key: hubs.get(key) or f"wakers {number}" for number, key in enumerate(self.lists, 1)}
        self.rows: Dict[object, Any] = {}  # of waits that are alike, as there may be very many, by what they have

    def names(self) -> Dict[str, List[str]]:
        return {self.called[key]: list(names) for key, names in self.lists.items()}

    def wait(self, parts: Sequence[Part]) -> List[List[Tree]]:
        """Returns the rows of a wait, which those share that are alike."""
        if len(parts) != 1 or len(parts[0]) != 1 or len(parts[0][0].names()) > LONG:
            return [[*map(self.row, part)] for part in parts]
        key = (isinstance(parts[0][0].who, Anybody), *parts[0][0].names()), parts[0][0][1:]
        if key not in self.rows:
            self.rows[key] = [[self.row(parts[0][0])]]
        rows: List[List[Tree]] = self.rows[key]
        return rows

    def row(self, wakers: Wakers) -> Tree:
        """Returns the row of some wakers: their names, null for anybody, or the name of their list."""
        names = None if isinstance(wakers.who, Anybody) else list(wakers.who) if id(wakers.who) not in self.lists else \
            self.called[id(wakers.who)]
        return {"who": names, "how": wakers.how, "strength": STRENGTHS[wakers.strength],
                "because": list(wakers.because)}


class Rows:
    """There may be very many, so that each is made with few calls."""

    def __init__(self, found: Findings) -> None:
        self.found, self.waits, self.number = found, found.waits, found.waits.number
        self.wakers = [process.parts for process in found.original.sketch.processes]
        self.shared = SharedLists(found.original.sketch.processes,
                                  {key: self.list_name(node) for key, node in self.waits.hubs.items()})
        self.names = [process.name for process in self.waits.processes]
        self.has_own_kinds = not (self.waits.done or found.dump.sketch.in_transit)  # (nothing of a wait is over)
        self.ends = found.ends()

    def list_name(self, node: int) -> str:
        """Returns the name of a list that several share."""
        return f"list {node - self.number + 1}"

    def lists(self) -> Dict[str, List[str]]:
        hubs = range(self.number, len(self.waits.left))
        return {**{self.list_name(node): self.named(self.waits.all_left(node)) for node in hubs}, **self.shared.names()}

    def named(self, some: Sequence[int]) -> List[str]:
        return [*map(self.names.__getitem__, some)]

    def all(self) -> List[Tree]:
        found = self.found
        verdicts = [NOT_STUCK] * self.number
        for verdict, members in ((ENDED, found.ended), (UNDECIDED, found.undecided), (STUCK, found.stuck),
                                 (LIKELY, found.likely)):
            for index in members:
                verdicts[index] = verdict
        return [*map(self.row, range(self.number), self.waits.processes, verdicts)]

    def row(self, index: int, process: Process, verdict: str) -> Tree:
        roots, kinds = self.found.roots, self.waits.kinds
        kind = kinds[index] if self.has_own_kinds or process.kind == ALL else process.kind
        root, end, place = roots.root_of.get(index), self.ends.get(index), process.note or process.operation
        waits_for, waits_for_list, one_of, near, besides = self.whom(index, kind)
        return {
            "name": process.name,
            "verdict": verdict,
            "root": None if root is None else root + 1,
            "behind": [number + 1 for number in roots.above.get(index, ())] if root is None else [],
            "kind": kind,
            "waits_for": waits_for,
            "waits_for_list": waits_for_list,
            "one_of": one_of,
            "near": near,
            "besides": besides,
            "may_have": may_have(process.parts),
            "in_transit_from": self.named(sorted(self.waits.senders[index])) if self.waits.senders[index] else NOBODY,
            "site": process.site,
            "thread": process.thread,
            "noun": noun_in(self.found.dump.sketch.system, process.site or "",
                            bool(process.thread.partition("/")[2]), "/" in process.name),
            "note": process.note or " ".join(filter(None, (*process.frames[:1], place))),
            "what": first_words(place),
            "effect": process.effect,
            "frames": process.frames,
            "operation": process.operation,
            "objects": process.objects,
            "is_for_others": is_for_others(process.operation),
            "sign": SIGNS[process.sign],
            "reason": process.reason,
            "why_unknown": process.why_unknown() if kind == UNKNOWN else "",
            "rests_on": process.because,
            "goes_on": {ANY: MESSAGE, ALL: COME}.get(kinds[index], RUNNING) if self.waits.is_awake(index) else None,
            "freed_by": None if end is None else self.names[self.found.high.cause[index] or 0],
            "unblocked_by": None if end is None else self.names[end],
            "wakers": self.shared.wait(self.wakers[index]),
        }

    def whom(self, index: int, kind: str) -> Tuple[List[str], Optional[str], List[str], Optional[List[str]], List[str]]:
        """Returns for whom a wait is, by names and by the names of lists, who of a list is near, and who is besides."""
        left = self.waits.left[index]
        if not left or len(left) == 1 and left[0] < self.number and kind in (ANY, ALL):
            return self.named(left), None, NOBODY, None, NOBODY
        shared, near = self.waits.list_of(index), self.waits.left_of(index) if kind == ANY else left
        if shared is not None or kind not in (ANY, ALL):
            near_names = None if shared is None or near == left else self.named(self.waits.without_hubs(near))
            return NOBODY, None if shared is None else self.list_name(shared), NOBODY, near_names, NOBODY
        if kind == ALL:
            nodes = dict.fromkeys(node for node in left if node < self.number)
            return self.named([*nodes]), None, [self.list_name(node) for node in left if node >= self.number], None, []
        kept, others = set(self.waits.without_hubs(near)), self.waits.all_left(index)
        return (self.named([other for other in others if other in kept]), None, [], None,
                self.named([other for other in others if other not in kept]))


def may_have(parts: Sequence[Part]) -> bool:
    """Whether some of those that a wait is for may have what is waited for, as the state doesn't show who has it."""
    for part in parts:
        for wakers in part:
            if wakers.how in UNSHOWN:
                return True
    return False


@lru_cache(maxsize=1024)
def is_for_others(operation: str) -> bool:
    """Whether those at an operation wait for the end or the answer of others, and have nothing that others want."""
    found = (system.for_others for system in all_described() if system.for_others)
    return any(re.search(pattern, operation, re.I) for pattern in found)


@lru_cache(maxsize=None)
def noun_in(system: str, site: str, has_thread: bool, is_inside: bool) -> str:
    """Returns what one of a system is called that stands at a site: whether it is a thread of the kernel, and by its
    name inside of a process."""
    sites = [row for about in all_described() for row in about.sites.items()]
    noun = next((noun for start, noun in sites if site.startswith(start)), "")
    return noun or described(system).noun_of(has_thread, is_inside)
