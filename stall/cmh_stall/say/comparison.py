"""Two answers of one system, an older and a newer one: who has gone on since, who is new among the stuck, and which
roots are the same."""
from __future__ import annotations

from typing import Dict, List, NamedTuple, Set

from ..core.files import Failure, shown
from ..core.sketch import ENDED
from .view import LIKELY, STUCK, UNDECIDED, View

GONE_ON, AWAY, OPEN, NEW, AGAIN, STILL = (
    "has gone on", "is there no more", "is undecided now", "is new among the stuck", "is stuck again, at another place",
    "is stuck as before")
CHANGES = (GONE_ON, AWAY, OPEN, NEW, AGAIN, STILL)
SAME, OTHER, OVER, BEGUN = "the same", "of other members", "no more there", "new"


class RootChange(NamedTuple):
    """What became of a root: its number in the older answer and in the newer one, where it is in them."""

    old: int
    new: int
    word: str
    came: List[str]
    left: List[str]


class Comparison:
    """What changed from one answer to another. `changes` has what became of each who is stuck in one of them."""

    def __init__(self, old: View, new: View) -> None:
        self.old, self.new = old, new
        systems = [view.tree["system"] or "no system that is named" for view in (old, new)]
        if systems[0] != systems[1]:
            raise Failure(f"two answers of one system can be compared: the older one is of {shown(systems[0])}, and "
                          f"the newer one of {shown(systems[1])}", 2)
        self.changes: Dict[str, str] = {}
        for name in [*stuck_names(new), *stuck_names(old)]:
            self.changes[name] = self.change(name)
        self.roots = self.root_changes()

    def names(self, change: str) -> List[str]:
        return [name for name, word in self.changes.items() if word == change]

    def change(self, name: str) -> str:
        """Returns what became of one who is stuck in one of the answers."""
        before, after = (view.rows[view.index[name]] if name in view.index else None for view in (self.old, self.new))
        if before is None or before["verdict"] not in (STUCK, LIKELY):
            return NEW
        if after is None or after["verdict"] == ENDED:
            return AWAY
        if after["verdict"] not in (STUCK, LIKELY):
            return OPEN if after["verdict"] == UNDECIDED else GONE_ON
        return STILL if before["note"] == after["note"] else AGAIN

    def root_changes(self) -> List[RootChange]:
        """Returns what became of each root, those of the newer answer first."""
        older = [frozenset(root["members"]) for root in self.old.tree["roots"]]
        used: Set[int] = set()
        changes = []
        for number, root in enumerate(self.new.tree["roots"]):
            members = frozenset(root["members"])
            nearest = max(range(len(older)), key=lambda other: (other not in used, len(older[other] & members)),
                          default=-1)
            if nearest < 0 or nearest in used or not older[nearest] & members:
                changes.append(RootChange(0, number + 1, BEGUN, [], []))
                continue
            used.add(nearest)
            came, left = sorted(members - older[nearest]), sorted(older[nearest] - members)
            changes.append(RootChange(nearest + 1, number + 1, OTHER if came or left else SAME, came, left))
        return changes + [RootChange(number + 1, 0, OVER, [], []) for number in range(len(older)) if number not in used]


def stuck_names(view: View) -> List[str]:
    return [view.rows[index]["name"] for index in view.with_verdict(STUCK, LIKELY)]
