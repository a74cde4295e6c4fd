"""What an answer rests on: facts, premises, what the system keeps."""
from __future__ import annotations

from typing import Collection, Dict, Iterable, List, NamedTuple

from .model import Sign
from .sketch import BY_HAND, FACT, OLDER, PREMISE, SYSTEM, Process, Sketch, lists_of_wakers, reason_of

WORDS = {SYSTEM: "what the system itself keeps", BY_HAND: "what stands in the sketch",
         OLDER: "an older version of cmh-dump, whose notes don't say on what"}


class Reason(NamedTuple):
    """On what some processes rest: `name` is of a premise, or where a line of facts stands; `text` is the sentence of
    the premise, or the line; `number` is how many rest on it."""

    kind: str
    name: str
    text: str
    number: int


class Rests:
    """On what the waits of a sketch rest."""

    def __init__(self, sketch: Sketch) -> None:
        self.sketch = sketch
        self.facts = {reason_of(row): row["text"] for row in sketch.facts}
        self.ended = {it.name: it for it in sketch.processes if it.sign is Sign.ENDED and it.because != [SYSTEM]}

    def of(self, processes: Iterable[Process], known: Collection[Reason] = ()) -> List[Reason]:
        """Returns on what some processes rest, facts first, but for what is known already. Those that they wait for and
        that have ended by a fact count too."""
        some = list(processes)
        named = dict.fromkeys(name for whom in lists_of_wakers(some) for name in whom if name in self.ended)
        counts = counts_of([*some, *(self.ended[name] for name in named)])
        before = {(it.kind, it.name) for it in known}
        order = sorted(counts, key=self.place)
        found = [self.reason(it, counts[it]) for it in order]
        return [it for it in found if (it.kind, it.name) not in before]

    def place(self, reason: str) -> int:
        """Returns where a reason stands among others: facts first, and the system last."""
        return 0 if reason.startswith(FACT) else 2 if reason == SYSTEM else 1

    def reason(self, text: str, number: int) -> Reason:
        """Returns a reason of a sketch, on which a number of processes rest."""
        word, _, name = text.partition(" ")
        if word == FACT:
            return Reason(word, name, self.facts.get(text, ""), number)
        if word == PREMISE:
            return Reason(PREMISE, name, self.sketch.premises.get(name, name), number)
        return Reason(text, "", WORDS[text], number)


def counts_of(processes: Iterable[Process]) -> Dict[str, int]:
    """Returns how many of some processes rest on each reason; what the system keeps counts where it is all."""
    counts: Dict[str, int] = {}
    for process in processes:
        for reason in process.because:
            if reason != SYSTEM or process.because == [SYSTEM]:
                counts[reason] = counts.get(reason, 0) + 1
    return counts
