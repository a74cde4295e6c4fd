"""What a future of the JDK comes from, and who computes that."""
from __future__ import annotations

import re
from collections import defaultdict
from typing import Dict, List, Sequence, Set, Tuple

from .hprof import FUTURE, RUN, STEP, SUPPLY, HeapDump
from .pools import Pools
from .threads import HeapThread, Living, Row

STEPS = 100  # futures of a chain
MOST_PARTS = 1000  # futures of which one needs all, and parts of all parallel streams
COMPUTES = re.compile(r"java\.util\.concurrent\.CompletableFuture\$(?:Async(?:Supply|Run)\.run|(?:Uni|Bi)\w+\.tryFire)")


class Futures:
    """The futures of a heap dump, with the steps and the works that complete them."""

    def __init__(self, heap: HeapDump, living: Living, pools: Pools) -> None:
        self.heap, self.found, self.living, self.pools = heap, heap.found, living, pools
        self.steps: Dict[int, List[int]] = defaultdict(list)
        for identity, (after, *_) in self.found[STEP].items():
            self.steps[after].append(identity)
        self.works: Dict[int, List[int]] = defaultdict(list)
        for identity, (after,) in (*self.found[SUPPLY].items(), *self.found[RUN].items()):
            self.works[after].append(identity)

    def future(self, thread: HeapThread, future: int, above: Sequence[int] = ()) -> Row:
        """Returns who computes what a future comes from, at the beginning of its chain, and whether that one also does
        all that follows; or the threads of the pool in whose queue the work for it stands."""
        chain: List[int] = []
        is_direct = True
        while self.is_open(future) and future not in (*above, *chain) and len(chain) < STEPS:
            chain.append(future)
            runners, works, parts = self.computing(future), self.works[future], self.parts_of(future)
            others = [row for it in (*chain, *works) for row in self.living.besides(it, [*runners, thread])]
            queue = self.pools.in_queue(works[0]) if len(works) == 1 and not runners else {}
            if runners:
                is_direct = is_direct and not any("Compose" in name for name in runners.values())
                return {"waits": "future", "for": [it.label for it in runners], "is_direct": is_direct,
                        "besides": others}
            if queue or parts:
                row = {"waits": "supplied", **queue} if queue else self.all_of(thread, parts, [*above, *chain])
                return {**row, "besides": [*others, *row.get("besides", [])]} if row else {}
            future, is_same = self.source(future)
            is_direct = is_direct and is_same
        return {}

    def is_open(self, future: int) -> bool:
        """Whether a future isn't complete."""
        found: bool = self.found[FUTURE].get(future, (1,))[0] == 0
        return found

    def parts_of(self, future: int) -> List[int]:
        """Returns the two futures that have to be complete before another one is, as that of allOf."""
        kind, (_, first, _, second) = self.step_to(future)
        return [first, second] if kind.startswith(f"{FUTURE}$Bi") and first and second else []

    def all_of(self, thread: HeapThread, parts: List[int], above: Sequence[int]) -> Row:
        """Returns who computes some futures, if each of them that isn't complete has one who does."""
        rows = [self.future(thread, it, above) for it in self.leaves_of(parts)]
        if len(rows) == 1:
            return rows[0]
        is_known = rows and all(row.get("waits") == "future" and len(row["for"]) == 1 for row in rows)
        return {"waits": "futures", "for": [row["for"][0] for row in rows],
                "is_direct": all(row["is_direct"] for row in rows),
                "besides": [it for row in rows for it in row["besides"]]} if is_known else {}

    def leaves_of(self, parts: List[int]) -> List[int]:
        """Returns the futures that aren't complete, and that aren't made of two, of those of which some are made. None
        if they are too many."""
        found: List[int] = []
        seen: Set[int] = set()
        todo = [*parts]
        while todo and len(seen) < MOST_PARTS:
            part = todo.pop()
            more = self.parts_of(part)
            if part not in seen and self.is_open(part):
                found += [] if more else [part]
                todo += more
            seen.add(part)
        return found if not todo else []

    def computing(self, future: int) -> Dict[HeapThread, str]:
        """Returns the threads that are in the function whose value a future gets, and by which method of the JDK."""
        found: Dict[HeapThread, str] = {}
        for thread in self.living.having[future]:
            methods = [thread.frames[at][0] for at, held in thread.locals if held == future and at < len(thread.frames)]
            found.update((thread, name) for name in methods if COMPUTES.fullmatch(name))
        return found

    def step_to(self, future: int) -> Tuple[str, Tuple[int, ...]]:
        """Returns the class and the fields of the one step that completes a future, or nothing."""
        steps = self.steps[future] if STEP not in self.heap.over else []
        if len(steps) != 1:
            return "", (0, 0, 0, 0)
        return self.heap.name_of(self.heap.kinds[steps[0]]), tuple(it or 0 for it in self.found[STEP][steps[0]])

    def source(self, future: int) -> Tuple[int, bool]:
        """Returns the one future from which another is made, or 0, and whether who completes it makes the other."""
        kind, (_, source, executor, _) = self.step_to(future)
        if not kind.startswith(f"{FUTURE}$Uni"):
            return 0, False
        return source, executor == 0 and "Compose" not in kind
