"""The threads that live, as a heap dump shows them, and who has which object in a frame."""
from __future__ import annotations

from collections import defaultdict
from dataclasses import dataclass
from typing import Any, Container, Dict, List, Sequence, Set, Tuple

from .hprof import THREAD, HeapDump

Row = Dict[str, Any]
Label = List[Any]  # how rows print a thread


@dataclass(eq=False)
class HeapThread:
    """A thread that lives: its object, as rows print it, what it is parked at, its frames, and who is in which."""

    identity: int
    label: Label
    blocker: int
    frames: List[Tuple[str, int]]
    locals: List[Tuple[int, int]]

    def top(self, method: str) -> bool:
        """Whether one of the frames of its wait is of a method."""
        return any(name == method for name, _ in self.frames[:8])

    def objects_in(self, method: str, some: Any) -> Set[int]:
        """Returns those of some objects that frames of a method have."""
        depths = {at for at, (name, _) in enumerate(self.frames) if name == method}
        return {identity for depth, identity in self.locals if depth in depths and identity in some}


class Living:
    """The threads that live, by their objects. `having` has those that have an object in a frame."""

    def __init__(self, heap: HeapDump) -> None:
        self.threads: Dict[int, HeapThread] = {}
        self.having: Dict[int, List[HeapThread]] = defaultdict(list)
        for serial, (identity, trace) in heap.roots.items():
            number, native, blocker = heap.found[THREAD].get(identity, (None, 0, 0))[:3]
            if number is not None and native:
                frames = [heap.frame(it) for it in heap.traces.get(trace, []) if it in heap.frames]
                here = heap.locals.get(serial, [])
                self.threads[identity] = HeapThread(identity, [number, f"{native:#x}"], blocker or 0, frames, here)
        for thread in self.threads.values():
            for held in {held for _, held in thread.locals}:
                self.having[held].append(thread)

    def labels(self, some: Container[int]) -> List[Label]:
        """Returns those of some objects that are threads, as rows print them."""
        return [thread.label for identity, thread in self.threads.items() if identity in some]

    def besides(self, thing: int, but: Sequence[HeapThread]) -> List[Label]:
        """Returns who else has an object in its frames."""
        return [thread.label for thread in self.having[thing] if thread not in but]
