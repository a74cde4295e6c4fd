"""How a program of Go's is taken: by `net/http/pprof`, or by SIGQUIT, which ends it, if people ask for that. One that
is named by its number is read as the kernel sees it."""
from __future__ import annotations

from typing import Collection, Iterator, List, Sequence, Tuple

from cmh_unwind.elf import is_go

from .. import KERNEL
from ..taking import Capture, Sight, Taker, listeners


class GoTaker(Taker):
    def captures(self, targets: List[str], wishes: Collection[str]) -> List[Capture]:
        if "kill" in wishes:
            return [Capture(self.name, ["--kill", *targets], "SIGQUIT ends the program, which writes its goroutines",
                            is_heavy=True, has_two=True)]
        if all(map(str.isdigit, targets)):
            return [Capture(KERNEL, targets, "it is read as the kernel sees it, which shows no goroutines: name "
                            "HOST:PORT of a program that serves net/http/pprof, or end it by --kill")]
        return super().captures(targets, wishes)

    def clients(self, capture: Capture, others: Sequence[Capture]) -> List[str]:
        return listeners(capture.targets[0]) if others else []

    def commands(self, pid: int, name: str, words: List[str]) -> Iterator[Tuple[str, str, str]]:
        if is_go(f"/proc/{pid}/exe"):
            yield ("go", f"cmh-stall go HOST:PORT of net/http/pprof, or cmh-stall {KERNEL} {pid}",
                   "go sees inside if it serves net/http/pprof, and linux")

    def ends(self, targets: Sequence[str], sight: Sight) -> List[str]:
        return listeners(targets[0])[:1] if sight.reads() else []


TAKER = GoTaker
