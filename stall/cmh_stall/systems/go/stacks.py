"""Stacks of goroutines as facts match them and as answers show them."""
from __future__ import annotations

from functools import lru_cache
from typing import List, Optional, Tuple

from ...core.files import Refusal
from .frames import KEPT, jobs_of
from .starters import MAIN
from .text import GoDump, GoFrame, Goroutine



def stack_of(goroutine: Goroutine) -> List[Tuple[str, Optional[int], str]]:
    return [(it.function, it.line, it.offset) for it in goroutine.frames]


@lru_cache(maxsize=KEPT)
def whole_stack(frames: Tuple[GoFrame, ...], creator: GoFrame) -> List[Tuple[str, str, Optional[int], str]]:
    """Returns all frames of a goroutine, and below them where it was created."""
    return [(it.function, it.path, it.line, it.offset) for it in (*frames, creator)]


def check_same(first: GoDump, later: GoDump) -> None:
    """Raises Refusal if a goroutine has another origin in the later of two dumps, so that they are of two programs: a
    program gives no number twice."""
    before = {it.number: origin_of(it) for it in first.goroutines}
    for it in later.goroutines:
        here, there = origin_of(it), before.get(it.number)
        if here and there and here != there:
            raise Refusal(f"{it.at}: goroutine {it.number} is from {here}, and in {first.path} from {there}: two "
                          "states of one program are expected")


def origin_of(goroutine: Goroutine) -> str:
    """Returns where a goroutine was created, or for main where main.main is, as text, or nothing."""
    if goroutine.fault:
        return ""
    if goroutine.creator.path:
        return text_of(goroutine.creator)
    last = jobs_of(goroutine.frames)[-1:] if goroutine.number == MAIN else ()
    return "".join(f"main.main ({step.path})" for step in last if step.function == "main.main")


@lru_cache(maxsize=KEPT)
def text_of(creator: GoFrame) -> str:
    return f"{creator.function} ({creator.path}:{creator.line})"
