"""Who ends the wait for futures, tasks and gatherings, by what a state describes of each."""
from __future__ import annotations

import re
from typing import Any, Dict, Iterable, List, Optional, Tuple

from ...core.model import Part, Wakers, any_of, unseen, wakers
from .job import FUTURE
from .names import Standing, pools_of
from .stack import PythonFrame
from .waits import PythonWait, blocked, goes

FINISHED = ("FINISHED", "CANCELLED", "CANCELLED_AND_NOTIFIED")
MOST_PARTS = 64  # of one wait for any of several that each have parts; with more, all of their wakers make one
DONE = "what it waited for is done"


def by_future(standing: Standing) -> Optional[PythonWait]:
    line = next((line for line in standing.standard
                 if re.match(r"concurrent\.futures\._base\.Future\.(result|exception)$", line.at)), None)
    return all_waits(standing, [line.has.get("self")]) if line is not None else None


def by_futures(standing: Standing) -> Optional[PythonWait]:
    for line in standing.standard:
        if line.at == "concurrent.futures._base.wait":
            return wait_of_frame(standing, line)
        if line.at == "concurrent.futures._base.as_completed":
            return any_waits(standing, line.has["fs"])
    return None


def wait_of_frame(standing: Standing, line: PythonFrame) -> PythonWait:
    """The wait of a frame of `wait`: for all, for any, or for all unless one fails, which any may do."""
    values, when = line.has["fs"], line.has["return_when"]
    if when == "FIRST_EXCEPTION":
        return any_waits(standing, [value for value in values if not resolve(standing, value).goes_on()])
    return all_waits(standing, values) if when == "ALL_COMPLETED" else any_waits(standing, values)


def all_waits(standing: Standing, values: Iterable[Any]) -> PythonWait:
    """The wait for all of these. Those that are done don't count."""
    left = [wait for wait in [resolve(standing, value) for value in values] if not wait.goes_on()]
    parts = {key_of(part): part for wait in left for part in wait.parts}
    return waiting(left, list(parts.values())) if left else goes(DONE)


def any_waits(standing: Standing, values: Iterable[Any]) -> PythonWait:
    """The wait for any of these: one that goes on ends it."""
    waits = [resolve(standing, value) for value in values]
    if not waits or any(wait.goes_on() for wait in waits):
        return goes(DONE)
    parts: List[Part] = [()]
    for wait in waits:
        parts = [merged((*first, *second)) for first in parts for second in wait.parts]
        if len(parts) > MOST_PARTS:
            parts = [merged(wakers for wait in waits for part in wait.parts for wakers in part)]
            break
    return waiting(waits, parts)


def waiting(waits: List[PythonWait], parts: List[Part]) -> PythonWait:
    return blocked(parts, *dict.fromkeys(reason for wait in waits for reason in wait.because))


def merged(part: Iterable[Wakers]) -> Part:
    """A part in which each list stands once for each way."""
    return tuple({(id(some.who) if len(some.names()) != 1 else some.names()[0], some.how): some
                  for some in part}.values())


def key_of(part: Part) -> Tuple[Any, ...]:
    return tuple([(tuple(some.names()) if len(some.names()) < 2 else id(some.who), some.how) for some in part])


def resolve(standing: Standing, value: Any) -> PythonWait:
    """The wait for a future, a task or the like that a state describes. It goes on if that is done."""
    if not isinstance(value, dict):
        return blocked(any_of(unseen("unshown", "its state doesn't describe what it waits for")))
    job, key = standing.job, value.get("id")
    if value.get("done") is True or value.get("state") in FINISHED:
        return goes(DONE)
    if value.get("type") == "Task":
        name = job.name_of(key)
        return blocked(any_of(wakers("ends", [name]) if name else unseen("unread", "its task isn't in the state")))
    if value.get("type") == "gather":
        return resolve_gather(standing, value).beside(*job.cancellers(key))
    if value.get("type") == "Future":
        return wait_for_work(standing, key)
    inner = value.get("inner") or value.get("source")
    wait = resolve(standing, inner) if inner else blocked(any_of(*job.same_process(standing.name)))
    return wait if wait.goes_on() else wait.beside(*job.cancellers(key))


def resolve_gather(standing: Standing, value: Dict[str, Any]) -> PythonWait:
    """The wait for all that is gathered. The first that fails ends it, unless errors are gathered too."""
    wait = all_waits(standing, value["all"])
    may_fail = value.get("raises") is not False and len(value["all"]) > 1
    failing = [name for part in wait.parts for some in part for name in some.names() if some.how == "ends"]
    return wait.beside(wakers("cancels", failing)) if may_fail and failing else wait


def wait_for_work(standing: Standing, key: Any) -> PythonWait:
    """The wait for who sets a future: the task or coroutine behind it, the thread that has begun its work, or any of
    the pool that keeps it. Whoever has its future may cancel work. Once a thread has begun it, only those may end it
    whose code sets results or errors."""
    job, look = standing.job, standing.look
    begun, kept = pools_of(look)
    key_of_worker = begun.get(key, key if key in look.asked else None)
    name = job.name_of(key_of_worker) if key_of_worker is not None else None
    if name is not None:
        has_begun = key_of_worker in look.threads
        against = (wakers("cancels", job.cancelling),) if has_begun and job.cancelling else job.cancellers(key)
        made = blocked(any_of(wakers("called", [name], FUTURE)), FUTURE)
        return made.beside(*(() if has_begun and not job.cancelling else against))
    workers = job.names_of(kept.get(key, ()))
    if workers:
        made = blocked(any_of(wakers("called", workers, FUTURE)), FUTURE)
        return made.beside(*job.cancellers(key))
    return blocked(any_of(*job.same_process(standing.name))).beside(*job.cancellers(key))
