"""Those who have nothing to do, as workers that wait for work: left out where nobody waits for them, so that they don't
drown the answer. That changes no verdict: nobody waits for one that is left out. One that may be waited for stays; so
does one from whom or to whom a message is in transit. Where this is joined with what another system shows, that may say
that its receiver waits, and without the message it would be stuck. Who stands for others that may not be there goes
too if nobody waits for it, and isn't counted: it is nobody of the system."""
from __future__ import annotations

from collections import Counter
from typing import Set

from .model import Sign
from .sketch import FACT, REST, WORK, Process, Sketch, lists_of_wakers


def leave_out(sketch: Sketch, what: str) -> None:
    """Leaves out those at rest that nobody waits for and no fact decides, and unknown stand-ins that nobody waits for.
    Says in one line how many of those at rest, as `what` in the plural."""
    idle = [process for process in sketch.processes if process.sign is Sign.RESTS or is_stand_in(process)]
    if not idle:
        return
    wanted = {name for names in lists_of_wakers(sketch.processes) for name in names}.union(*sketch.in_transit)
    out: Counter[str] = Counter()
    gone: Set[str] = set()
    for process in idle:
        if process.name in wanted or process.sign is Sign.RESTS and has_fact(process):
            continue
        gone.add(process.name)
        if process.sign is Sign.RESTS:
            out[process.reason or WORK] += 1
            sketch.idle += [process.thread] if process.thread else []
    sketch.processes = [process for process in sketch.processes if process.name not in gone]
    if out:
        ways = ", ".join(f"{number} {way if number == 1 else plural(way)}" for way, number in out.most_common())
        total = sum(out.values())
        sketch.warnings.append(f"idle {what} that nobody waits for are left out, {total} in all: {ways}")


def is_stand_in(process: Process) -> bool:
    """Whether it is nobody of the system, but stands for others who may not be there: it has no place."""
    return process.sign is Sign.UNKNOWN and process.frames == [process.name] and process.name != REST \
        and process.site is None and not process.operation and not process.is_garbled


def has_fact(process: Process) -> bool:
    return any(reason.startswith(f"{FACT} ") for reason in process.because)


def plural(way: str) -> str:
    """'waits for work' as 'wait for work'."""
    verb, *rest = way.split(" ")
    if verb == "it":
        return f"they {plural(' '.join(rest))}"
    return " ".join([{"carries": "carry", "has": "have", "is": "are"}.get(verb, verb.rstrip("s")), *rest])
