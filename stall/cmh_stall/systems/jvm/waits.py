"""What each thread of a JVM does in one state, and who may end its wait, how.

Named are the owner of a monitor or of a ReentrantLock or one of its kin, who initialises a class, and with a heap who
runs a task, computes a future, reads under a lock or is joined. At any other object of the runtime those are able who
have a reference to it by a heap, or else all other threads of the JVM. Who may interrupt or cancel is against.
"""
from __future__ import annotations

import re
from typing import Dict, Iterable, List, Optional

from ...core.model import Part, Sign, all_of, any_of, unseen, wakers
from ...core.sketch import INNER, LIMIT, SYSTEM, TIMER, Process, blocked, garbled, goes_on, premise, rests, unknown
from ...core.snapshots import ONCE
from ...core.times import duration
from .frames import (AGAIN, BARRIER, CLEANER, COMPUTES, CONDITION, FROM_OUTSIDE, HAS_TASK, HAS_TIMER, INTERRUPTIBLY,
                     LONG, NEVER_MEANT, OF_LOCKS, OUTSIDE, READS, READS_OUTSIDE, READS_PIPE, REENTRANT, SLEEP, YIELDS,
                     JvmPlace, awaits_task, has_jobs, has_limit, is_for_the_end, is_in, is_own_loop, is_receive,
                     place_of, short)
from .heap import FUTURES, HOOK, JOIN, LOST, POOL, QUEUED, READERS, STREAM, SUPPLIED, HeapWait
from .locks import Locks
from .rows import label_of
from .text import JvmThread, stack_of
from .threads import COMPLETES, END, MAIN, POOLS, REACHES, TO_COME, UNSHOWN, JvmThreads, inside_of, parked_at

NATIVE, INITIALISER, QUEUE, TIMED = "native", "initialiser", "queued", "processor-time"
RESTS_ON: Dict[str, List[str]] = {QUEUED: [POOLS], SUPPLIED: [POOLS, COMPLETES], "future": [COMPLETES],
                                  FUTURES: [COMPLETES]}
OF_THE_JDK = "java.util.concurrent.locks."
CLOSES = re.compile(r"io\.netty\.channel\.\w+\$CloseFuture")


def wait_of(thread: JvmThread, name: str, snapshot: JvmThreads) -> Process:
    """Returns what a thread does, as a process with its sign and its wait alone."""
    place = place_of(thread)
    is_limited = has_limit(thread) or thread.key in snapshot.scheduled and place.has(HAS_TIMER)
    if place.idle and not (is_limited and (place.has(HAS_TIMER) or place.has(HAS_TASK))):
        is_outside = place.idle in FROM_OUTSIDE or place.idle == CLEANER
        return rests(name, place.idle, any_of(unseen("outside" if is_outside else TO_COME)), [])
    if thread.state == "BLOCKED":
        return wait_for_monitor(thread, name, snapshot)
    if is_limited:
        return wait_with_limit(thread, place, name, snapshot)
    if thread.far:
        return wait_for_ages(thread, place, name, snapshot)
    if thread.state == "WAITING":
        return wait_without_limit(thread, place, name, snapshot)
    if thread.state == "RUNNABLE":
        return run_or_wait(thread, place, name, snapshot)
    return unknown(name, f"its state is {thread.state}" if thread.state else "the text has no state of it")


def named(name: str, how: str, whom: List[str], because: List[str], *beside: Part) -> Process:
    """One that any one of those ends of which the system says that one of them has to."""
    return blocked(name, any_of(wakers(how, whom), *(more for part in beside for more in part)), because)


def owned(name: str, owner: str, because: List[str], snapshot: JvmThreads, *beside: Part) -> Process:
    """One that waits for what another owns, which alone gives it back: one moment shows that."""
    snapshot.moments[name] = ONCE
    return named(name, "owns", [owner], because, *beside)


def wait_for_monitor(thread: JvmThread, name: str, snapshot: JvmThreads) -> Process:
    """One that waits to enter a monitor. One that may have given it back in Object.wait() may have it."""
    wanted = snapshot.locks.wanted.get(thread.key)
    if wanted is None:
        return undecided(name, (snapshot.everybody.able,), "it waits for a monitor, and the state doesn't show which")
    holders = snapshot.locks.monitor_holders(wanted, thread.key)
    if len(holders) == 1:
        return owned(name, snapshot.names[holders[0]], [SYSTEM], snapshot, snapshot.left_out())
    perhaps = [snapshot.names[key] for key in snapshot.locks.perhaps.get(wanted, []) if key != thread.key]
    names = [snapshot.names[key] for key in holders] or perhaps
    shows = "shows several holders of it" if holders else "shows no holder of it"
    more = f": {perhaps[0]} may have given it back in Object.wait()" if perhaps and not holders else ""
    why = f"it waits for the monitor {wanted}, and the state {shows}{more}"
    return undecided(name, (wakers("inside", names),) if names else (), why)


def undecided(name: str, part: Part, why: str) -> Process:
    """One of which the state doesn't show all who may end its wait."""
    return blocked(name, any_of(*part, unseen(UNSHOWN, why)), [], reason=why)


def wait_with_limit(thread: JvmThread, place: JvmPlace, name: str, snapshot: JvmThreads) -> Process:
    """A wait with a limit, or with one that only waits again. A limit that has ended between two states is no long one.
    """
    if place.has(AGAIN):
        is_piped = place.has(READS_PIPE) and not place.call.startswith("Piped")
        process = wait_for_some(thread, place, name, snapshot)
        process.operation = "PipedInputStream.read" if is_piped else place.call
        return process
    if place.has(LONG) and not (snapshot.counts and thread.has_ticked):
        process = wait_for_pool(thread, name, snapshot)
        process.operation = place.call
        return process
    why = "sleeps" if place.has(SLEEP) else TIMER if place.has(HAS_TIMER) else "waits with a limit"
    return goes_on(name, why, [premise(LIMIT)], Sign.TICKS if is_own_loop(stack_of(thread)) else Sign.SLEEPS,
                   operation=f"timed {place.call}" if place.call else "")


def wait_for_ages(thread: JvmThread, place: JvmPlace, name: str, snapshot: JvmThreads) -> Process:
    """A wait whose limit is none, as it ends in more than an hour: of one that only sleeps that is all."""
    ends = unseen("limit", f"its limit ends in {duration(thread.far)}")
    if place.has(SLEEP):
        return rests(name, f"sleeps for {duration(thread.far)}", any_of(*snapshot.cancelling(thread), ends), [SYSTEM],
                     operation=place.call)
    process = wait_without_limit(thread, place, name, snapshot)
    process.parts = [(*part, ends) for part in process.parts]
    return process


def wait_for_pool(thread: JvmThread, name: str, snapshot: JvmThreads) -> Process:
    """One that waits for the end of a pool: of all its threads, if the heap shows these."""
    why = "it has a limit that the state doesn't show, and that may be one of centuries"
    wait = snapshot.heap.wait_of(thread)
    workers = snapshot.heap.names_of(wait.whom) if wait is not None and wait.kind == POOL else []
    if not workers:
        return undecided(name, snapshot.able(thread), why)
    return blocked(name, all_of(workers, "ends", beside=(*snapshot.left_out(), unseen(UNSHOWN, why))), [], reason=why)


def wait_without_limit(thread: JvmThread, place: JvmPlace, name: str, snapshot: JvmThreads) -> Process:
    owner, parked = snapshot.locks.owner(thread), parked_at(thread)
    beside = (*(snapshot.cancelling(thread) if place.has(INTERRUPTIBLY) else ()), *snapshot.left_out())
    if owner is not None and (thread.parked_class or parked).startswith(OF_THE_JDK):
        return owned(name, snapshot.names[owner], [SYSTEM], snapshot, beside)
    if parked and snapshot.dump.has_owners and READS.fullmatch(place.call) and snapshot.locks.writers[parked]:
        return wait_to_read(parked, name, beside, snapshot)
    wait = snapshot.heap.wait_of(thread)
    process = wait_by_heap(thread, wait, place, name, snapshot) if wait is not None else None
    if process is not None:
        return process
    if snapshot.dump.has_owners and REENTRANT.fullmatch(thread.parked_class):
        is_lost = snapshot.shows_owners and parked not in snapshot.moved
        more = ", and it woke nobody, as if its owner had ended" if is_lost else ""
        return undecided(name, beside, f"{place.call}: no thread owns {parked}{more}")
    if CONDITION in (thread.parked_class or parked) and not inside_of(thread) and not snapshot.dump.has_owners:
        return garbled(name, f"{place.call or 'its wait'}: it may have been signalled, and wait for whoever has the "
                             "lock: only `jstack -l` shows that")
    return wait_for_some(thread, place, name, snapshot)


def awaits_close(thread: JvmThread) -> bool:
    """Whether a thread waits until a channel of Netty is closed, as main does that has begun a server."""
    return any(map(CLOSES.fullmatch, thread.monitors))


def wait_for_some(thread: JvmThread, place: JvmPlace, name: str, snapshot: JvmThreads) -> Process:
    """One that waits at an object of the runtime. One that takes its next message in the loop of its own thread rests,
    and where no heap says that nobody else may end its wait, a signal or a hook of the program's may. If nobody has a
    reference to what it waits at, it may be meant to wait for ever, but at no queue that is full, nor where several
    meet. Where it alone runs tasks like the one that it waits for, somebody else may give what it waits for."""
    if place.has(OUTSIDE):
        return wait_for_outside(thread, name, f"{place.call}: the state doesn't show what is outside of the JVM")
    reached = snapshot.heap.reach_of(thread)
    near = tuple(group for group in snapshot.runners(place) if group.names() != [name]) if reached is None else ()
    part = (*near, *snapshot.able(thread), *snapshot.owners(thread), *snapshot.breaking(place))
    because = [premise(INNER if reached is None else REACHES)]
    is_in_loop = is_own_loop(stack_of(thread))
    is_receiver = is_receive(place) and is_in_loop
    is_meant = reached is not None and reached.is_alone and not awaits_task(thread) and not NEVER_MEANT.fullmatch(
        place.call)
    is_at_end = thread.name == MAIN and (
        is_meant or awaits_close(thread) or reached is None and is_for_the_end(place) and is_in_loop)
    if is_meant or is_at_end or reached is None and is_receiver:
        part = (*part, unseen("outside"))
    if not has_jobs(stack_of(thread)):
        part = (*part, unseen(UNSHOWN, "no frame of it is the job's own, so that it may have nothing to do"))
    if is_receiver or is_at_end:
        return rests(name, "waits for its next message" if is_receiver else END, any_of(*part), because)
    return blocked(name, any_of(*part), because)


def wait_to_read(lock: str, name: str, beside: Part, snapshot: JvmThreads) -> Process:
    """One that waits to read with a lock that nobody owns stands in its queue behind one that waits to write. One that
    came later doesn't end its wait. Where that one has a limit, it may be another who never gives the lock back: one
    who has ended."""
    keys = snapshot.locks.writers[lock]
    writers = [snapshot.names[key] for key in keys]
    if snapshot.limited.issuperset(keys):
        why = "who waits to write with this lock has a limit, and may have come later"
        return undecided(name, (wakers("guess", writers), *beside), why)
    if len(writers) > 1:
        return blocked(name, any_of(wakers("listed", writers), *beside), [premise(QUEUE)])
    return named(name, "owns", writers, [premise(QUEUE)], beside)


def wait_by_heap(thread: JvmThread, wait: HeapWait, place: JvmPlace, name: str,
                 snapshot: JvmThreads) -> Optional[Process]:
    """Returns what a thread waits for without a limit, or None if the heap doesn't say more than who reaches that."""
    heap = snapshot.heap
    if wait.kind == HOOK or wait.kind == JOIN and wait.whom == [label_of(thread)]:
        return rests(name, END, any_of(unseen("outside")), [])
    if wait.kind == LOST:
        return blocked(name, any_of(), [SYSTEM])
    if not wait.whom:
        return None
    gone: Part = () if all(label in heap.there for label in [*wait.whom, *wait.besides]) else (
        unseen(UNSHOWN, "a thread that may end this wait by the heap dump isn't in this state"),)
    if wait.kind == READERS:
        return wait_for_readers(thread, wait, place, name, snapshot)
    whom = heap.names_of(wait.whom)
    beside = (*snapshot.cancelling(thread), *besides(wait, place, snapshot), *gone, *snapshot.left_out())
    because = [SYSTEM, *map(premise, RESTS_ON.get(wait.kind, []))]
    if wait.kind == STREAM:  # (whoever runs a part of it may end it by failing)
        beside = (wakers("cancels", whom), *beside)
    if wait.kind in (FUTURES, STREAM):
        return blocked(name, all_of(whom, "ends", beside=beside), because)
    return named(name, "ends", whom, because, beside)


def besides(wait: HeapWait, place: JvmPlace, snapshot: JvmThreads) -> Part:
    """Returns who may end a wait besides those that have to, by what the heap shows of it: whoever has a task or future
    in its frames, a timer of the JDK's, a thread that a pool may begin, and who has moved since."""
    others = snapshot.heap.names_of(wait.besides)
    may_grow = wait.kind in (QUEUED, SUPPLIED) and not wait.is_full
    may_move = wait.kind in ("future", FUTURES, STREAM) and not wait.is_direct and len(
        snapshot.heap.standing(wait.whom)) < len(wait.whom)
    return (*([wakers("cancels", others)] if others else []), *snapshot.breaking(place),
            *([wakers("starts", snapshot.everybody.able.who)] if may_grow else []),
            *([unseen(UNSHOWN, "who has to end what it waits for has moved since the heap was dumped")]
              if may_move else []))


def wait_for_readers(thread: JvmThread, wait: HeapWait, place: JvmPlace, name: str, snapshot: JvmThreads) -> Process:
    """One that waits to write waits for those who read, and still stand where they did when the heap was dumped:
    another one may have given the lock back since."""
    standing = snapshot.heap.standing(wait.whom)
    beside = (*(snapshot.cancelling(thread) if place.has(INTERRUPTIBLY) else ()), *snapshot.left_out())
    if not standing:
        readers = wakers("guess", snapshot.heap.names_of(wait.whom))
        why = "those who read under this lock have moved since the heap was dumped"
        return undecided(name, (readers, *beside), why)
    return blocked(name, all_of(snapshot.heap.names_of(standing), "owns", beside=beside), [SYSTEM])


def run_or_wait(thread: JvmThread, place: JvmPlace, name: str, snapshot: JvmThreads) -> Process:
    if snapshot.locks.class_of(thread) or "in Object.wait" in thread.status:
        return wait_for_class(thread, name, snapshot)
    if not thread.frames:
        return unknown(name, "it has no frames")
    top = thread.frames[0]
    if YIELDS.fullmatch(top.method):
        return goes_on(name, "yields", [premise(LIMIT)], Sign.TICKS if is_own_loop(stack_of(thread)) else Sign.SLEEPS,
                       operation=f"timed {short(top.method)}")
    if top.native and not COMPUTES.fullmatch(top.method):
        return wait_in_native(thread, place, name, top.method)
    if thread.status not in ("", "runnable"):
        return unknown(name, f"it is RUNNABLE and yet '{thread.status}'")
    if not top.native and thread.has_stood:
        return unknown(name, "it is RUNNABLE, and yet used no processor time between the states")
    return goes_on(name, "computes", [premise(NATIVE) if top.native else SYSTEM])


def wait_in_native(thread: JvmThread, place: JvmPlace, name: str, method: str) -> Process:
    """One in a native method: the outside ends it where that reads, connects or waits for a child."""
    why = (f"it is in {short(method)}, and the state doesn't show whether that waits, and what for: the other end may "
           "be in the dump")
    return wait_for_outside(thread, name, why) if place.has(OUTSIDE) else unknown(name, why)


def wait_for_outside(thread: JvmThread, name: str, why: str) -> Process:
    """One that waits for what is outside of the JVM. One that reads in the loop of its own thread rests."""
    stack = stack_of(thread)
    if is_in(READS_OUTSIDE, stack) and is_own_loop(stack):
        return rests(name, "waits for the outside", any_of(unseen("outside")), [])
    return blocked(name, any_of(unseen("outside", why)), [], reason=why)


def wait_for_class(thread: JvmThread, name: str, snapshot: JvmThreads) -> Process:
    """One that waits until another has initialised a class."""
    initialisers = snapshot.locks.initialisers.get(snapshot.locks.class_of(thread), [])
    keys = [key for key in dict.fromkeys(initialisers) if key != thread.key]
    if not keys:
        return undecided(name, (snapshot.everybody.able,),
                         "it waits until a class is initialised, and the state doesn't show by which thread")
    others = [key for key in dict.fromkeys([*keys, *snapshot.locks.beginners]) if key != thread.key]
    why = other_initialiser(thread, snapshot)
    if why:
        return undecided(name, (wakers("guess", [snapshot.names[key] for key in others]),), why)
    return owned(name, snapshot.names[keys[0]], [premise(INITIALISER)], snapshot, snapshot.left_out())


def meetings_of(threads: Iterable[JvmThread], locks: Locks) -> Dict[str, str]:
    """Returns at which barrier each thread waits, by key, if the state shows that of all. A Phaser has no such object:
    each thread is parked at one of its own."""
    here = {thread.key: locks.objects.get(thread.key, []) for thread in threads
            if (CONDITION in thread.parked_class or not thread.parked_class) and is_in(BARRIER, stack_of(thread))}
    return {key: things[0] for key, things in here.items()} if all(here.values()) else {}


def is_locking(thread: JvmThread) -> bool:
    """Whether a thread takes a lock of the JDK or gives one back just now, so that it isn't parked."""
    return thread.state not in ("WAITING", "TIMED_WAITING") and is_in(OF_LOCKS, stack_of(thread))


def has_stood(thread: JvmThread, snapshot: JvmThreads) -> str:
    return "it used no processor time between the states" if thread.has_stood else ""


def other_initialiser(thread: JvmThread, snapshot: JvmThreads) -> str:
    """Returns what shows that a class of this name of another loader may be meant, or nothing. Whoever initialises that
    may still be in the initialiser of a class from which it derives, or wait for another class: in the end somebody
    runs an initialiser and waits for no class."""
    name = snapshot.locks.class_of(thread)
    keys = set(snapshot.locks.initialisers.get(name, []))
    if len(keys) > 1:
        return f"several threads initialise a class {name}"
    other = next((key for key in snapshot.locks.beginners if key not in keys and key != thread.key), None)
    return (f"{snapshot.names[other]} initialises a class too, from which a {name} of another class loader may derive"
            if other else "")
