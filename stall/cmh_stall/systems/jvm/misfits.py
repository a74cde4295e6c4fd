"""What shows that lines of a thread dump are missing: each thread's lines that don't fit each other, and threads that
wait at one condition by different ways. Whoever it is about is unknown then, and may hold what isn't shown."""
from __future__ import annotations

import re
from collections import defaultdict
from functools import lru_cache
from typing import DefaultDict, Dict, List, Set

from ...core.sketch import quote
from .frames import CONDITION, JDK, LIBRARY, MACHINERY, OF_QUEUES, caller_of, is_like
from .text import OWNERS, PARKED, JvmDump, JvmThread, Stack, stack_of

# The first frame of one that waits, by what its state says besides.
TOPS = {"parking": re.compile(r"(?:jdk\.internal|sun)\.misc\.Unsafe\.park"),
        "on object monitor": re.compile(r"java\.lang\.Object\.wait0?"),
        "sleeping": re.compile(r"java\.lang\.Thread\.sleep\w*")}
QUEUES = re.compile(r"java\.util\.concurrent\.locks\.AbstractQueued(?:Long)?Synchronizer[.$].*")
# What of such a queue parks by itself, of JDK 8 and later.
PARKS = re.compile(r"java\.util\.concurrent\.locks\.AbstractQueued(?:Long)?Synchronizer(?:\.(?:acquire|"
                   r"doAcquire\w*Nanos|parkAndCheckInterrupt)|[.$]ConditionObject\.await\w*|[.$]ConditionNode\.block)")
# What of the package above them parks, or calls what does, of JDK 8 to 25.
WAITS = re.compile(r"java\.util\.concurrent\.(?:(?:(?:Array|Linked|Priority)BlockingQueue|DelayQueue"
                   r"|ScheduledThreadPoolExecutor\$DelayedWorkQueue)\.(?:put|take|offer|poll)"
                   r"|LinkedBlockingDeque\.(?:put|take|offer|poll)(?:First|Last)"
                   r"|LinkedTransferQueue\.(?:awaitMatch|xfer)"
                   r"|SynchronousQueue\$Transfer(?:Stack|Queue|er)\.(?:transfer|awaitFulfill|xferLifo)"
                   r"|CompletableFuture\$Signaller\.block|(?:FutureTask|ForkJoinTask)\.awaitDone"
                   r"|Semaphore\.(?:acquire|tryAcquire|acquireUninterruptibly)|Phaser\.internalAwaitAdvance"
                   r"|CyclicBarrier\.dowait|CountDownLatch\.await|Exchanger\.(?:(?:slot|arena)Exchange|xchg)"
                   r"|ForkJoinPool\.(?:awaitWork|deactivate|idleAwaitWork|runWorker|awaitTermination|invokeAll"
                   r"|\w*[hH]elpQuiesce\w*|spinLockRunState)|DelayScheduler\.loop"
                   r"|ThreadPoolExecutor(?:\.awaitTermination|\$Worker\.lock)"
                   r"|ThreadPerTaskExecutor\.invokeAny|SubmissionPublisher\$BufferedSubscription\.(?:awaitSpace|block)"
                   r"|ConcurrentHashMap\$TreeBin\.contendedLock|locks\.StampedLock\.acquire(?:Read|Write)"
                   r"|locks\.(?:ReentrantLock(?:\$(?:Nonfair|Fair)?Sync)?|ReentrantReadWriteLock\$(?:Read|Write)Lock)"
                   r"\.(?:lock|lockInterruptibly|tryLock|tryLockNanos))")
# Private methods of the JDK in which one waits, with their classes.
PRIVATE = re.compile(r"(java\.util\.concurrent\.(?:CompletableFuture|FutureTask|Phaser|CyclicBarrier|Exchanger))\.(?:"
                     r"waitingGet|timedGet|awaitDone|internalAwaitAdvance|dowait|(?:slot|arena)Exchange)")
# What calls these within their classes.
CALLS_PRIVATE = re.compile(r".*\.(?:get|join|await|awaitAdvance\w*|arriveAndAwaitAdvance|doRegister|exchange)")
AWAITS = re.compile(rf".*\${CONDITION}\.await\w*")
# The object of a lock of the JDK at which its waiters are parked, with the class of that lock.
OF_LOCKS = re.compile(r"(java\.util\.concurrent\.[\w.]+)\$(?:Nonfair|Fair)?Sync")
PARK, SUPPORT = re.compile(r"java\.util\.concurrent\.locks\.LockSupport\.park"), re.compile(r".*\.LockSupport\.park")
OF_CLASS = re.compile(r"\.[A-Z$][^.]*\.")  # (as a package has no capital)
RUN = "java.lang.Thread.run"
STATES = ("", "NEW", "RUNNABLE", "BLOCKED", "WAITING", "TIMED_WAITING", "TERMINATED")  # of Thread.State, or none
NEAR = 6  # frames in which a queue of the JDK stands above whoever waits in it


def add_faults(dump: JvmDump) -> None:
    """Says of the threads of what jstack prints which of them may lack lines."""
    for thread in dump.threads:
        thread.fault = thread.fault or misfit(thread, dump)
    for key, condition in crossed(dump).items():
        thread = next(thread for thread in dump.threads if thread.key == key)
        thread.fault = thread.fault or f"{thread.place}: it waits at {condition} by other frames than others do"


def misfit(thread: JvmThread, dump: JvmDump) -> str:
    """Returns what of the text of a thread doesn't fit the rest, so that lines may be missing, or nothing."""
    odd = misfit_of_heading(thread) or misfit_of_top(thread) or (
        f"no list of what it owns ('{OWNERS} ..') follows this line, or an empty one"
        if thread.state and dump.has_owners and not thread.lists_owned and not thread.is_virtual else "")
    is_parking = thread.state in ("WAITING", "TIMED_WAITING") and thread.detail == "parking"
    odd = odd or (misfit_of_park(stack_of(thread), thread.parked_class) if is_parking else "")
    return f"{thread.place}: {odd}" if odd else ""


def misfit_of_heading(thread: JvmThread) -> str:
    """Returns what of its heading and its state doesn't fit what follows, or nothing."""
    if thread.number and not thread.state and not thread.is_virtual:
        return "no state follows this line"
    if thread.number and not thread.is_virtual and thread.has_top != bool(thread.frames):
        return "this line doesn't fit whether frames follow it"
    return f"no thread has the state {quote(thread.state)}" if thread.state not in STATES else ""


def misfit_of_top(thread: JvmThread) -> str:
    """Returns what of its state doesn't fit its first frame, or nothing."""
    top = thread.frames[0] if thread.frames else None
    wanted = TOPS.get(thread.detail) if thread.state in ("WAITING", "TIMED_WAITING") else None
    if wanted and (top is None or not wanted.fullmatch(top.method)):
        return f"its state is '{thread.state} ({thread.detail})', and its first frame is another"
    if top is not None and thread.state != "BLOCKED" and any(kind == "waiting to lock" for kind, _ in top.marks):
        return f"it waits to lock a monitor, and its state is {thread.state or 'missing'}"
    return ""


@lru_cache(maxsize=4096)
def misfit_of_park(stack: Stack, parked_class: str) -> str:
    """Returns what of the frames of a thread doesn't fit the class of what it is parked at, or nothing. Many threads
    have the same ones."""
    methods = [method for method, _, _ in stack]
    return misfit_of_callers(methods) or misfit_of_private(methods) or misfit_of_class(methods, parked_class)


def misfit_of_callers(methods: List[str]) -> str:
    """Returns which of the methods of a thread that is parked doesn't call such a thing, or nothing."""
    caller = methods[1] if methods[1:] else ""
    if never_parks(caller):
        return f"it is parked, and {caller} calls no such thing"
    nameless = next((method for method in methods if JDK.match(method) and not OF_CLASS.search(method)), "")
    if nameless:
        return f"{nameless} is of no class of the JDK"
    parking = next((method for method in methods[1:] if not PARK.match(method)), "")
    if QUEUES.fullmatch(parking) and not PARKS.fullmatch(parking):
        return f"it is parked, and {parking} calls no such thing"
    waiting = next((method for method in methods if not is_like(MACHINERY, method)), "")
    is_other = waiting.startswith(OF_QUEUES) and not WAITS.fullmatch(waiting)
    return f"it is parked, and {waiting} calls no such thing" if is_other else ""


def never_parks(caller: str) -> bool:
    """Whether a method never parks a thread itself."""
    is_odd = SUPPORT.match(caller) and not PARK.match(caller)  # (as of another package, which has no such class)
    is_foreign = caller and not (JDK.match(caller) or LIBRARY.match(caller))
    return bool(is_odd or caller == RUN or QUEUES.fullmatch(caller) or is_foreign)


def misfit_of_private(methods: List[str]) -> str:
    """Returns which method is called by another class than its own, which alone calls it, or nothing."""
    for method, caller in zip(methods, [*methods[1:], "nobody"]):
        own = PRIVATE.fullmatch(method)
        if own and not (caller.startswith(f"{own[1]}.") and CALLS_PRIVATE.fullmatch(caller)):
            return f"its own class alone calls {method}, and not {caller}"
    return ""


def misfit_of_class(methods: List[str], parked_class: str) -> str:
    """Returns why no thread with such methods is parked at this class, or nothing."""
    is_in_queue = any(map(QUEUES.fullmatch, methods[:NEAR]))
    awaits, is_condition = any(map(AWAITS.fullmatch, methods)), parked_class.endswith(f"Synchronizer${CONDITION}")
    if is_condition and not awaits:
        return "it is parked at a condition, and no frame awaits one"
    if QUEUES.fullmatch(parked_class) and not is_condition:
        return f"nobody parks at a {parked_class}"
    lock = OF_LOCKS.fullmatch(parked_class)
    is_in_class = lock is not None and any(name.startswith((f"{lock[1]}.", f"{lock[1]}$")) for name in methods)
    if lock and not (is_in_queue and (awaits or is_in_class)):
        return f"it is parked at a lock of {lock[1]}, and no frame is of that class"
    return ""


def crossed(dump: JvmDump) -> Dict[str, str]:
    """Returns the keys of those that wait at one condition, each with that, where the one waits within a class of the
    JDK, and the other within another or none: such a condition is of one class alone."""
    callers: DefaultDict[str, Set[str]] = defaultdict(set)
    waiters: DefaultDict[str, List[str]] = defaultdict(list)
    for thread in dump.threads if any(CONDITION in other.parked_class for other in dump.threads) else ():
        objects = [thing for kind, thing in thread.frames[0].marks if kind == PARKED] if thread.frames else []
        if objects and CONDITION in thread.parked_class:
            caller = caller_of(thread)
            callers[objects[0]].add(caller.rpartition(".")[0] if caller.startswith(OF_QUEUES) else "")
            waiters[objects[0]].append(thread.key)
    return {key: f"<{thing}>" for thing, classes in callers.items() if len(classes) > 1 for key in waiters[thing]}
