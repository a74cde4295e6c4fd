"""What a frame of Python's library that a thread stands in says of its wait: who may end it, and with which limit."""
from __future__ import annotations

import re
from dataclasses import dataclass, field
from functools import lru_cache
from typing import Any, Dict, List, Optional, Pattern, Tuple

from ...core.model import Part, Sign, Wakers, all_of, any_of, unseen, wakers
from ...core.sketch import GOING, LIMIT, SYSTEM, WORK, premise
from .job import BLOCK, CHILD, DEAD, PythonJob
from .names import Standing
from .rows import is_number, last_word
from .stack import KEPT, PythonFrame, PythonStack

SHARED = re.compile(r"multiprocessing\.queues\.(?:Joinable)?Queue\.(put|get|join)$")
FEED = "multiprocessing.queues.Queue._feed"
MEETS = re.compile(r"multiprocessing\.synchronize\.(Condition|Event)\.wait$")  # also of a Barrier
SEMAPHORES = re.compile(r"multiprocessing\.synchronize\.\w+\.__enter__$")
CHILDREN = re.compile(r"subprocess\.Popen\.(wait|_wait)$")
WAITS = re.compile(r"(os|posix)\.(wait|waitpid|wait3|wait4|waitid)$")
PAUSES = re.compile(r"signal\.(pause|sigwait\w*)$")  # of a thread that waits to be stopped
# What is private to a process: modules of the library whose calls wait at it, and classes.
PRIVATE = re.compile(r"(threading|queue|_queue|asyncio\.(locks|queues)|concurrent\.futures\._base)\.")
PRIVATE_TYPES = ("lock", "RLock", "SimpleQueue")
# What waits for data from elsewhere: modules of the library, what calls of no Python frame are of, and classes.
OUTSIDE = re.compile(r"(socket|ssl|selectors|select|subprocess|asyncio\.(streams|\w+_events|sslproto|subprocess)|http"
                     r"|multiprocessing\.connection|urllib|socketserver|xmlrpc)\.")
OUTSIDE_MODULES = ("posix", "select", "_io", "_socket", "_ssl", "_multiprocessing")
POLLS = ("epoll", "poll")  # classes of the module `select`
OUTSIDE_TYPES = ("socket", "SSLSocket", "Connection", "TextIOWrapper", "BufferedReader", "FileIO", *POLLS)
KEEPERS = re.compile(r"concurrent\.futures\.process\.(_ExecutorManagerThread\.run|_queue_management_worker)$"
                     r"|multiprocessing\.pool\.(\w+\.)?_handle_(results|workers)$")
BUSY = 0.2  # the part of the time between two looks that one who computes has used at least


@dataclass
class PythonWait:
    """How one waits, as a process of a sketch has it. `count` is its own, where what it waits for comes once and for
    all."""

    sign: Sign
    parts: List[Part] = field(default_factory=list)
    reason: str = ""
    because: List[str] = field(default_factory=lambda: [SYSTEM])
    count: Optional[str] = None

    def goes_on(self) -> bool:
        return self.sign in GOING

    def beside(self, *more: Wakers) -> PythonWait:
        """The same, where others may end each part too."""
        if not more:
            return self
        return PythonWait(self.sign, [(*part, *more) for part in self.parts], self.reason, self.because, self.count)


def goes(reason: str) -> PythonWait:
    return PythonWait(Sign.GOES_ON, reason=reason)


def limited(reason: str) -> PythonWait:
    return PythonWait(Sign.SLEEPS, reason=reason, because=[premise(LIMIT)])


def unsure(reason: str, *because: str) -> PythonWait:
    return PythonWait(Sign.UNKNOWN, reason=reason, because=list(because))


def blocked(parts: List[Part], *because: str) -> PythonWait:
    return PythonWait(Sign.BLOCKED, parts, because=list(because) or [SYSTEM])


def resting(reason: str, parts: List[Part]) -> PythonWait:
    return PythonWait(Sign.RESTS, parts, reason)


# What goes on by itself


def by_work(standing: Standing) -> Optional[PythonWait]:
    """It computes if it has used the processor. One that hasn't may stand anywhere in a call of the interpreter's own,
    as where the last name of a file goes and its end is written into a full pipe."""
    spent: Any = standing.row.more.get("spent")
    seconds = standing.look.seconds
    return goes("it computes") if is_number(spent) and seconds > 0 and spent >= BUSY * seconds * 1e9 else None


def by_sleep(standing: Standing) -> Optional[PythonWait]:
    is_sleep = standing.call.get("module") == "time" and standing.call.get("function") == "sleep"
    return limited("it sleeps") if is_sleep else None


def by_step(standing: Standing) -> Optional[PythonWait]:
    """One that has moved runs. In a function of the module `select` it may only look again and again, with a limit."""
    more, on = standing.row.more, standing.call.get("on")
    is_polling = standing.call.get("module") == "select" or isinstance(on, dict) and on.get("type") in POLLS
    if is_polling and more.get("asleep") is True and (more.get("new_stops") or more.get("woke")):
        return limited("it looks again and again")
    return goes("it moved between two looks") if more.get("moved") is True else None


def limit_of(call: Dict[str, Any]) -> Any:
    """The limit that a call of `acquire` is given, by its name or as the second argument, or None."""
    arguments, named = call.get("arguments"), call.get("named") or []
    if not isinstance(arguments, list):
        return None
    if "timeout" in named:
        return arguments[len(arguments) - len(named) + named.index("timeout")]
    return arguments[1] if len(arguments) == 2 and arguments[0] is True else None


def by_limit(standing: Standing) -> Optional[PythonWait]:
    """A limit of the innermost wait. That of an outer call doesn't count: it may be over, or not begun."""
    if not standing.frames:
        return None
    top = standing.frames[0]
    limit = limit_of(standing.call) if standing.word == "acquire" else None
    if is_number(limit) and limit >= 0:
        return limited("it waits with a limit")
    timeout: Any = top.has.get("timeout")
    if top.at == "threading.Condition.wait" and standing.word not in ("acquire", ""):
        return None
    is_wait = top.at in ("threading.Condition.wait", "threading.Thread.join") or top.at.startswith("selectors.")
    if top.at == "threading.Thread._wait_for_tstate_lock":
        is_wait, timeout = True, timeout if is_number(timeout) and timeout >= 0 else None
    limits = [owner.get("limit") for owner in (standing.call.get("on"), top.has.get("self")) if isinstance(owner, dict)]
    if not is_wait and top.kind == "standard" and is_number(timeout):
        return unsure("the limit of its wait isn't understood")
    is_limited = is_wait and is_number(timeout) and timeout >= 0 or any(map(is_number, limits))
    return limited("it waits with a limit") if is_limited else None


# Locks that show their owner, or who has taken them by a block


def lock_of(standing: Standing) -> Any:
    """The lock that the innermost frame waits for without a limit, or None."""
    call, top, word = standing.call, standing.frames[0], standing.word
    if top.at in ("importlib._bootstrap._ModuleLock.acquire", "threading._RLock.acquire"):
        return top.has.get("self")
    if word == "_acquire_restore":
        return top.has["self"]["lock"]
    if call.get("how") == "with":
        return call.get("on")
    is_acquire = word in ("acquire", "__enter__") and call.get("arguments") in ([], [True]) and not call.get("named")
    return call.get("on") if is_acquire else None


def by_lock(standing: Standing) -> Optional[PythonWait]:
    lock = lock_of(standing) if standing.frames else None
    if isinstance(lock, dict) and "locked" in lock:
        return by_block(standing, lock)
    if not isinstance(lock, dict) or "owner" not in lock:
        return None
    if lock["owner"] == standing.row.key or lock["owner"] not in standing.look.threads:
        return by_dead_owner(standing, lock)
    return blocked(any_of(wakers("owns", standing.job.owners(lock["owner"]))))


def by_dead_owner(standing: Standing, lock: Dict[str, Any]) -> PythonWait:
    """The wait for a lock of whose owner the state has nothing. It has ended if the state has all threads. A thread
    that begins later may have its number, and gives the lock back then, so whoever may begin one may end the wait."""
    look = standing.look
    is_dead = lock.get("type") == "RLock" and lock.get("gone") is True and lock["owner"] != standing.row.key
    if not is_dead or look.head.get("others") != 0 or not look.is_whole:
        return unsure("its lock had no owner that is in the state")
    keys = [row.key for row in look.rows() if idle_wait(Standing(standing.job, row, row.frames)) is None]
    others = [name for name in standing.job.names_of(keys) if name != standing.name]
    return blocked(any_of(wakers("starts", others)) if others else [()], DEAD)


def by_block(standing: Standing, lock: Dict[str, Any], most: int = 1) -> Optional[PythonWait]:
    """The wait for a lock that doesn't show its owner: for the one whose code has taken it for a block, or for the most
    that may have it so. Code that names `release` may give it back too, and where an inner block may have done so, all
    of the process may have it. None if they are fewer, or more."""
    if lock.get("locked") is False:
        return unsure("its lock is free, so it is about to go on")
    look, job = standing.look, standing.job
    taken = job.taken.get(lock.get("id"), [])
    keys = taken or job.around.get(lock.get("id"), [])
    if len(keys) != most:
        return None
    names = [name for key in keys for name in (job.owners(key) if key in look.threads else job.names_of([key]))]
    wait = blocked(any_of(wakers("owns", list(dict.fromkeys(names)), BLOCK)), BLOCK)
    able = () if taken else job.same_process(standing.name)
    return wait.beside(*able, *([wakers("releases", job.releasing)] if job.releasing else []))


def by_takers(standing: Standing, semaphore: Dict[str, Any]) -> Optional[PythonWait]:
    """The wait for a permit, of which the state doesn't show how many there are: for those whose code has taken one for
    a block, and for others who may have one besides. None if nobody has."""
    keys = standing.job.taken.get(semaphore.get("id"), [])
    owners = wakers("owns", standing.job.names_of(keys), BLOCK)
    return blocked(any_of(owners, *standing.job.same_process(standing.name))) if owners.who else None


def by_semaphore(standing: Standing) -> Optional[PythonWait]:
    is_wait = standing.frames and standing.frames[0].at == "threading.Condition.wait"
    line = next((line for line in standing.standard if line.at == "threading.Semaphore.acquire" and is_wait), None)
    semaphore: Any = line.has.get("self") if line is not None else None
    is_empty = isinstance(semaphore, dict) and semaphore.get("left") == 0
    return by_takers(standing, semaphore) if is_empty else None


# Joins


def by_join(standing: Standing) -> Optional[PythonWait]:
    line = next((line for line in standing.standard if line.at == "threading.Thread.join"
                 and isinstance(line.has.get("self"), dict)), None)
    if line is None or line is not standing.frames[0] and \
            standing.frames[0].at != "threading.Thread._wait_for_tstate_lock":
        return None
    name = standing.job.name_of(line.has["self"].get("ident"))
    return blocked(any_of(ends(name, "the thread that it joins isn't in the state")))


def ends(name: Optional[str], why: str, *because: str) -> Wakers:
    """One that has to end first, or that isn't in the state."""
    return wakers("ends", [name], *because) if name else unseen("unread", why)


def by_end(standing: Standing) -> Optional[PythonWait]:
    """The main thread ends when all others have that aren't daemons."""
    if not standing.frames or standing.frames[0].at != "threading._shutdown":
        return None
    keys = [row.key for row in standing.look.threads.values() if row is not standing.row
            and row.more.get("daemon") is False]
    return blocked(all_of(filter(None, map(standing.job.name_of, keys)), "ends")) if keys else None


def by_child(standing: Standing) -> Optional[PythonWait]:
    """A child that is in the state ends with its main thread."""
    job = standing.job
    for line in standing.standard:
        child: Any = line.has.get("self")
        is_wait = line.at in ("multiprocessing.process.BaseProcess.join", "subprocess.Popen.wait")
        pid = child.get("pid") if is_wait and isinstance(child, dict) and line.has.get("timeout") is None else None
        name = job.machine.mains.get(standing.look.place(pid)) if pid is not None else None
        if name:
            made = blocked(any_of(wakers("ends", [name], CHILD)), CHILD)
            return made.beside(*job.cancellers(child.get("id"), False))
    return None


# Waits of which the state shows at most who may come to what is waited at


def by_object(standing: Standing) -> PythonWait:
    """The wait of one of which the state doesn't show who ends it."""
    (operation, _), job = standing.operation(), standing.job
    kind = kind_of_object(standing.stack.standard)
    if kind is SHARED:
        queue = next(line for line in standing.standard if SHARED.match(line.at))
        return shared_wait(job, queue.has.get("self"))
    if kind is MEETS:
        return reached_wait(job.machine.kin_of(standing.look.place()), "which processes have it isn't shown")
    if is_feeding(standing):
        return feeding_wait(job)
    if semaphore_in(standing):
        takers = job.machine.takers.get((standing.look.place()[0], semaphore_in(standing)), [])
        return reached_wait([name for name in takers if name != standing.name], "who else has it isn't shown")
    if kind is CHILDREN or WAITS.match(operation):
        return child_wait(standing)
    if PAUSES.match(operation):
        return resting("waits for a signal", any_of(unseen("outside")))
    if is_private(standing):
        return blocked(any_of(*job.same_process(standing.name)))
    if is_outside(standing):
        return outside_wait(standing)
    return unsure(f"no state shows what ends its {called(standing, operation)}" if operation else
                  "its call isn't known: it may wait or compute")


@lru_cache(maxsize=KEPT)
def kind_of_object(names: Tuple[str, ...]) -> Optional[Pattern[str]]:
    """Returns which frames of the library show at what one waits, by their names: the first kind of which one is."""
    return next((kind for kind in (SHARED, MEETS, CHILDREN) if any(map(kind.match, names))), None)


def called(standing: Standing, operation: str) -> str:
    """What a wait is called in a reason. Of a `with` at something that isn't known, the words are no operation."""
    is_known = standing.call.get("how") != "with" or isinstance(standing.call.get("on"), dict) or standing.standard
    own = standing.stack.own
    return operation if is_known or not own else f"wait in {own[0]}"


def reached_wait(names: List[str], why: str) -> PythonWait:
    lost = [unseen("unshown", why)] if why else []
    return blocked(any_of(*([wakers("reaches", names)] if names else []), *lost))


def shared_wait(job: PythonJob, queue: Any) -> PythonWait:
    """The wait at a queue of multiprocessing: for all who are in a process that has it."""
    host = job.look.place()[0]
    what = queue.get("queue") if isinstance(queue, dict) else None
    names, why = job.machine.sharers.get((host, what), []), job.machine.missing.get(host, "")
    is_known = what is not None and names
    return reached_wait(names, why) if is_known else reached_wait([], "which processes have its queue isn't shown")


def feeding_wait(job: PythonJob) -> PythonWait:
    """The wait of a thread that writes for a queue of multiprocessing whose pipe is full: for all who have one of those
    that its process has."""
    host = job.look.place()[0]
    names = [name for what in sorted(job.look.queues) for name in job.machine.sharers.get((host, what), ())]
    why = job.machine.missing.get(host, "") if names else "which queue it writes for isn't shown"
    return reached_wait(list(dict.fromkeys(names)), why)


def is_feeding(standing: Standing) -> bool:
    names = standing.stack.names
    is_library = FEED in names and all(line.kind == "standard" for line in standing.frames[:names.index(FEED)])
    return is_library and names[0] != "threading.Condition.wait"


def semaphore_in(standing: Standing) -> str:
    """Returns the lock of multiprocessing that one waits for, or nothing: the reader's lock of a queue is one too."""
    top = standing.frames[0] if standing.frames else None
    is_block = top is not None and SEMAPHORES.match(top.at) is not None
    lock: Any = top.has.get("self") if top is not None and is_block else standing.call.get("on")
    is_lock = isinstance(lock, dict) and lock.get("type") in ("Lock", "RLock") and lock.get("left") == 0
    is_taking = is_block or standing.word == "acquire"
    return str(lock["semaphore"]) if is_lock and is_taking and lock.get("semaphore") else ""


def child_wait(standing: Standing) -> PythonWait:
    """The wait for a child that isn't in the states, or for any child. Where its pipe has no room, those may read from
    it who have it in a variable."""
    own = [line.has.get("self") for line in standing.standard if CHILDREN.match(line.at)]
    child: Any = own[0] if own and isinstance(own[0], dict) else {}
    children = [] if child else standing.job.machine.children.get(standing.look.place(), [])
    readers = [some for some in standing.job.cancellers(child.get("id"), False) if child.get("full") is True]
    named = [wakers("ends", children)] if children else []
    able = [wakers("reaches", some.names()) for some in readers]
    return blocked(any_of(*named, *able, unseen("unread", "its child isn't in the states")))


def is_private(standing: Standing) -> bool:
    """Whether one waits at an object of the runtime, as a lock, a queue or a future."""
    on = standing.call.get("on")
    kind = on.get("type") if isinstance(on, dict) else None
    top = standing.frames[0].at if standing.frames else ""
    is_of_type = kind in PRIVATE_TYPES or kind == "Lock" and "semaphore" not in (on or {})
    return is_of_type or PRIVATE.match(top) is not None


def is_outside(standing: Standing) -> bool:
    """Whether one waits for data, or for a connection."""
    on = standing.call.get("on")
    kind = on.get("type") if isinstance(on, dict) else None
    top = standing.frames[0].at if standing.frames else ""
    return kind in OUTSIDE_TYPES or standing.call.get("module") in OUTSIDE_MODULES or OUTSIDE.match(top) is not None


def outside_wait(standing: Standing) -> PythonWait:
    """The wait for data from elsewhere. At a pipe of multiprocessing that is likely to be of a child or the parent."""
    if not any(line.at.startswith("multiprocessing.connection.") for line in standing.standard):
        return blocked(any_of(unseen("outside")))
    machine, place = standing.job.machine, standing.look.place
    parent = machine.mains.get(place(standing.look.head.get("parent")))
    family = [*machine.children.get(place(), []), *([parent] if parent else [])]
    return blocked(any_of(*([wakers("guess", family)] if family else []), unseen("unshown", "no state shows its pipe")))


# Work


def idle_wait(standing: Standing) -> Optional[PythonWait]:
    """The wait of a worker of a pool, or of a feeder of a queue, that has nothing to do, or of a thread that keeps the
    processes of a pool; else None."""
    if not has_no_work(standing.stack, standing.frames):
        return None
    if standing.stack.is_job:  # (whose work comes from another process)
        return resting(WORK, any_of(unseen("outside")))
    idle = resting(WORK, any_of(*standing.job.same_process(standing.name)))
    return keeper_wait(standing, idle) if any(KEEPERS.match(line.at) for line in standing.frames) else idle


def has_no_work(stack: PythonStack, frames: List[PythonFrame]) -> bool:
    """Whether these are the frames of one that takes what comes next for a pool or a queue."""
    if stack.is_taking or not stack.is_worker:
        return stack.is_worker
    call = frames[0].call or {}
    return call.get("words") is None or last_word(call) == "get"


def keeper_wait(standing: Standing, idle: PythonWait) -> PythonWait:
    """The wait of a thread that keeps the processes of a pool: for those that have a job, and for children that aren't
    in the states, which may have one. Its own process can at most close the pool. Without any it has nothing to do."""
    machine, place = standing.job.machine, standing.look.place
    children = [place(pid) for pid in standing.look.children]
    jobs = [child for child in children if child in machine.stands and machine.stands[child].stack.is_job]
    at_work = [machine.mains[child] for child in jobs
               if not has_no_work(machine.stands[child].stack, machine.stands[child].frames)]
    able = [wakers("reaches", at_work)] if at_work else []
    lost = [] if machine.mains.keys() >= set(children) else [unseen("unread", "a child of it isn't in the states")]
    others = [wakers("closes", group.who) if group.how == "same-process" else group for group in idle.parts[0]]
    return blocked(any_of(*able, *lost, *others)) if able or lost else idle
