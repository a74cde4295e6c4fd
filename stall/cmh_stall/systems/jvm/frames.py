"""What the frames of a JVM's threads mean: which are the job's own, which belong to idle workers, and which natives
compute. `jvm_waits` classifies threads by it."""
from __future__ import annotations

import re
from dataclasses import dataclass, field
from functools import lru_cache
from typing import Callable, Dict, List, Optional

from ...core.sketch import WORK, frame
from ..base import without_sleep
from .text import JvmThread, Stack, stack_of

JDK = re.compile(r"(?:java|javax|jdk|sun|com\.sun)\.")
# Frames that nobody has written.
MADE = re.compile(r".*(?:\$\$Lambda|\$Proxy\d|GeneratedMethodAccessor|\$\$(?:Enhancer|FastClass)|LambdaForm).*")
LIBRARY = re.compile(
    r"(?:kotlinx?|scala|groovy|clojure|akka|reactor|rx|okhttp3|okio|ch\.qos"
    r"|org\.(?:apache|springframework|eclipse\.jetty|slf4j|hibernate|jboss|postgresql|codehaus)"
    r"|io\.(?:netty|grpc|vertx|undertow|reactivex|micrometer)|com\.(?:google|zaxxer|mysql|fasterxml))\."
)
# What stands between a wait and whoever called it.
MACHINERY = re.compile(
    r"(?:jdk\.internal|sun)\.misc\.Unsafe\.park|java\.util\.concurrent\.locks\.(?:LockSupport|Abstract).*"
    r"|java\.util\.concurrent\.ForkJoinPool\.(?:(?:un)?managed|compensated)Block|java\.lang\.Object\.wait0?"
    r"|java\.lang\.VirtualThread\..*|java\.lang\.System\$\d+\..*|java\.lang\.Thread\.(?:sleep\w*|runWith)"
    r"|.*\$\w*Node\.(?:block|await)"
)
# Idle frames: a thread with one of them before the first of the job's own waits for work, and tells of no stall.
WORKER, ACCEPTOR, POLLER, TIMER, CLEANER, CARRIER, REAPER, USED, STOPPER = (
    WORK, "waits for a connection", "polls its sockets", "waits for tasks to be scheduled",
    "waits for objects to be cleaned up", "carries a virtual thread", "waits for the end of a child",
    "waits for events of its windows", "waits for the end of the server")
# The ways in which the outside may wake an idle thread, which then runs code of the job.
FROM_OUTSIDE = frozenset((ACCEPTOR, POLLER, REAPER, USED, STOPPER))
IDLE = [(re.compile(pattern), label) for pattern, label in (
    (r"jdk\.internal\.vm\.Continuation\.run", CARRIER),
    (r"java\.util\.concurrent\.ThreadPoolExecutor\.getTask", WORKER),
    (r"java\.util\.concurrent\.ForkJoinPool\.(?:awaitWork|deactivate|idleAwaitWork)", WORKER),
    (r"org\.apache\.tomcat\.util\.threads\.ThreadPoolExecutor\.getTask", WORKER),
    (r"org\.eclipse\.jetty\.util\.thread\.QueuedThreadPool(?:\$Runner)?\.idleJobPoll", WORKER),
    (r"io\.netty\.util\.concurrent\.\w*EventExecutor\.takeTask", WORKER),
    (r"kotlinx\.coroutines\.scheduling\.CoroutineScheduler\$Worker\.park", WORKER),
    (r"java\.awt\.EventQueue\.getNextEvent", USED),
    (r"java\.util\.TimerThread\.mainLoop", TIMER),
    (r"java\.util\.concurrent\.DelayScheduler\.loop", TIMER),
    (r"java\.lang\.ref\.ReferenceQueue\.remove0?", CLEANER),
    (r"java\.net\.ServerSocket\.accept|java\.net\.PlainSocketImpl\.socketAccept", ACCEPTOR),
    (r"sun\.nio\.ch\.(?:ServerSocketChannelImpl|ServerSocketAdaptor)\.accept", ACCEPTOR),
    (r"sun\.nio\.ch\.SelectorImpl\.(?:lockAndDoSelect|select)", POLLER),
    (r"io\.netty\.channel\.\w+\.Native\.\w*[wW]ait0?", POLLER),
    (r"sun\.nio\.ch\.(?:Poller\.\w*[lL]oop|(?:EPoll|KQueue)Port\$EventHandlerTask\.poll)", POLLER),
    (r"java\.lang\.ProcessHandleImpl\.waitForProcessExit0", REAPER),
    (r"org\.apache\.catalina\.core\.StandardServer\.await", STOPPER),
)]
RUN_WORKER = "java.util.concurrent.ForkJoinPool.runWorker"  # in which workers of JDK 9 to 16 wait for work
# Waits for a timer rather than for work, if they have a limit.
HAS_TIMER = re.compile(r"java\.util\.TimerThread\.mainLoop|java\.util\.concurrent\.DelayScheduler\.loop"
                       r"|java\.util\.concurrent\.ScheduledThreadPoolExecutor\$DelayedWorkQueue\.(?:take|poll)")
# Waits for work of one that has a task to run later, if they have a limit.
HAS_TASK = re.compile(r"io\.netty\.util\.concurrent\.\w*EventExecutor\.takeTask"
                      r"|java\.util\.concurrent\.DelayQueue\.(?:take|poll)")
# The workers of pools that end after a time, and run nothing of the job's then: those of the pool that all share are by
# their name of the class that the JDK has for them.
ENDS_UNSEEN = re.compile(r"java\.util\.concurrent\.ThreadPoolExecutor\.getTask|jdk\.internal\.misc\.CarrierThread\.run")
SHARED_WORKER = re.compile(r"ForkJoinPool\.commonPool-worker-\d+")
# The JDK's own timers, which complete a CompletableFuture once its limit is over.
LIMITS_FUTURES = re.compile(r"CompletableFutureDelayScheduler|.*-delayScheduler")
FUTURE = re.compile(r"CompletableFuture\.\w+")
CONDITION, OF_QUEUES = "ConditionObject", "java.util.concurrent."
POOLS_OWN = "java.util.concurrent.ThreadPoolExecutor$Worker"  # a lock of each worker at work
# Calls within which a socket has a lock of its own.
SOCKETS = re.compile(r"sun\.nio\.ch\.(?:NioSocketImpl|(?:Server)?SocketChannelImpl)"
                     r"\.(?:accept|read|write|implRead|implWrite)")
# Waits with a limit that often is one of centuries.
LONG = re.compile(r"java\.util\.concurrent\.\w+\.awaitTermination")
# Waits with a limit that only wait again.
AGAIN = re.compile(r"java\.io\.Piped(?:InputStream|Reader)\.(?:read|receive|awaitSpace)"
                   r"|java\.util\.concurrent\.\w+\.close")
READS_PIPE = re.compile(r"java\.io\.PipedInputStream\.read")
SLEEP = re.compile(r"java\.lang\.Thread\.sleep\w*")
LIMITED = re.compile(r"java\.(?:lang\.\w+|util\.concurrent\.locks\.LockSupport)\.(?:sleep\w*|parkNanos)")
# Calls that end once all of several have come, or have released a lock.
NEEDS_ALL = re.compile(r"(?:CountDownLatch|CyclicBarrier|Phaser)\.\w+|\w+\.(?:invokeAll|awaitTermination|close)"
                       r"|StructuredTaskScope\w*\.join\w*|.*WriteLock\.lock\w*")
READS = re.compile(r"ReentrantReadWriteLock\$ReadLock\.lock\w*")
# Operations that need all of a group to come to them.
MEETS = re.compile(r"CyclicBarrier\.await|Phaser\.arriveAndAwaitAdvance")
# Calls by which nobody means to wait for ever: to put something where there is no room, or to meet others.
NEVER_MEANT = re.compile(r"\w+(?:Queue|Deque)\.(?:put\w*|transfer)|Exchanger\.exchange|CyclicBarrier\.await"
                         r"|Phaser\.arriveAndAwaitAdvance")
# Calls that end once a task has run, and the frames of threads of pools, which run tasks.
TASK = re.compile(r"(?:FutureTask|CompletableFuture|ForkJoinTask)\.(?:get|join)")
POOLED = re.compile(r"java\.util\.concurrent\.(?:ThreadPoolExecutor\$Worker|ForkJoinWorkerThread)\.run")
# Calls that end once a task of a kind has run, or a value is loaded, each with a frame of those who do such a thing.
RUNS_TASK = [(re.compile(call), re.compile(frame)) for call, frame in (
    (r"FutureTask\.get|AbstractExecutorService\.invoke(?:All|Any)",
     r"java\.util\.concurrent\.(?:FutureTask\.run|ThreadPoolExecutor\.runWorker)"),
    (r"CompletableFuture\.(?:get|join)", r"java\.util\.concurrent\.CompletableFuture\$Async(?:Supply|Run)\.run"),
    (r"ForkJoinTask\.(?:get|join|invoke)", r"java\.util\.concurrent\.ForkJoinTask\.doExec"),
    (r"\w+\$TrustedFuture\.get", r"com\.google\.common\.util\.concurrent\.TrustedListenableFutureTask\.run"),
    (r"LocalCache\$\w+\.get\w*", r"com\.google\.common\.cache\.LocalCache\$LoadingValueReference\.load\w+"))]
BARRIER = re.compile(r"java\.util\.concurrent\.CyclicBarrier\.(?:await|dowait)")
# Calls that come to threads without a reference.
FINDS_THREADS = re.compile(r"java\.lang\.(?:ThreadGroup\.(?:enumerate|interrupt|stop)"
                           r"|Thread\.(?:enumerate|getAllStackTraces|getAllThreads|getThreads))")
# Waits for a lock that an interrupt ends, also within the JDK's own queues.
INTERRUPTIBLY = re.compile(r"java\.util\.concurrent\.locks\..*Interruptibly")
# The classes of a ReentrantLock at which one is parked, and the code of all locks of the JDK.
REENTRANT = re.compile(r"java\.util\.concurrent\.locks\.ReentrantLock\$(?:Nonfair|Fair)Sync")
OF_LOCKS = re.compile(r"java\.util\.concurrent\.locks\..*")
# Calls that only let others go first: who waits by them looks again and again.
YIELDS = re.compile(r"java\.lang\.Thread\.(?:yield0?|onSpinWait)")
# Waits for what is outside of the JVM: a child, a pipe or file, a server; and those that read.
OUTSIDE = re.compile(r"java\.lang\.Process(?:Impl)?\.waitFor|java\.io\.File(?:In|Out)putStream\.(?:read|write)Bytes"
                     r"|sun\.nio\.ch\.(?:NioSocketImpl|SocketChannelImpl)\.(?:read|implRead|write|implWrite|connect)"
                     r"|java\.net\.(?:SocketInputStream\.socketRead0?|PlainSocketImpl\.socketConnect)")
READS_OUTSIDE = re.compile(r"java\.io\.FileInputStream\.readBytes|sun\.nio\.ch\.\w+\.(?:read|implRead)"
                           r"|java\.net\.SocketInputStream\.socketRead0?")
# Natives that compute, or that the JVM ends by itself.
COMPUTES = re.compile(
    r"java\.lang\.(?:Thread|Object|Class|ClassLoader|System|Throwable|String|StringCoding|StringUTF16|StrictMath"
    r"|Runtime|Shutdown|ref\.\w+|reflect\.\w+|invoke\.\w+|StackStreamFactory\S*)\.(?!wait|sleep|join|park|load|halt)\w+"
    r"|java\.util\.zip\.\w+\.\w+|(?:jdk\.internal|sun)\.misc\.(?:Unsafe|VM|CDS)\.(?!park)\w+"
    r"|(?:jdk\.internal|sun)\.reflect\.\w+\.\w+"
)
# Threads of the JVM itself, unless they run code of the job.
OF_THE_JVM = re.compile(
    r"Reference Handler|Finalizer|Signal Dispatcher|Service Thread|Monitor Deflation Thread|Common-Cleaner"
    r"|Notification Thread|Attach Listener|DestroyJavaVM|C[12] CompilerThread\d+|Sweeper thread|process reaper.*"
    r"|Surrogate Locker Thread.*|VirtualThread-un\w+|MasterPoller|(?:Read|Write|Sub)-?Poller.*|JVMCI.*|JFR .*"
    r"|RMI (?!TCP Accept).*|GC Daemon|Secondary finalizer|Keep-Alive-Timer|JDWP .*|Java2D .*|AWT-Shutdown"
    r"|(?:idle|req-rsp)-timeout-task"
)
# Threads that run whatever tasks they are given, and what the JVM calls those of its own pools, or of its HTTP server.
FOR_TASKS = re.compile(POOLED.pattern + r"|java\.util\.TimerThread\.mainLoop")
OF_ITS_POOLS = re.compile(r"VirtualThread-un\w+|RMI (?:Scheduler|TCP Connection)\(\d.*|(?:idle|req-rsp)-timeout-task")
# What they call who end a child, and then run what the job has left for that end (Process.onExit).
REAPS = re.compile(r"java\.lang\.ProcessHandleImpl\S*")
# Those of them that run no code of the job at any time, and so end nobody's wait.
INSIDE = re.compile(r"Signal Dispatcher|Service Thread|Monitor Deflation Thread|Attach Listener|Sweeper thread"
                    r"|C[12] CompilerThread\d+")
# The call of one that waits for its next message, and functions without a name of their own.
INBOX = re.compile(r"\w*(?:Queue|Deque)\.(?:take\w*|poll\w*)|Piped(?:InputStream|Reader)\.\w+")
NAMELESS = re.compile(r"lambda|\$\d")
# Where main waits until the program is to end.
FOR_THE_END = re.compile(r"CountDownLatch\.await|Object\.wait|LockSupport\.park|Condition\.await|Thread\.join")
KEPT = 65536  # methods whose meaning is kept


@lru_cache(maxsize=KEPT)
def is_jobs(method: str) -> bool:
    """Whether a frame is neither of the JDK nor made."""
    return not JDK.match(method) and not MADE.match(method)


@lru_cache(maxsize=KEPT)
def is_own(method: str) -> bool:
    """Whether a frame is the job's own: of no library that many jobs use."""
    return is_jobs(method) and not LIBRARY.match(method)


@lru_cache(maxsize=KEPT)
def is_like(pattern: "re.Pattern[str]", method: str) -> bool:
    return pattern.fullmatch(method) is not None


@lru_cache(maxsize=4096)
def has_jobs(stack: Stack) -> bool:
    """Whether a frame is of the job. Many threads have the same frames."""
    return any(is_jobs(method) for method, _, _ in stack)


def is_of_jvm(thread: JvmThread) -> bool:
    """Whether a thread is of the JVM itself, and runs no code of the job, nor will once a child ends. A timer or a
    worker of a pool may be the job's by most names."""
    stack = stack_of(thread)
    if has_jobs(stack) or is_in(REAPS, stack) or is_in(FOR_TASKS, stack) and not OF_ITS_POOLS.fullmatch(thread.name):
        return False
    inside = thread.number is None and not thread.state and not thread.frames
    return inside or OF_THE_JVM.fullmatch(thread.name) is not None


def is_inside(thread: JvmThread) -> bool:
    """Whether a thread of the JVM itself runs no code of the job at any time: it collects, compiles, prints."""
    return not thread.number or INSIDE.fullmatch(thread.name) is not None


def is_at_rest(thread: JvmThread) -> bool:
    """Whether a thread is idle until another thread of the job gives it something to do. One with a limit isn't, but
    for a worker of a pool that then ends without running code of the job."""
    place, stack = place_of(thread), stack_of(thread)
    if not place.idle or place.idle in FROM_OUTSIDE or place.idle == CLEANER:
        return False
    if not has_limit(thread):
        return thread.state in ("WAITING", "") or place.idle == CARRIER
    ends = is_in(ENDS_UNSEEN, stack) or SHARED_WORKER.fullmatch(thread.name) is not None
    return ends and not has_jobs(stack) and not place.has(HAS_TIMER) and not is_in(HAS_TASK, stack)


def has_limit(thread: JvmThread) -> bool:
    """Whether the wait of a thread has a limit, and none far away."""
    return not thread.far and (thread.state == "TIMED_WAITING" or not thread.state and place_of(thread).has(LIMITED))


@lru_cache(maxsize=4096)
def is_own_loop(stack: Stack) -> bool:
    """Whether a thread waits in the function that it or its task was started with: no other one in its frames has a
    name, but for one above it that only sleeps."""
    own = without_sleep([method for method, _, _ in stack if is_jobs(method)])
    return all(map(NAMELESS.search, own[1:]))


def awaits_task(thread: JvmThread) -> bool:
    """Whether a thread waits for a task or a future, which nobody does for ever by intent, unless it is main."""
    return thread.name != "main" and TASK.fullmatch(place_of(thread).call) is not None


def is_receive(place: JvmPlace) -> bool:
    """Whether one waits for its next message."""
    return INBOX.fullmatch(place.call) is not None


def is_for_the_end(place: JvmPlace) -> bool:
    """Whether one waits where main does until a signal or a hook ends the program."""
    return FOR_THE_END.fullmatch(place.call) is not None


def short(method: str) -> str:
    """'java.util.concurrent.ArrayBlockingQueue.put' as 'ArrayBlockingQueue.put'."""
    return ".".join(method.split(".")[-2:]).replace("AbstractQueuedSynchronizer$ConditionObject", "Condition")


@dataclass
class JvmPlace:
    """Where a thread stands: its frames as facts match them, the call that the topmost makes, and, if it is idle, a few
    words that say how. `above` are the methods of that call, topmost first."""

    frames: List[str]
    call: str
    above: List[str]
    idle: str = ""
    known: Dict["re.Pattern[str]", bool] = field(default_factory=dict)

    def has(self, pattern: "re.Pattern[str]") -> bool:
        """Whether a frame of the call matches a pattern. It is known once it was asked: a pool has one place."""
        if pattern not in self.known:
            self.known[pattern] = any(is_like(pattern, method) for method in self.above)
        return self.known[pattern]


def place_of(thread: JvmThread) -> JvmPlace:
    """Returns where a thread stands."""
    return place_at(stack_of(thread))


@lru_cache(maxsize=4096)
def place_at(stack: Stack) -> JvmPlace:
    """Returns where a thread with some frames stands. The threads of a pool share one, which isn't changed."""
    methods = [method for method, _, _ in stack]
    own = first_of(methods, is_own)
    start = first_of(methods, is_jobs) if own is None else own
    above = methods if start is None else methods[:start]
    if start is None:
        start = first_of(methods, lambda method: not is_like(MACHINERY, method)) or 0
        wanted = stack[start:]
    else:
        wanted = tuple(row for row in stack[start:] if is_jobs(row[0]))
    frames = [frame(*row) for row in wanted]
    called = [method for method in methods[:start] if not MADE.match(method)]
    reached = methods if own is None else methods[:own + 1]
    return JvmPlace(frames, short(called[-1]) if called else "", above, idle_label(reached))


@lru_cache(maxsize=4096)
def is_in(pattern: "re.Pattern[str]", stack: Stack) -> bool:
    """Whether a frame matches a pattern, be it of the JDK or the job's."""
    return any(pattern.fullmatch(method) for method, _, _ in stack)


def first_of(methods: List[str], holds: Callable[[str], bool]) -> Optional[int]:
    return next((number for number, method in enumerate(methods) if holds(method)), None)


def caller_of(thread: JvmThread) -> str:
    """The method that waits: the first that isn't between a wait and whoever called it."""
    return next((row.method for row in thread.frames if not is_like(MACHINERY, row.method)), "")


def idle_label(methods: List[str]) -> str:
    """Returns how a thread with these frames, before those of the job's own, is idle, or nothing."""
    parked = next((method for method in methods if not is_like(MACHINERY, method)), "")
    if parked == RUN_WORKER and len(methods) > 1:
        return WORKER
    return next(filter(None, map(label_of, methods)), "")


@lru_cache(maxsize=KEPT)
def label_of(method: str) -> str:
    """Returns how a thread with this frame is idle, or nothing."""
    return next((label for pattern, label in IDLE if pattern.fullmatch(method)), "")
