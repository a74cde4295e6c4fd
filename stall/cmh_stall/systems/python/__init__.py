"""Python."""
from __future__ import annotations

from ..descriptor import Assumption, Descriptor, Units

SYSTEM = Descriptor(
    name="python",
    called="Python",
    target="PID..",
    manual="""Ar PID ...
Processes that have imported
.Nm cmh_state
and began with
.Ev CMH_STATE_FILE .
The time between their readings is their own.
Others get no signal: they are read by
.Nm py-spy
and as the kernel sees them, or by
.Nm gdb
with python3-dbg, or as the kernel sees them alone.""",
    states="what cmh_state prints on a signal, twice, or py-spy, gdb, faulthandler",
    by="Python processes that have imported cmh_state",
    shows="locks, tasks, futures, children",
    lacks="best `import cmh_state`",
    stops="nothing is stopped: a signal wakes the thread of cmh_state, and no other one",
    noun="task",
    is_threaded=True,
    units=Units(is_numbered=True),
    operations="""Lock.acquire RLock.acquire Semaphore.acquire BoundedSemaphore.acquire Event.wait Condition.wait
        Barrier.wait Queue.get Queue.put Queue.join SimpleQueue.get JoinableQueue.put JoinableQueue.join Thread.join
        Process.join Future.result Connection.recv socket.accept time.sleep asyncio.sleep asyncio.wait await
        asyncio.wait_for threading.wait threading.shutdown futures.wait""",
    joins=("Thread.join", "asyncio.wait", "await of a package"),
    for_others="join",
    shares="inner",
    assumptions={
        "block": Assumption(
            "a block that has taken a lock gives it back itself, and the name that it had for it is still that of this "
            "lock", "code that gives back another one's lock without naming `release`"),
        "cancel": Assumption(
            "nobody cancels a task but whom the state shows", "an extension that cancels tasks"),
        "child-process": Assumption(
            "a child ends with its main thread, and nobody kills it", "a kill from outside"),
        "connection": Assumption(
            "a thread that alone has a connection to a database in a variable is the one that uses and closes it",
            "a connection that threads share in an object"),
        "dead": Assumption("nobody gives back an RLock of a thread that has ended", "C code that does"),
        "future": Assumption(
            "who has begun or keeps the work of a future ends it, and nobody else does",
            "code that sets the result of another one's work without naming that"),
        "runtime": Assumption(
            "only its own process ends a wait at an object of the runtime, and no extension does",
            "an extension that calls back from a thread that has ended since"),
    },
)
