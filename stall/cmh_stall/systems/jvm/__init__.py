"""The JVM."""
from __future__ import annotations

from ..descriptor import Assumption, Descriptor, Option

SYSTEM = Descriptor(
    name="jvm",
    called="a JVM",
    target="PID",
    manual="""Ar PID
By
.Nm jstack ,
as the user of the JVM.""",
    states="two texts of `jstack -l PID`, seconds apart (or of `jcmd PID Thread.dump_to_file`)",
    by="a JVM, by jstack",
    shows="owners of locks; by `--heap` tasks, queues, latches",
    lacks="`jstack`",
    stops="the JVM stops at a safepoint while it prints its threads: twice, 0.6 s with 60 million objects. --heap "
          "shows more",
    needs={"jstack": "default-jdk-headless"},
    short="JVM",
    options=(Option("heap", "PID --heap --yes", "dump the heap too, for tasks, readers of a lock and joins; says what "
                    "that stops"),),
    noun="thread",
    sites={"JVM ": "thread"},
    operations="""synchronized Object.wait Thread.join Thread.sleep Condition.await Condition.awaitNanos
        ReentrantLock.lock ReentrantLock.lockInterruptibly ReentrantReadWriteLock$ReadLock.lock
        ReentrantReadWriteLock$WriteLock.lock Semaphore.acquire CountDownLatch.await CyclicBarrier.await
        Phaser.arriveAndAwaitAdvance FutureTask.get CompletableFuture.get CompletableFuture.join
        ArrayBlockingQueue.put ArrayBlockingQueue.take LinkedBlockingQueue.put LinkedBlockingQueue.take
        ThreadPoolExecutor.awaitTermination TimeUnit.sleep ServerSocket.accept SelectorImpl.select
        HttpURLConnection.getInputStream System.exit""",
    joins=("Thread.join", "ThreadPoolExecutor.awaitTermination"),
    bare_joins=("Thread.join", "System.exit"),  # (without a heap)
    for_others="join|CountDownLatch|http|sync$|invokeAll|awaitTermination",
    shares="inner",
    assumptions={
        "native": Assumption(
            "a native method of the JDK that is known to compute returns",
            "one that has used no processor time between the states"),
        "initialiser": Assumption(
            "a class that is waited for is the one of its name whose initialiser runs",
            "another class loader that initialises a class of that name"),
        "queued": Assumption(
            "one that waits to read with a lock that nobody owns is behind one that waits to write",
            "a writer that came later"),
        "processor-time": Assumption(
            "a thread that was woken has used 0.01 ms of processor time or more",
            "a system that counts more coarsely"),
        "pools": Assumption(
            "a task that stands in the queue of a pool is begun by a thread of that pool",
            "code of the program's own that takes tasks out of the queue"),
        "completes": Assumption(
            "a CompletableFuture is completed by the thread that computes its value",
            "code of the program's own that completes it besides"),
        "reaches": Assumption(
            "a thread that has no reference in the heap to what another one waits at, nor to that thread, doesn't end "
            "its wait", "native code, or code that looks for threads by name or group"),
    },
)
