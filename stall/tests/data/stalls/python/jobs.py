"""Small programs that stall, and their healthy twins, which only take long. Usage: jobs.py NAME

`record NAME` keeps the states of one. The import comes first of all, as in each job.
"""
import cmh_state

import _thread
import asyncio
import contextlib
import faulthandler
import functools
import multiprocessing
import os
import queue
import signal
import sys
import threading
import time
import types
from concurrent import futures

LONG = 600


def start(name, work, *arguments):
    thread = threading.Thread(target=work, args=arguments, name=name, daemon=True)
    thread.start()
    return thread


# An alarm or a timer ends the wait of the main thread, or there is none.


def serve(requests, answers):
    answers.put(requests.get())


def ask(has_alarm):
    requests, answers = queue.Queue(), queue.Queue()
    start("server", serve, requests, answers)
    if has_alarm:
        signal.signal(signal.SIGALRM, give_up)
        signal.alarm(LONG)
    answers.get()


def ask_with_timer():
    timer = threading.Timer(LONG, _thread.interrupt_main)
    timer.daemon = True
    timer.start()
    ask(False)


def give_up(number, frame):
    raise TimeoutError


# Two tasks wait for each other, until a timer of the program cancels one, or another task of the gather raises.


async def take(own, other):
    await own.get()
    other.put_nowait(1)


async def watch():
    await asyncio.sleep(LONG)
    raise TimeoutError


def cancel(task):
    task.cancel()


async def cancel_late(task):
    await asyncio.sleep(LONG)
    task.cancel()


async def exchange(has_timer, has_canceller=False):
    left, right = asyncio.Queue(), asyncio.Queue()
    one = asyncio.create_task(take(left, right), name="left")
    two = asyncio.create_task(take(right, left), name="right")
    if has_timer:
        asyncio.get_running_loop().call_later(LONG, cancel, one)
    if has_canceller:
        asyncio.create_task(cancel_late(two), name="canceller")
    await asyncio.wait([one, two])


async def gather(with_watch, gathers_errors):
    left, right = asyncio.Queue(), asyncio.Queue()
    tasks = [asyncio.create_task(take(left, right), name="left"), asyncio.create_task(take(right, left), name="right")]
    if with_watch:
        tasks.append(asyncio.create_task(watch(), name="watch"))
    await asyncio.gather(*tasks, return_exceptions=gathers_errors)


# A file is closed into a full pipe, since its last name goes.


def read_all(number, orders):
    orders.get()
    os.read(number, 1 << 20)


def fill():
    number, end = os.pipe()
    orders = queue.Queue()
    start("reader", read_all, number, orders)
    out = open(end, "w", 1 << 20)
    out.write("x" * 500000)
    out = None
    orders.put(1)
    return out


def compute():
    orders = queue.Queue()
    start("reader", read_all, 0, orders)
    total = 0
    while True:
        total += 1


# Two threads look again and again for what the other one would give.


def poll(own, other):
    while True:
        try:
            own.get(timeout=1)
            other.put(1)
        except queue.Empty:
            pass


def poll_both(has_token):
    left, right = queue.Queue(), queue.Queue()
    if has_token:
        left.put(1)
    start("right", poll, right, left)
    start("left", poll, left, right).join()


# Two threads sleep until the other one has set its flag, or take turns by the flags.


def nap(flags, own, other):
    while not flags[other]:
        time.sleep(0.05)
    flags[own] = True


def take_turns(flags, own, other):
    while True:
        while flags[0] != own:
            time.sleep(0.05)
        flags[0] = other


def nap_both(work):
    flags = [0, 0]
    start("right", work, flags, 1, 0)
    start("left", work, flags, 0, 1).join()


# One waits until all orders are done, before it opens a gate. The clerk waits at the gate, or takes long.


def finish(orders, gate):
    orders.join()
    gate.set()


def clerk(orders, gate, is_slow):
    orders.get()
    if is_slow:
        time.sleep(LONG)
    gate.wait()
    orders.task_done()


def close_orders(is_slow):
    orders, gate = queue.Queue(), threading.Event()
    orders.put(1)
    start("clerk", clerk, orders, gate, is_slow)
    start("closer", finish, orders, gate).join()


# Two threads hand each other a token, or have lost it.


def pass_on(own, other):
    while True:
        own.get()
        other.put(1)


def pass_both(has_token):
    left, right = queue.Queue(), queue.Queue()
    if has_token:
        left.put(1)
    start("right", pass_on, right, left)
    start("left", pass_on, left, right).join()


# Two OS processes do so.


def relay(end):
    while True:
        end.recv()
        end.send(1)


def relay_both(has_token):
    here, there = multiprocessing.Pipe()
    child = multiprocessing.Process(target=relay, args=(there,), name="child")
    child.start()
    if has_token:
        here.send(1)
    relay(here)


# A child waits for its parent, which waits for the child to end. Another thread may kill it.


def wait_for(orders):
    orders.recv()


def kill_late(child):
    time.sleep(LONG)
    child.kill()


def start_timer(child):
    timer = threading.Timer(LONG, child.kill)
    timer.name, timer.daemon = "killer", True
    timer.start()


def queue_kill(child):
    pool = futures.ThreadPoolExecutor(1, "killer")
    pool.submit(time.sleep, LONG)
    pool.submit(child.kill)


def join_child(begin_killer):
    here, there = multiprocessing.Pipe()
    child = multiprocessing.Process(target=wait_for, args=(there,), name="child")
    child.start()
    begin_killer(child)
    child.join()
    here.send(1)


# The thread of a pool waits for work that the pool keeps for that thread. Another thread may cancel the work.


def submit(pool, kept):
    kept.append(pool.submit(pow, 2, 2))
    return kept[0].result()


def cancel_kept(kept):
    time.sleep(LONG)
    kept[0].cancel()


def nest(has_canceller):
    pool, kept = futures.ThreadPoolExecutor(1), []
    if has_canceller:
        start("canceller", cancel_kept, kept)
    pool.submit(submit, pool, kept).result()


def close_late(pool):
    time.sleep(LONG)
    pool.shutdown(cancel_futures=True)


def nest_closed():
    pool = futures.ThreadPoolExecutor(1)
    start("closer", close_late, pool)
    pool.submit(submit, pool, []).result()


# The same, where the closer comes to the pool by the attributes of several objects.


class Stage:
    def __init__(self):
        self.pool = futures.ThreadPoolExecutor(1)

    def stop(self):
        self.pool.shutdown(cancel_futures=True)


def stop_late(desk):
    time.sleep(LONG)
    for each in desk.application.stages.values():
        each.stop()


def nest_in_stage():
    desk = types.SimpleNamespace(application=types.SimpleNamespace(stages={"first": Stage()}))
    start("closer", stop_late, desk)
    pool = desk.application.stages["first"].pool
    pool.submit(submit, pool, []).result()


# The same, where a task waits for it, and a timer of its loop cancels the future that it waits for.


async def nest_in_loop():
    loop, pool = asyncio.get_running_loop(), futures.ThreadPoolExecutor(1)
    work = loop.run_in_executor(pool, submit, pool, [])
    loop.call_later(LONG, work.cancel)
    await asyncio.wait([work])


# The same, where the work stands in a list of a class, and the canceller has that by a method of its own alone.


class Desk:
    kept: list = []


class Canceller(threading.Thread):
    def run(self):
        time.sleep(LONG)
        self.cancel()

    def cancel(self):
        Desk.kept[0].cancel()


def nest_in_class():
    Canceller(name="canceller", daemon=True).start()
    pool = futures.ThreadPoolExecutor(1)
    pool.submit(submit, pool, Desk.kept).result()


# The same, where the canceller is a timer of an event loop in another thread, or a generator has the work.


def cancel_first():
    Desk.kept[0].cancel()


def run_loop(loop):
    asyncio.set_event_loop(loop)
    loop.run_forever()


def nest_beside_loop(has_timer):
    loop = asyncio.new_event_loop()
    start("loop", run_loop, loop)
    if has_timer:
        loop.call_soon_threadsafe(loop.call_later, LONG, cancel_first)
    pool = futures.ThreadPoolExecutor(1)
    pool.submit(submit, pool, Desk.kept).result()


def cancel_next(kept):
    yield
    kept[0].cancel()


def step_late(steps):
    next(steps)
    time.sleep(LONG)
    next(steps)


def nest_beside_generator():
    kept = []
    start("canceller", step_late, cancel_next(kept))
    pool = futures.ThreadPoolExecutor(1)
    pool.submit(submit, pool, kept).result()


# Both threads of a pool ask the event loop for what needs a thread of that pool. A task that knows the lookups by a
# registry of the module cancels them.

LOOKUPS = []


async def look_up(pool):
    LOOKUPS.append(asyncio.current_task())
    return await asyncio.get_running_loop().run_in_executor(pool, pow, 2, 2)


def handle(loop, pool):
    time.sleep(0.3)
    asyncio.run_coroutine_threadsafe(look_up(pool), loop).result()


async def reap():
    await asyncio.sleep(LONG)
    reap_all()


def reap_all():
    for each in LOOKUPS:
        each.cancel()


async def serve_starved(has_reaper):
    loop, pool = asyncio.get_running_loop(), futures.ThreadPoolExecutor(2, "web")
    asyncio.create_task(reap() if has_reaper else asyncio.sleep(LONG), name="reaper")
    await asyncio.gather(*[loop.run_in_executor(pool, handle, loop, pool) for _ in range(2)])


# Two of three threads are at a barrier. The third one comes late, or waits for one of them first.


def meet(barrier):
    barrier.wait()


def meet_late(barrier, first):
    if first is None:
        time.sleep(LONG)
    else:
        first.join()
    meet(barrier)


def meet_all(is_late):
    barrier = threading.Barrier(3)
    one = start("one", meet, barrier)
    start("two", meet, barrier)
    start("three", meet_late, barrier, None if is_late else one)
    one.join()


# A handler is told of a child that ends.


def on_child(number, frame):
    raise InterruptedError


def ask_with_children():
    child = multiprocessing.Process(target=time.sleep, args=(LONG,), name="child")
    child.start()
    signal.signal(signal.SIGCHLD, on_child)
    ask(False)


# Two threads take two locks in two orders.


def take_both(first, second):
    with first:
        time.sleep(0.3)
        with second:
            pass


def lock_both():
    left, right = threading.RLock(), threading.RLock()
    start("right", take_both, right, left)
    start("left", take_both, left, right).join()


def lock_until_dumped():
    faulthandler.dump_traceback_later(LONG, exit=True)
    lock_both()


def try_both(first, second):
    with first:
        time.sleep(0.3)
        while not second.acquire(timeout=0.5):
            pass


# The parent waits for a child that is deadlocked. A thread of the child ends it.


def end_late():
    time.sleep(LONG)
    os._exit(1)


def lock_in_child(has_watchdog):
    if has_watchdog:
        start("watchdog", end_late)
    lock_both()


def join_locked(has_watchdog):
    child = multiprocessing.Process(target=lock_in_child, args=(has_watchdog,), name="child")
    child.start()
    child.join()


def try_locks():
    left, right = threading.RLock(), threading.RLock()
    start("right", try_both, right, left)
    start("left", try_both, left, right).join()


# The owner of the lock only sleeps.


def take_and_sleep(lock):
    with lock:
        time.sleep(LONG)


def lock_slowly():
    left, right = threading.RLock(), threading.RLock()
    start("right", take_and_sleep, right)
    start("left", take_both, left, right).join()


# Two threads take two plain locks in two orders, or the right one only sleeps with its own. In one of these another
# thread gives the lock back that the right one has taken; in one a third has taken it and waits for a condition of it.


class Store:
    def __init__(self):
        self.first, self.second = threading.Lock(), threading.Lock()
        self.both = threading.Barrier(2)
        self.news = threading.Condition(self.second)

    def left(self):
        with self.first:
            self.both.wait()
            with self.second:
                pass

    def right(self):
        try:
            with self.second as taken:
                self.both.wait()
                if taken:
                    with self.first:
                        pass
        finally:
            self.both.abort()

    def hold(self):
        with self.second:
            self.both.wait()
            time.sleep(LONG)

    def listen(self):
        with self.second:
            self.news.wait()

    def give_back(self):
        time.sleep(LONG)
        self.second.release()


def hold_both(*names):
    store = Store()
    for name in names[1:]:
        start(name, getattr(store, name))
        time.sleep(0.2)
    getattr(store, names[0])()


# The same of tasks with locks of asyncio, or with a semaphore that has one permit.


async def take_two(first, second, both, seconds):
    async with first:
        both.append(first)
        while len(both) < 2:
            await asyncio.sleep(0.01)
        await asyncio.sleep(seconds)
        async with second:
            pass


async def hold_two(kind, seconds):
    first, second, both = kind(), kind(), []
    tasks = [asyncio.create_task(take_two(first, second, both, 0), name="left"),
             asyncio.create_task(take_two(second, first, both, seconds), name="right")]
    await asyncio.wait(tasks)


def permit():
    return asyncio.BoundedSemaphore(1)


async def hold_of_two():
    """One of two permits is with the task left, which waits for the other lock, and one with a task that sleeps."""
    first, second, both = asyncio.BoundedSemaphore(2), asyncio.Lock(), []
    tasks = [asyncio.create_task(take_two(first, second, both, 0), name="left"),
             asyncio.create_task(take_two(second, first, both, 0.1), name="right"),
             asyncio.create_task(take_two(first, second, [1, 2], LONG), name="sleeper")]
    await asyncio.wait(tasks)


# Somebody cancels one of these tasks later, whom no variable of the state has: a task by a list of all of them, a
# thread, or the loop, for a timer, a pipe or a signal.


async def shut_down():
    await asyncio.sleep(LONG)
    cancel_all()


def cancel_all():
    for task in asyncio.all_tasks():
        task.cancel()


def cancel_in(loop):
    time.sleep(LONG)
    for task in asyncio.all_tasks(loop):
        loop.call_soon_threadsafe(task.cancel)


def cancel_by_timer(loop, task):
    loop.call_later(LONG, functools.partial(loop.call_soon, task.cancel))


def cancel_by_pipe(loop, task):
    loop.add_reader(os.pipe()[0], task.cancel)


def cancel_by_signal(loop, task):
    loop.add_signal_handler(signal.SIGHUP, task.cancel)


def cancel_at_end(loop, task):
    loop.add_signal_handler(signal.SIGTERM, task.cancel)


async def serve_lines(reader, writer):
    await reader.readline()


async def hold_beside(name, work):
    """Two tasks take two locks in two orders, beside a task of this name, if it has work."""
    first, second, both = asyncio.Lock(), asyncio.Lock(), []
    tasks = [asyncio.create_task(take_two(first, second, both, 0), name="left"),
             asyncio.create_task(take_two(second, first, both, 0), name="right")]
    server = await asyncio.start_server(serve_lines, "127.0.0.1", 0)
    if name:
        tasks.append(asyncio.create_task(work(), name=name))
    await asyncio.wait(tasks)
    server.close()


async def hold_until(cancels):
    """The same, where something may cancel the left task later: the locks are free then."""
    first, second, both = asyncio.Lock(), asyncio.Lock(), []
    task = asyncio.create_task(take_two(first, second, both, 0), name="left")
    cancels(asyncio.get_running_loop(), task)
    del task
    await take_two(second, first, both, 0)


def begin_canceller(loop, task):
    start("canceller", cancel_in, loop)


# The work that a pool keeps stands in a registry, and one cancels it by its name there.


class Registry:
    def __init__(self):
        self.jobs = {"today": {"by name": {}}}

    def add(self, name, job):
        self.jobs["today"]["by name"][name] = [job]

    def job(self, name):
        return self.jobs["today"]["by name"][name][0]


class Office:
    registry = Registry()


def submit_by_name(pool):
    Office.registry.add("power", pool.submit(pow, 2, 2))
    return Office.registry.job("power").result()


def cancel_by_name():
    time.sleep(LONG)
    Office.registry.job("power").cancel()


def nest_by_name(has_canceller):
    pool = futures.ThreadPoolExecutor(1)
    start("other", cancel_by_name) if has_canceller else start("other", time.sleep, LONG)
    pool.submit(submit_by_name, pool).result()


# A block has the lock of a node, and joins a thread that wants one. That is the lock of another node by then, or the
# block has given its own back, and somebody else has it, and sleeps; or it is the same lock.


class Node:
    def __init__(self, child=None):
        self.lock, self.child = threading.Lock(), child


class Unlocked:
    """Gives a lock back for a block, and takes it again at its end."""

    def __init__(self, lock):
        self.lock = lock

    def __enter__(self):
        self.lock.release()

    def __exit__(self, *_):
        self.lock.acquire()


def hold_for_long(lock, taken):
    with contextlib.ExitStack() as stack:
        stack.enter_context(lock)
        taken.set()
        time.sleep(LONG)


def begin_holder(node):
    taken = threading.Event()
    start("holder", hold_for_long, node.lock, taken)
    taken.wait()


def paint(node):
    with node.lock:
        pass


def join_painter(node):
    start("painter", paint, node).join()


def walk(node):
    begin_holder(node.child)
    with node.lock:
        node = node.child
        join_painter(node)


class Walker:
    def __init__(self, node):
        self.node = node
        begin_holder(node.child)
        with self.node.lock:
            self.go_on()
            join_painter(self.node)

    def go_on(self):
        self.node = self.node.child


def unlock(node):
    with node.lock:
        with Unlocked(node.lock):
            begin_holder(node)
            join_painter(node)


def stay(node):
    node = node.child
    with node.lock, open(os.devnull):
        join_painter(node)


def walk_from_root(work):
    start("walker", work, Node(Node())).join()


JOBS = {
    "walked": lambda: walk_from_root(walk),
    "walked_by_method": lambda: walk_from_root(Walker),
    "unlocked": lambda: walk_from_root(unlock),
    "stayed": lambda: walk_from_root(stay),
    "all_cancelled": lambda: asyncio.run(hold_beside("keeper", shut_down)),
    "none_cancelled": lambda: asyncio.run(hold_beside("keeper", lambda: asyncio.sleep(LONG))),
    "thread_cancels": lambda: asyncio.run(hold_until(begin_canceller)),
    "partial_cancels": lambda: asyncio.run(hold_until(cancel_by_timer)),
    "pipe_cancels": lambda: asyncio.run(hold_until(cancel_by_pipe)),
    "signal_cancels": lambda: asyncio.run(hold_until(cancel_by_signal)),
    "end_cancels": lambda: asyncio.run(hold_until(cancel_at_end)),
    "named_cancelled": lambda: nest_by_name(True),
    "named_kept": lambda: nest_by_name(False),
    "held_locks": lambda: hold_both("left", "right"),
    "held_locks_slow": lambda: hold_both("left", "hold"),
    "held_locks_given_back": lambda: hold_both("left", "right", "give_back"),
    "held_locks_listener": lambda: hold_both("left", "listen", "right"),
    "held_locks_listener_slow": lambda: hold_both("left", "listen", "hold"),
    "held_async_locks": lambda: asyncio.run(hold_two(asyncio.Lock, 0)),
    "held_async_locks_slow": lambda: asyncio.run(hold_two(asyncio.Lock, LONG)),
    "held_permits": lambda: asyncio.run(hold_two(permit, 0)),
    "held_permits_slow": lambda: asyncio.run(hold_two(permit, LONG)),
    "held_permits_of_two_slow": lambda: asyncio.run(hold_of_two()),
    "interrupt": ask_with_timer,
    "tries": try_locks,
    "locks_slow": lock_slowly,
    "kept": lambda: nest(False),
    "kept_cancelled": lambda: nest(True),
    "kept_closed": nest_closed,
    "kept_in_stage": nest_in_stage,
    "kept_in_loop": lambda: asyncio.run(nest_in_loop()),
    "watchdog": lambda: join_locked(True),
    "no_watchdog": lambda: join_locked(False),
    "alarm": lambda: ask(True),
    "no_alarm": lambda: ask(False),
    "timer": lambda: asyncio.run(exchange(True)),
    "canceller": lambda: asyncio.run(exchange(False, True)),
    "killer": lambda: join_child(lambda child: start("killer", kill_late, child)),
    "timer_killer": lambda: join_child(start_timer),
    "no_killer": lambda: join_child(id),
    "queued_killer": lambda: join_child(queue_kill),
    "kept_in_class": nest_in_class,
    "kept_beside_timer": lambda: nest_beside_loop(True),
    "kept_beside_loop": lambda: nest_beside_loop(False),
    "kept_in_generator": nest_beside_generator,
    "reaped": lambda: asyncio.run(serve_starved(True)),
    "not_reaped": lambda: asyncio.run(serve_starved(False)),
    "met_late": lambda: meet_all(True),
    "never_met": lambda: meet_all(False),
    "foreign_timer": lock_until_dumped,
    "on_child": ask_with_children,
    "no_timer": lambda: asyncio.run(exchange(False)),
    "gather_watched": lambda: asyncio.run(gather(True, False)),
    "gather_of_errors": lambda: asyncio.run(gather(True, True)),
    "gather_alone": lambda: asyncio.run(gather(False, False)),
    "full_pipe": fill,
    "computes": compute,
    "polls": lambda: poll_both(False),
    "polls_well": lambda: poll_both(True),
    "token": lambda: pass_both(True),
    "no_token": lambda: pass_both(False),
    "relay": lambda: relay_both(True),
    "no_relay": lambda: relay_both(False),
    "locks": lock_both,
    "naps": lambda: nap_both(nap),
    "naps_in_turns": lambda: nap_both(take_turns),
    "closes": lambda: close_orders(False),
    "closes_slowly": lambda: close_orders(True),
}

if __name__ == "__main__":
    assert cmh_state.PRINTER, "no state is printed on a signal"
    JOBS[sys.argv[1]]()
