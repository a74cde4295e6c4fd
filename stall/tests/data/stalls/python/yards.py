"""Small programs that stall at what their library knows, and healthy twins that only take long. Usage: yards.py NAME

`record NAME` keeps the states of one.
"""
import cmh_state

import asyncio
import functools
import logging
import multiprocessing
import sys
import threading
import time
import typing
from concurrent import futures

LONG = 600


def start(name, work, *arguments):
    thread = threading.Thread(target=work, args=arguments, name=name, daemon=True)
    thread.start()
    return thread


# A child is forked while a thread of its parent has an RLock: nobody in the child gives it back. In the twin a thread
# of the child has it.


class Ledger:
    def __init__(self):
        self.book, self.taken = threading.RLock(), threading.Event()

    def keep(self, seconds):
        with self.book:
            self.taken.set()
            time.sleep(seconds)

    def write(self):
        with self.book:
            pass

    def work_in_child(self, is_healthy):
        if is_healthy:
            self.book = threading.RLock()
            start("keeper", self.keep, LONG)
            time.sleep(0.5)
        self.write()


def fork_under_lock(is_healthy):
    ledger = Ledger()
    start("flush", ledger.keep, 1)
    ledger.taken.wait()
    child = multiprocessing.get_context("fork").Process(target=ledger.work_in_child, args=(is_healthy,), name="clerk")
    child.start()
    child.join()


# Two threads of a pool wait for work that the same pool keeps, one for two at a time. In the twin a third one does it.


def plan(pool, seconds):
    futures.wait([pool.submit(time.sleep, seconds) for _ in range(2)])


def plan_one(pool, seconds):
    pool.submit(time.sleep, seconds).result()


def plan_all(is_healthy):
    pool = futures.ThreadPoolExecutor(3 if is_healthy else 2, "planner")
    asked = [pool.submit(each, pool, LONG) for each in (plan, plan_one)]
    del pool
    time.sleep(0.5)
    asked[0].result()


# A task takes the results of others as they come, and these wait for threads that wait for the loop. In the twin the
# loop's own part takes long.


async def look_up(run, is_healthy):
    await (asyncio.sleep(LONG) if is_healthy else run(time.sleep, 0))


def parse(loop, run, is_healthy):
    time.sleep(0.5)
    asyncio.run_coroutine_threadsafe(look_up(run, is_healthy), loop).result()


async def ingest(run, *arguments):
    await run(parse, *arguments)


async def take_as_they_come(is_healthy):
    loop = asyncio.get_running_loop()
    run = functools.partial(loop.run_in_executor, futures.ThreadPoolExecutor(2, "parser"))
    tasks = [asyncio.create_task(ingest(run, loop, run, is_healthy), name=f"ingest-{at}") for at in range(3)]
    for each in asyncio.as_completed(tasks):
        await each


# A handler of the log needs a lock of the program, which logs while it has that. In the twin it takes long before.


class Registry:
    def __init__(self):
        self.lock, self.names = threading.Lock(), []

    def add(self, name, seconds):
        with self.lock:
            self.names.append(name)
            time.sleep(seconds)
            logging.warning("added %s", name)

    def list(self):
        with self.lock:
            return list(self.names)


class NameHandler(logging.Handler):
    def __init__(self, registry):
        super().__init__()
        self.registry = registry

    def emit(self, record):
        record.names = self.registry.list()


def log_under_lock(is_healthy):
    registry = Registry()
    logging.getLogger().addHandler(NameHandler(registry))
    adder = start("adder", registry.add, "first", LONG if is_healthy else 1)
    time.sleep(0.5)
    start("auditor", logging.warning, "a tick")
    adder.join()


# Each thread has one boat of a yard and waits for a second one, beside a clerk who counts them by a property. In the twin
# another thread has one too, in a block of a class whose end gives it back.


class Boats:
    def __init__(self, number):
        self.returned = threading.Condition(threading.Lock())
        self.free = number

    def take(self):
        with self.returned:
            while not self.free:
                self.returned.wait()
            self.free -= 1

    def give_back(self):
        with self.returned:
            self.free += 1
            self.returned.notify()

    @property
    def count(self):
        with self.returned:
            return self.free


class Loan:
    def __init__(self, boats):
        self.boats = boats

    def __enter__(self):
        self.boats.take()
        return self

    def __exit__(self, *error):
        self.boats.give_back()


def tow(boats):
    with Loan(boats):
        time.sleep(0.5)
        with Loan(boats):
            pass


def row(boats):
    with Loan(boats):
        time.sleep(LONG)


def count(boats):
    ended = None
    while True:
        time.sleep(0.3)
        print(ended or "free:", boats.count if boats.free else "none", getattr(boats, "count", 0), flush=True)


def lend_boats(is_healthy):
    boats = Boats(3 if is_healthy else 2)
    start("clerk", count, boats)
    some = [start(f"tug-{at}", tow, boats) for at in range(2)]
    if is_healthy:
        start("guest", row, boats)
    for each in some:
        each.join()


# Two threads take two locks that a class has for all its objects, in two orders. In the twin one of the objects has a
# lock of its own, and another thread has that of the class, which sleeps.


class Berth:
    crane, gate = threading.Lock(), threading.Lock()

    def __init__(self, has_own):
        if has_own:
            self.gate = threading.Lock()

    def load(self):
        with self.crane:
            time.sleep(1)
            with self.gate:
                pass

    def clear(self, seconds):
        with self.gate:
            time.sleep(seconds)
            with self.crane:
                pass


def keep_gate():
    with Berth.gate:
        time.sleep(LONG)


def share_berths(is_healthy):
    if is_healthy:
        start("keeper", keep_gate)
    start("loader", Berth(False).load)
    clearer = start("clearer", Berth(is_healthy).clear, 1)
    clearer.join()


JOBS: "dict[str, typing.Callable[[], object]]" = {
    "boats": lambda: lend_boats(False),
    "boats_lent": lambda: lend_boats(True),
    "berths": lambda: share_berths(False),
    "berths_own": lambda: share_berths(True),
    "orphan_lock": lambda: fork_under_lock(False),
    "orphan_lock_kept": lambda: fork_under_lock(True),
    "pool_waits": lambda: plan_all(False),
    "pool_waits_slow": lambda: plan_all(True),
    "first_done": lambda: asyncio.run(take_as_they_come(False)),
    "first_done_slow": lambda: asyncio.run(take_as_they_come(True)),
    "log_lock": lambda: log_under_lock(False),
    "log_lock_slow": lambda: log_under_lock(True),
}

if __name__ == "__main__":
    assert cmh_state.PRINTER, "no state is printed on a signal"
    JOBS[sys.argv[1]]()
