"""Says which locks cmh_state finds to be taken by blocks of threads and of coroutines, where that isn't what is right.

usage: blocks.py FOLDER OF CMH_STATE
"""
import asyncio
import os
import sys
import threading
import time

sys.path.insert(0, sys.argv[1])
from cmh_state import ends, frames as stacks  # noqa: E402

ready = threading.Semaphore(0)


class Unlocked:
    def __init__(self, lock):
        self.lock = lock

    def __enter__(self):
        self.lock.release()

    def __exit__(self, *_):
        self.lock.acquire()


class Nothing:
    def __enter__(self):
        pass

    def __exit__(self, *_):
        pass


class Store:
    def __init__(self):
        self.first, self.second = threading.Lock(), threading.Lock()
        self.third = self.first
        self.news = threading.Condition(threading.Lock())

    # Threads, by which of the locks each has.

    def plain_1(self):
        with self.first:
            stay()

    def named_1(self):
        with self.first as taken:
            assert taken
            stay()

    def nested_12(self):
        with self.first:
            try:
                with self.second:
                    stay()
            finally:
                ready.release()

    def both_12(self):
        while True:
            with self.first, self.second:
                for _ in range(2):
                    stay()

    def handling_1(self):
        with self.first:
            try:
                raise ValueError
            except ValueError:
                stay()

    def finally_1(self):
        with self.first:
            try:
                time.sleep(0)
            finally:
                stay()

    def after_(self):
        with self.first:
            time.sleep(0)
        stay()

    def failed_(self):
        try:
            with self.first:
                raise ValueError
        except ValueError:
            stay()

    def skipped_(self):
        for turn in range(3):
            with self.first:
                if turn == 5:
                    return
                if turn == 1:
                    continue
            if turn == 2:
                stay()

    # Names that stand for another lock by now, and blocks that may give back a lock.

    def stored_before_1(self):
        for lock in (self.second, self.first):
            with lock:
                time.sleep(0)
        with lock:
            stay()

    def stored_since_(self):
        store = self
        with store.first:
            while store is self:
                store = Store()
            stay()

    def stored_inside_2(self):
        def change():
            nonlocal lock
            lock = None

        lock = self.first
        with lock:
            with self.second:
                change()
                stay()

    def stored_elsewhere_(self, third=None):
        with self.third:
            self.change(third or self.second)
            stay()

    def change(self, third):
        self.third = third

    def unlocked_(self):
        with self.first:
            with Unlocked(self.first):
                stay()

    def locked_again_2(self):
        with self.first, Unlocked(self.first):
            with self.second:
                stay()

    def below_(self):
        with self.first:
            self.unlocked_second()

    def unlocked_second(self):
        self.second.acquire()
        with Unlocked(self.second):
            stay()

    def opened_1(self):
        with self.first, open(os.devnull):
            stay()

    def chosen_(self):
        with self.first if self.second.locked() else self.second:
            stay()

    def branch_2(self):
        if self.second.locked():
            time.sleep(0)
        else:
            with self.second:
                stay()

    def nothing_(self):
        with self.first, Nothing():
            stay()

    def nothing_2(self):
        with self.first:
            with Nothing(), self.second:
                stay()

    def condition_(self):
        with self.news:
            ready.release()
            self.news.wait()


# What a function likely has: around a block that may have given it back, or by a name that is stored elsewhere, which
# stands for another lock in the last two.
AROUND = {"unlocked_": "1", "locked_again_2": "1", "below_": "1", "nothing_": "1", "nothing_2": "1",
          "hold_in_block": "1", "stored_since_": "?", "stored_elsewhere_": "2"}


def stay():
    ready.release()
    time.sleep(1000)


def try_threads():
    for name in [name for name in vars(Store) if name.endswith(("_", "1", "2")) and not name.startswith("_")]:
        store = Store()
        thread = threading.Thread(target=getattr(store, name), daemon=True)
        thread.start()
        ready.acquire()
        time.sleep(0.05)
        names = {hex(id(store.first)): "1", hex(id(store.second)): "2", hex(id(store.news._lock)): "news"}
        frames = stacks.stack_of(sys._current_frames()[thread.ident])
        compare(name, ends.inside_thread(frames), names, name.split("_")[-1])


def compare(name, row, names, taken):
    for key, wanted in ("taken", taken), ("around", AROUND.get(name, "")):
        found = "".join(sorted(names.get(value, "?") for value in row[key]))
        if found != wanted:
            print(f"{name}: {key} {found!r} and not {wanted!r}")


# Coroutines.


async def hold(lock):
    async with lock:
        await asyncio.sleep(1000)


async def hold_inside(lock):
    await hold(lock)


async def hold_plain(lock):
    with lock:
        await asyncio.sleep(1000)


async def hold_in_block(lock):
    async with lock:
        with Nothing():
            await asyncio.sleep(1000)


async def take_again(lock):
    async with lock:
        async with lock:
            await asyncio.sleep(1000)


async def go_on(lock):
    async with lock:
        await asyncio.sleep(0)
    await asyncio.sleep(1000)


async def listen(condition):
    async with condition:
        await condition.wait()


async def try_coroutines():
    taken, condition = asyncio.Lock(), asyncio.Condition()
    rows = [(hold, taken, taken, "1"), (hold, taken, taken, ""), (hold_inside, asyncio.Semaphore(1), None, "1"),
            (hold_plain, threading.Lock(), None, "1"), (hold_in_block, asyncio.Lock(), None, ""), (take_again, asyncio.Lock(), None, "1"),
            (go_on, asyncio.Lock(), None, ""), (listen, condition, condition._lock, "")]
    for work, what, lock, wanted in rows:
        task = asyncio.ensure_future(work(what))
        await asyncio.sleep(0.05)
        names = {hex(id(what if lock is None else lock)): "1"}
        compare(work.__name__, ends.inside_task(task.get_coro()), names, wanted)


if sys.version_info >= (3, 9):  # (the steps of 3.8 aren't read)
    try_threads()
asyncio.run(try_coroutines())
sys.stdout.flush()
os._exit(0)
