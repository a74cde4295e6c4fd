"""Services that stall in their pools of processes, and healthy twins that only take long there. Usage: pools.py NAME

`record NAME` keeps the states of one.
"""
import cmh_state

import asyncio
import multiprocessing
import queue
import sys
import threading
import time
import typing
from concurrent import futures

LONG = 600
BRANCHES = {name: multiprocessing.Lock() for name in ("north", "south")}


def beat():
    while True:
        time.sleep(0.5)


async def beat_on():
    while True:
        await asyncio.sleep(0.5)


def transfer(source, target, seconds=0.5):
    with BRANCHES[source]:
        time.sleep(seconds)
        with BRANCHES[target]:
            pass


# Two processes of a pool take the locks of two branches in two orders, beside a front for queries: the processes are
# forked within its event loop. In the twin one takes long at the first of its locks.


class Bank:
    def __init__(self, is_slow):
        self.seconds = LONG if is_slow else 0.5

    async def answer(self, reader, writer):
        async for line in reader:
            writer.write(line)

    async def run(self):
        server = await asyncio.start_server(self.answer, "127.0.0.1", 0)
        beat = asyncio.create_task(beat_on(), name="beat")
        loop = asyncio.get_running_loop()
        with futures.ProcessPoolExecutor(2) as pool:
            await asyncio.gather(loop.run_in_executor(pool, transfer, "north", "south", self.seconds),
                                 loop.run_in_executor(pool, transfer, "south", "north"))
        beat.cancel()
        server.close()


# The same in a pool of multiprocessing that one waits to end.


def transfer_all(is_slow):
    pool = multiprocessing.get_context("fork").Pool(3)
    threading.Thread(target=beat, name="beat", daemon=True).start()
    pool.starmap_async(transfer, [("north", "south", LONG if is_slow else 0.5), ("south", "north")], chunksize=1)
    pool.close()
    pool.join()


# A report waits for a page that nobody writes. In the twin it looks for it again and again, and goes on after long.


def report(is_slow):
    end = time.monotonic() + LONG
    while is_slow and time.monotonic() < end:
        time.sleep(0.05)
    if not is_slow:
        threading.Event().wait()


def wait_for_report(is_slow):
    threading.Thread(target=beat, name="beat", daemon=True).start()
    with futures.ProcessPoolExecutor(1) as pool:
        pool.submit(report, is_slow).result()


# Four clients have their reports made in a pool, two at a time.


class Reports:
    def __init__(self, is_slow):
        self.is_slow, self.gate = is_slow, asyncio.Semaphore(2)

    async def ask(self, pool):
        async with self.gate:
            await asyncio.get_running_loop().run_in_executor(pool, report, self.is_slow)

    async def run(self):
        beat = asyncio.create_task(beat_on(), name="beat")
        with futures.ProcessPoolExecutor(2) as pool:
            await asyncio.gather(*(asyncio.create_task(self.ask(pool), name=f"client-{number}") for number in range(4)))
        beat.cancel()


# Two threads have a door each of two, and want the other one as well. A third one wants its first, and main waits for
# all. In the twin one takes long behind both doors.


def pass_two(doors, others, is_slow):
    with doors:
        others.wait()
        with doors if not is_slow else threading.Lock():
            time.sleep(LONG if is_slow else 0)


def pass_one(doors, others):
    others.wait()
    time.sleep(0.5)
    with doors:
        pass


def load_trucks(is_slow):
    doors, others = threading.Semaphore(2), threading.Barrier(3)
    threads = [threading.Thread(target=pass_two, args=(doors, others, is_slow), name=f"truck-{number}")
               for number in (1, 2)]
    threads.append(threading.Thread(target=pass_one, args=(doors, others), name="truck-3"))
    threading.Thread(target=beat, name="beat", daemon=True).start()
    for thread in threads:
        thread.start()
    for thread in threads:
        thread.join()


# A service has done all its work in its pool, and waits for more.


def take_work(work):
    with futures.ProcessPoolExecutor(2) as pool:
        while True:
            pool.submit(*work.get()).result()


def wait_for_work():
    work = queue.Queue()
    work.put((abs, -1))
    threading.Thread(target=take_work, args=(work,), name="dispatcher", daemon=True).start()
    while True:
        time.sleep(0.5)


JOBS: "dict[str, typing.Callable[[], object]]" = {
    "bank": lambda: asyncio.run(Bank(False).run()),
    "bank_slow": lambda: asyncio.run(Bank(True).run()),
    "transfers": lambda: transfer_all(False),
    "transfers_slow": lambda: transfer_all(True),
    "report": lambda: wait_for_report(False),
    "report_slow": lambda: wait_for_report(True),
    "reports": lambda: asyncio.run(Reports(False).run()),
    "reports_slow": lambda: asyncio.run(Reports(True).run()),
    "pool_at_rest": wait_for_work,
    "permits": lambda: load_trucks(False),
    "permits_slow": lambda: load_trucks(True),
}

if __name__ == "__main__":
    assert cmh_state.PRINTER, "no state is printed on a signal"
    JOBS[sys.argv[1]]()
