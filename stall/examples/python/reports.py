"""A report service that stalls in three ways, none of which ends by itself, or is only slow.

Usage: reports.py stuck|slow
"""
import asyncio
import multiprocessing
import queue
import sys
import threading
import time

import cmh_state  # noqa: F401 (it prints a state on a signal from here on)

STUCK = sys.argv[1:] == ["stuck"]


# A page that is asked for from within the event loop that has to fetch it.


async def fetch(page):
    return f"page {page}"


def render(page, loop):
    """Works in any thread but the loop's own: there nobody is left to run fetch()."""
    if STUCK:
        return asyncio.run_coroutine_threadsafe(fetch(page), loop).result()
    time.sleep(600)
    return ""


async def handle(page):
    await asyncio.sleep(0.5)
    return render(page, asyncio.get_running_loop())


async def beat():
    while True:
        await asyncio.sleep(0.2)


async def archive(page):
    return await page


async def serve():
    page = asyncio.create_task(handle(7), name="handler")
    asyncio.create_task(beat(), name="heartbeat")
    await asyncio.create_task(archive(page), name="archive")


# A child that is joined before its queue is read: it ends only when all that it has put is read.


def count(results):
    results.put("x" * 1000000 if STUCK else "x")
    if not STUCK:
        time.sleep(600)


def collect():
    results = multiprocessing.Queue()
    child = multiprocessing.Process(target=count, args=(results,), name="census")
    child.start()
    child.join()
    return results.get()


# A lock that is held while a full queue is waited for.


class Catalog:
    def __init__(self):
        self.lock = threading.RLock()
        self.rows = queue.Queue(2)

    def load(self):
        for row in range(100):
            with self.lock:
                self.rows.put(row)

    def export(self):
        while True:
            row = self.rows.get()
            time.sleep(0.5 if STUCK else 600)
            with self.lock:
                print("exported", row, flush=True)
            self.rows.task_done()

    def close(self):
        self.rows.join()


def main():
    catalog = Catalog()
    for name, work in (("collector", collect), ("loader", catalog.load), ("exporter", catalog.export),
                       ("closer", catalog.close)):
        threading.Thread(target=work, name=name, daemon=True).start()
    asyncio.run(serve())


if __name__ == "__main__":
    main()
