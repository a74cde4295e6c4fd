"""Services in which a timer looks at connections, or a block of the program's own stands within that of a lock, and
healthy twins. Usage: berth_desks.py NAME

`record NAME` keeps the states of one.
"""
import cmh_state

import asyncio
import contextlib
import queue
import sys
import threading
import time

LONG = 600


# Two boats have a berth each and want a second one, and a third boat wants its first. A timer looks at connections, as
# a server's for those that are kept alive. In the twin another timer gives a berth back after a while.


class Harbour:
    def __init__(self, is_tidied):
        self.free, self.idle, self.looks, self.is_tidied = asyncio.Queue(), [], 0, is_tidied
        self.give(1)
        self.give(2)

    def give(self, berth):
        self.free.put_nowait(berth)

    def look(self):
        self.looks += 1
        for transport in self.idle:
            self.close(transport)
        self.loop.call_later(LONG, self.look)

    def close(self, transport):
        transport.close()

    def tidy(self):
        self.sweep()

    def sweep(self):
        self.give(1)

    async def moor(self):
        berth = await self.free.get()
        await asyncio.sleep(0.5)
        await self.unload(berth)

    async def unload(self, berth):
        self.give(await self.free.get())
        self.give(berth)

    async def run(self):
        self.loop = asyncio.get_running_loop()
        self.loop.call_later(LONG, self.look)
        if self.is_tidied:
            self.loop.call_later(LONG, self.tidy)
        boats = [asyncio.create_task(self.moor(), name=f"boat-{number}") for number in (1, 2, 3)]
        beat = asyncio.create_task(beat_on(), name="beat")
        await asyncio.wait(boats)
        beat.cancel()


async def beat_on():
    while True:
        await asyncio.sleep(0.5)


# A mover has the lock of the layout, and within a block of its own puts onto a belt that is full. A feeder would take
# from that, and wants the lock. A printer wants it too. In the twin the feeder takes long first.


class Floor:
    def __init__(self, is_slow):
        self.belt, self.layout, self.is_slow, self.moves = queue.Queue(1), threading.Lock(), is_slow, 0

    @contextlib.contextmanager
    def counted(self):
        self.moves += 1
        yield self.moves

    def mover(self):
        with self.layout:
            with self.counted() as number:
                self.belt.put(number)
                self.belt.put(number)

    def feeder(self):
        time.sleep(LONG if self.is_slow else 1)
        with self.layout:
            self.belt.get()

    def printer(self):
        time.sleep(1)
        with self.layout:
            print(self.moves)

    def run(self):
        threads = [threading.Thread(target=work, name=work.__name__) for work in (self.mover, self.feeder, self.printer)]
        threading.Thread(target=beat, name="beat", daemon=True).start()
        for thread in threads:
            thread.start()


def beat():
    while True:
        time.sleep(0.5)


CASES = {
    "berth_watch": lambda: asyncio.run(Harbour(False).run()),
    "berth_tidied": lambda: asyncio.run(Harbour(True).run()),
    "layout": lambda: Floor(False).run(),
    "layout_slow": lambda: Floor(True).run(),
}

if __name__ == "__main__":
    assert cmh_state.PRINTER, "no state is printed on a signal"
    CASES[sys.argv[1]]()
