"""Services whose event loop has a server, a protocol, a handler of a signal, a reader or a timer that may cancel tasks,
and healthy twins in which it will cancel one that others wait for. Usage: booths.py NAME

`record NAME` keeps the states of one.
"""
import cmh_state

import asyncio
import os
import signal
import socket
import sys
import threading
import time

LONG = 600


class Booth:
    """Two tasks take two locks in two orders, beside a heartbeat. `jobs` are those that may be dropped."""

    def __init__(self):
        self.rooms, self.seats = asyncio.Lock(), asyncio.Lock()
        self.jobs, self.beats, self.kept = {}, 0, None

    async def reserve(self):
        async with self.rooms:
            await asyncio.sleep(0.2)
            async with self.seats:
                self.beats += 1

    async def refund(self):
        async with self.seats:
            await asyncio.sleep(0.2)
            async with self.rooms:
                self.beats += 1

    async def beat(self):
        while True:
            await asyncio.sleep(0.5)
            self.beats += 1

    def drop_jobs(self):
        for job in self.jobs.values():
            job.cancel()

    async def answer(self, reader, writer):
        if await reader.readline() == b"drop\n":
            self.drop_jobs()
        writer.close()

    async def serve(self):
        self.kept = await asyncio.start_server(self.answer, "127.0.0.1", 0)

    async def serve_by_protocol(self):
        self.kept = await asyncio.get_running_loop().create_server(lambda: Desk(self), "127.0.0.1", 0)

    async def hear(self):
        asyncio.get_running_loop().add_signal_handler(signal.SIGHUP, self.drop_jobs)

    async def read(self):
        self.kept = os.pipe()
        asyncio.get_running_loop().add_reader(self.kept[0], self.drop_jobs)

    async def expire_later(self):
        self.kept = asyncio.get_running_loop().call_later(LONG, self.expire)

    def expire(self):
        self.drop_jobs()

    async def connect(self):
        self.kept = socket.create_server(("127.0.0.1", 0))
        await asyncio.get_running_loop().create_connection(lambda: Desk(self), *self.kept.getsockname())

    async def run(self, prepare, is_healthy):
        await prepare(self)
        tasks = [asyncio.create_task(work(), name=work.__name__) for work in (self.beat, self.reserve, self.refund)]
        self.jobs["reserve" if is_healthy else "beat"] = tasks[1 if is_healthy else 0]
        await asyncio.wait(tasks[1:])


class Desk(asyncio.Protocol):
    def __init__(self, booth):
        self.booth = booth

    def data_received(self, data):
        self.booth.drop_jobs()


# A task waits for an order, which the handler of a server puts. In the stuck one nobody will connect.


class Orders:
    def __init__(self):
        self.queue, self.done = asyncio.Queue(), asyncio.Event()

    async def take(self, reader, writer):
        self.queue.put_nowait(await reader.readline())
        writer.close()

    async def work(self):
        while True:
            await self.queue.get()
            self.done.set()

    async def report(self):
        await self.done.wait()

    async def run(self):
        kept = await asyncio.start_server(self.take, "127.0.0.1", 0)
        tasks = [asyncio.create_task(work(), name=work.__name__) for work in (self.work, self.report)]
        await asyncio.wait(tasks)
        kept.close()


# A loader waits for a change, which a writer makes once it has loaded. A client may ask for a change: in the stuck one
# that waits for the loader too, or the server calls by a table what makes none.


class Rows:
    def __init__(self):
        self.loaded, self.changed, self.rows = asyncio.Event(), asyncio.Event(), {}
        self.commands = {b"count": self.count}

    async def load(self):
        await self.changed.wait()
        self.loaded.set()

    async def fill(self):
        await self.loaded.wait()
        self.rows["a"] = 1
        self.changed.set()

    def count(self):
        return len(self.rows)

    async def answer_after(self, reader, writer):
        await self.fill()
        writer.close()

    async def answer_at_once(self, reader, writer):
        self.changed.set()
        writer.close()

    async def answer_by_table(self, reader, writer):
        writer.write(str(self.commands[await reader.readline()]()).encode())
        writer.close()

    async def run(self, answer):
        kept = await asyncio.start_server(answer, "127.0.0.1", 0)
        tasks = [asyncio.create_task(work(), name=work.__name__) for work in (self.load, self.fill)]
        await asyncio.wait(tasks)
        kept.close()


# A feed holds a lock while it waits for room in the box of a sender, which waits for that lock. In the twin the sender
# only takes long. A client or a timer may cancel the senders.


class Hub:
    def __init__(self, is_healthy):
        self.lock, self.boxes, self.senders = asyncio.Lock(), [asyncio.Queue(2), asyncio.Queue(2)], []
        self.is_healthy = is_healthy

    async def feed(self):
        while True:
            async with self.lock:
                for box in self.boxes:
                    await box.put("news")

    async def send(self, box):
        while True:
            await box.get()
            if box is self.boxes[0]:
                await asyncio.sleep(LONG if self.is_healthy else 0.1)
                async with self.lock:
                    self.senders[1:] = self.senders[1:]

    def expire(self):
        self.senders[0].cancel()

    async def answer(self, reader, writer):
        self.senders[int(await reader.readline())].cancel()

    async def run(self):
        kept = await asyncio.start_server(self.answer, "127.0.0.1", 0)
        asyncio.get_running_loop().call_later(LONG, self.expire)
        self.senders = [asyncio.create_task(self.send(box), name=f"sender-{at}") for at, box in enumerate(self.boxes)]
        await asyncio.wait([*self.senders, asyncio.create_task(self.feed(), name="feed")])
        kept.close()


# A guard hands a loop a coroutine that lets a visitor in, beside a task that has the loop's thread. In the stuck one the
# task waits for the visitor to come in, in the twin it only takes long.


class Door:
    def __init__(self, is_healthy):
        self.opened, self.entered, self.is_healthy = threading.Event(), threading.Event(), is_healthy

    async def open(self):
        self.opened.set()

    def enter(self):
        self.opened.wait()
        self.entered.set()

    def guard(self, loop):
        asyncio.run_coroutine_threadsafe(self.open(), loop).result()

    async def greet(self):
        loop = asyncio.get_running_loop()
        for work, *given in ((self.enter,), (self.guard, loop)):
            threading.Thread(target=work, args=given, name=work.__name__, daemon=True).start()
        if self.is_healthy:
            time.sleep(LONG)
        else:
            self.entered.wait()


# A task gathers two that wait and a heartbeat, and would free both in the end. The twin gathers two that take two locks
# in two orders, and another task will cancel the heartbeat, which ends the gathering.


class Shift:
    def __init__(self):
        self.opened, self.closed, self.beats = asyncio.Event(), asyncio.Event(), 0

    async def open(self):
        await self.closed.wait()
        self.opened.set()

    async def serve(self):
        await self.opened.wait()

    async def beat(self):
        while True:
            await asyncio.sleep(0.5)
            self.beats += 1

    async def run(self):
        await asyncio.gather(*(asyncio.create_task(work(), name=work.__name__)
                               for work in (self.open, self.serve, self.beat)))
        self.closed.set()


async def cancel_later(task):
    await asyncio.sleep(LONG)
    task.cancel()


async def gather_booth():
    booth = Booth()
    tasks = [asyncio.create_task(work(), name=work.__name__) for work in (booth.beat, booth.reserve, booth.refund)]
    booth.kept = asyncio.create_task(cancel_later(tasks[0]), name="keeper")
    await asyncio.gather(*tasks)


# Two tasks await an answer that nobody gives. In the twin one of the two awaits it for some time alone: the limit cancels
# the answer, for both.
async def share(limit):
    answer, booth = asyncio.get_running_loop().create_future(), Booth()

    async def listen():
        await answer

    async def ask():
        await asyncio.wait_for(answer, limit)

    booth.kept = [asyncio.create_task(work(), name=work.__name__) for work in (listen, ask)]
    while True:
        await asyncio.sleep(0.5)


def change(name):
    rows = Rows()
    asyncio.run(rows.run(getattr(rows, name)))


def book(prepare, is_healthy=False):
    asyncio.run(Booth().run(prepare, is_healthy))


JOBS = {
    "booth_server": lambda: book(Booth.serve),
    "booth_server_cancels": lambda: book(Booth.serve, True),
    "booth_protocol": lambda: book(Booth.serve_by_protocol),
    "booth_protocol_cancels": lambda: book(Booth.serve_by_protocol, True),
    "booth_connection": lambda: book(Booth.connect),
    "booth_connection_cancels": lambda: book(Booth.connect, True),
    "booth_signal": lambda: book(Booth.hear),
    "booth_signal_cancels": lambda: book(Booth.hear, True),
    "booth_reader": lambda: book(Booth.read),
    "booth_reader_cancels": lambda: book(Booth.read, True),
    "booth_timer": lambda: book(Booth.expire_later),
    "booth_timer_cancels": lambda: book(Booth.expire_later, True),
    "booth_rows": lambda: change("answer_after"),
    "booth_rows_changed": lambda: change("answer_at_once"),
    "booth_table": lambda: change("answer_by_table"),
    "booth_hub": lambda: asyncio.run(Hub(False).run()),
    "booth_hub_slow": lambda: asyncio.run(Hub(True).run()),
    "booth_shift": lambda: asyncio.run(Shift().run()),
    "booth_shift_ended": lambda: asyncio.run(gather_booth()),
    "booth_answer": lambda: asyncio.run(share(None)),
    "booth_answer_limited": lambda: asyncio.run(share(LONG)),
    "booth_orders": lambda: asyncio.run(Orders().run()),
    "booth_door": lambda: asyncio.run(Door(False).greet()),
    "booth_door_slow": lambda: asyncio.run(Door(True).greet()),
}

if __name__ == "__main__":
    assert cmh_state.PRINTER, "no state is printed on a signal"
    JOBS[sys.argv[1]]()
