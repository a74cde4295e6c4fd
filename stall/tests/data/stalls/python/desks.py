"""Small programs whose threads and tasks wait at queues and events, and what their healthy twins come to after long.
Usage: desks.py NAME

`record NAME` keeps the states of one.
"""
import cmh_state

import asyncio
import contextlib
import queue
import signal
import socket
import sys
import threading
import time
import typing
import weakref
from concurrent import futures

LONG = 600


def start(name, work, *arguments):
    thread = threading.Thread(target=work, args=arguments, name=name, daemon=True)
    thread.start()
    return thread


# Two threads wait for each other at a queue and an event, beside a heartbeat and an acceptor. In a twin a third one comes
# to the event after long: its code has a name for it, or for what has one.


class Desk:
    def __init__(self):
        self.orders, self.ready, self.beats = queue.Queue(), threading.Event(), 0
        self.hook, self.table, self.thread = self.open, {"open": self.open}, threading.Thread(target=self.open)

    def open(self):
        self.ready.set()

    def sell(self):
        self.orders.get()
        self.open()

    def buy(self):
        self.ready.wait()
        self.orders.put("an order")

    def beat(self):
        while True:
            time.sleep(0.5)
            self.beats += 1

    def accept(self):
        with socket.create_server(("127.0.0.1", 0)) as server:
            while True:
                client, _ = server.accept()
                start("client", self.serve, client)

    def serve(self, client):
        client.sendall(f"{self.beats}".encode())

    @contextlib.contextmanager
    def closed(self):
        yield
        self.open()


DESK, HEARD = Desk(), []
SHELF: "weakref.WeakValueDictionary[str, threading.Event]" = weakref.WeakValueDictionary()


def trade(later=None, desk=DESK):
    start("beat", desk.beat)
    start("accept", desk.accept)
    start("sell", desk.sell)
    if later is not None:
        start("later", later, desk)
    start("buy", desk.buy).join()


def open_by_hook(desk):
    time.sleep(LONG)
    desk.hook()


def open_by_table(desk, word="open"):
    time.sleep(LONG)
    desk.table[word]()


def open_by_registry(desk):
    HEARD.append(desk.open)
    time.sleep(LONG)
    for each in HEARD:
        each()


def open_by_attribute(desk):
    time.sleep(LONG)
    getattr(desk, "".join(["op", "en"]))()


def open_at_end(desk):
    with desk.closed():
        time.sleep(LONG)


def open_after(desk):
    open_it(desk.ready, time.sleep(LONG))


def open_it(ready, _):
    ready.set()


def open_by_callback(desk):
    pool = futures.ThreadPoolExecutor(1)
    pool.submit(time.sleep, LONG).add_done_callback(lambda _: desk.open())


def open_by_thread(desk):
    time.sleep(LONG)
    desk.thread.start()


def open_by_method(desk, methods=[]):
    methods.append(desk.ready.set)
    time.sleep(LONG)
    methods.pop()()


def open_by_shelf(desk):
    SHELF["ready"] = desk.ready
    del desk
    time.sleep(LONG)
    open_shelf(SHELF["ready"])


def open_shelf(anything):
    anything.set()


def trade_with_signal():
    signal.signal(signal.SIGHUP, lambda *_: DESK.open())
    trade()


# A client waits for a reply, and who has taken its request has dropped it, or answers later.


class Office:
    def __init__(self):
        self.requests, self.kept = queue.Queue(), []

    def ask(self):
        reply = queue.SimpleQueue()
        self.requests.put(("a request", reply))
        return reply.get()

    def take(self):
        while True:
            _, reply = self.requests.get()
            self.keep(reply)
            del reply

    def keep(self, reply):
        pass

    def reply_late(self):
        time.sleep(LONG)
        for each in self.kept:
            each.put("an answer")


class KeepingOffice(Office):
    def keep(self, reply):
        self.kept.append(reply)


def ask_office(office, *others):
    start("take", office.take)
    for name in others:
        start(name, getattr(office, name))
    start("ask", office.ask).join()


# The same of tasks: an event and a queue of asyncio, a heartbeat, a server, and a timer that comes to the event.


class Stall:
    def __init__(self):
        self.orders, self.ready, self.beats = asyncio.Queue(), asyncio.Event(), 0

    async def sell(self):
        await self.orders.get()
        self.ready.set()

    async def buy(self):
        await self.ready.wait()
        await self.orders.put("an order")

    async def beat(self):
        while True:
            await asyncio.sleep(0.5)
            self.beats += 1

    async def answer(self, reader, writer):
        writer.write(f"{self.beats}".encode())
        writer.close()

    async def answer_and_open(self, reader, writer):
        self.ready.set()
        writer.close()


async def trade_in_tasks(word):
    stall = Stall()
    await asyncio.start_server(stall.answer_and_open if word == "client" else stall.answer, "127.0.0.1", 0)
    if word == "timer":
        asyncio.get_running_loop().call_later(LONG, open_it, stall.ready, None)
    tasks = [asyncio.create_task(work(), name=work.__name__) for work in (stall.sell, stall.beat, stall.buy)]
    await asyncio.wait(tasks)


JOBS: "dict[str, typing.Callable[[], object]]" = {
    "named": trade,
    "named_hook": lambda: trade(open_by_hook),
    "named_table": lambda: trade(open_by_table),
    "named_registry": lambda: trade(open_by_registry),
    "named_attribute": lambda: trade(open_by_attribute),
    "named_block": lambda: trade(open_at_end),
    "named_argument": lambda: trade(open_after),
    "named_callback": lambda: trade(open_by_callback),
    "named_thread": lambda: trade(open_by_thread),
    "named_method": lambda: trade(open_by_method),
    "named_weakly": lambda: trade(open_by_shelf),
    "named_signal": trade_with_signal,
    "named_reply_lost": lambda: ask_office(Office(), "reply_late"),
    "named_reply_kept": lambda: ask_office(KeepingOffice(), "reply_late"),
    "named_tasks": lambda: asyncio.run(trade_in_tasks("")),
    "named_tasks_timer": lambda: asyncio.run(trade_in_tasks("timer")),
    "named_tasks_client": lambda: asyncio.run(trade_in_tasks("client")),
}

if __name__ == "__main__":
    assert cmh_state.PRINTER, "no state is printed on a signal"
    JOBS[sys.argv[1]]()
