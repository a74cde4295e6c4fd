"""Services that stall beside others that go on, and healthy twins that only take long. Usage: shops.py NAME

`record NAME` keeps the states of one.
"""
import cmh_state

import asyncio
import heapq
import json
import logging
import os
import queue
import random
import socketserver
import sys
import threading
import time
import typing

LONG = 600
log = logging.getLogger("services")


def start(name, work, *arguments):
    threading.Thread(target=work, args=arguments, name=name, daemon=True).start()


# Senders of mails take one of three connections. A reply of the relay raises an error, and the connection isn't given
# back. In the twin others have all three, and give them back.


class Relay:
    def __init__(self, is_greylisting):
        self.slots, self.is_greylisting = threading.Semaphore(3), is_greylisting

    def deliver(self, seconds=0.05):
        self.slots.acquire()
        self.transmit(seconds)
        self.slots.release()

    def transmit(self, seconds):
        time.sleep(seconds)
        if self.is_greylisting:
            raise ConnectionError("try later")


class Mails:
    def __init__(self, relay):
        self.relay, self.ready, self.sent, self.lock = relay, queue.Queue(), 0, threading.Lock()
        self.later, self.ids = [], {}

    def accept(self, number):
        with self.lock:
            self.ids[number] = time.monotonic()
        self.ready.put(number)

    def send(self):
        while True:
            number = self.ready.get()
            try:
                self.relay.deliver()
            except ConnectionError:
                with self.lock:
                    heapq.heappush(self.later, (time.monotonic(), number))
            with self.lock:
                self.sent += 1

    def requeue(self):
        while True:
            time.sleep(0.5)
            with self.lock:
                while self.later and self.later[0][0] < time.monotonic() - 1:
                    self.ready.put(heapq.heappop(self.later)[1])

    def forget(self):
        while True:
            time.sleep(random.uniform(0.5, 1))
            limit = time.monotonic() - 3
            with self.lock:
                for number in [number for number, at in self.ids.items() if at < limit]:
                    del self.ids[number]

    def take_news(self):
        while True:
            self.accept(random.randrange(10**6))
            time.sleep(random.expovariate(5))


class Status(socketserver.StreamRequestHandler):
    def handle(self):
        self.wfile.write(b"sent %d\n" % self.server.mails.sent)


def send_mails(is_slow):
    mails = Mails(Relay(not is_slow))
    for number in range(3 if is_slow else 0):
        start(f"archive-{number}", mails.relay.deliver, LONG)
    for number in range(4):
        start(f"sender-{number}", mails.send)
    for each in (mails.requeue, mails.forget, mails.take_news):
        start(each.__name__, each)
    with socketserver.ThreadingTCPServer(("127.0.0.1", 0), Status) as server:
        server.mails = mails
        server.serve_forever()


# Desks wait for the bank, which settles four orders at once, and wakes only one desk. In the twin a thread will hand in
# four orders at once.


class Ledger:
    def __init__(self):
        self.changed, self.confirmed = threading.Condition(), set()

    def wait_for(self, order):
        with self.changed:
            while order not in self.confirmed:
                self.changed.wait()
            self.confirmed.discard(order)

    def confirm(self, orders):
        with self.changed:
            self.confirmed.update(orders)
            self.changed.notify()


class Shop:
    def __init__(self, most):
        self.ledger, self.to_bank, self.most, self.factor = Ledger(), queue.Queue(), most, 1.0
        self.lock, self.taken, self.carts = threading.Lock(), 0, {}

    def count(self, **more):
        with self.lock:
            for name, number in more.items():
                setattr(self, name, getattr(self, name) + number)

    def submit(self):
        with self.lock:
            self.taken += 1
            number = self.taken
        self.to_bank.put(number)
        return number

    def sell(self):
        while True:
            time.sleep(random.uniform(0.05, 0.2))
            self.ledger.wait_for(self.submit())
            self.count(taken=0)

    def settle(self):
        orders = []
        while True:
            orders.append(self.to_bank.get())
            if len(orders) == self.most:
                self.ledger.confirm(orders)
                orders = []

    def hand_in(self):
        while True:
            time.sleep(LONG)
            for _ in range(self.most):
                self.submit()

    def visit(self):
        while True:
            time.sleep(random.expovariate(8))
            with self.lock:
                self.carts[random.choice("abcdef")] = time.monotonic()

    def watch_prices(self, path="prices.json"):
        while True:
            try:
                if os.stat(path).st_mtime > 0:
                    with open(path) as prices:
                        self.factor = float(json.load(prices)["factor"])
            except (OSError, ValueError):
                pass
            time.sleep(1)


def sell_orders(is_slow):
    logging.basicConfig(level=logging.INFO)
    shop = Shop(5 if is_slow else 4)
    for number in range(4):
        start(f"desk-{number}", shop.sell)
    for each in (shop.settle, shop.visit, shop.watch_prices, *([shop.hand_in] if is_slow else [])):
        start(each.__name__, each)
    while True:
        time.sleep(2)
        log.info("%d taken", shop.taken)


# The workers of a crawler put the links that they find into the queue that they take them from. Once it is full, all
# wait. In the twin one of them sleeps.


class Crawler:
    def __init__(self, is_slow):
        self.frontier, self.is_slow = asyncio.Queue(20), is_slow
        self.tokens, self.filled, self.robots, self.pages = 9, asyncio.Condition(), {}, 0

    async def work(self):
        while True:
            page = await self.frontier.get()
            self.robots[page % 9] = time.monotonic()
            async with self.filled:
                while self.tokens < 1:
                    await self.filled.wait()
                self.tokens -= 1
            if page == 0 and self.is_slow:
                await asyncio.sleep(LONG)
            for link in range(random.randint(4, 12)):
                await self.frontier.put(link + 1)
            self.pages += 1
            self.frontier.task_done()

    async def refill(self):
        while True:
            await asyncio.sleep(0.2)
            async with self.filled:
                self.tokens = min(9, self.tokens + 3)
                self.filled.notify_all()

    async def forget(self):
        while True:
            await asyncio.sleep(0.5 + random.random())
            for host in [host for host, at in self.robots.items() if at < time.monotonic() - 3]:
                self.robots.pop(host)

    async def tell(self, reader, writer):
        writer.write(b"%d pages\n" % self.pages)
        await writer.drain()
        writer.close()

    async def run(self):
        for page in range(2):
            await self.frontier.put(page)
        tasks = [asyncio.create_task(self.work(), name=f"worker-{number}") for number in range(4)]
        tasks += [asyncio.create_task(each(), name=each.__name__) for each in (self.refill, self.forget)]
        server = await asyncio.start_server(self.tell, "127.0.0.1", 0)
        await self.frontier.join()
        for task in tasks:
            task.cancel()
        server.close()


# Two moderators of a chat take the locks of two rooms in two orders. In the twin one writes for long in its room.


class Chat:
    def __init__(self):
        self.rooms = {name: asyncio.Lock() for name in ("lobby", "games", "music")}
        self.outbox, self.typing, self.posted = asyncio.Queue(), {}, 0

    async def move(self, source, target):
        async with self.rooms[source]:
            await asyncio.sleep(0.2)
            async with self.rooms[target]:
                self.typing.pop(source, None)

    async def post(self, name):
        while True:
            await asyncio.sleep(random.uniform(0.1, 0.3))
            self.typing[name] = time.monotonic()
            async with self.rooms[name]:
                self.posted += 1
                await self.outbox.put(name)

    async def deliver(self):
        while True:
            await self.outbox.get()

    async def save(self, name):
        async with self.rooms[name]:
            await asyncio.sleep(LONG)

    async def run(self, is_slow):
        calls = {"deliver": self.deliver(), "anna": self.move("lobby", "games"), "fan": self.post("music"),
                 "guest": self.post("lobby"), "ben": self.save("games") if is_slow else self.move("games", "lobby")}
        await asyncio.gather(*(asyncio.create_task(call, name=name) for name, call in calls.items()))


JOBS: "dict[str, typing.Callable[[], object]]" = {
    "mails": lambda: send_mails(False),
    "mails_slow": lambda: send_mails(True),
    "orders": lambda: sell_orders(False),
    "orders_slow": lambda: sell_orders(True),
    "frontier": lambda: asyncio.run(Crawler(False).run()),
    "frontier_slow": lambda: asyncio.run(Crawler(True).run()),
    "rooms": lambda: asyncio.run(Chat().run(False)),
    "rooms_slow": lambda: asyncio.run(Chat().run(True)),
}

if __name__ == "__main__":
    assert cmh_state.PRINTER, "no state is printed on a signal"
    JOBS[sys.argv[1]]()
