#!/usr/bin/env python3
"""Services of shops that stall, and their slow twins, by the package python3-pika. Each is a process of its own.

Usage: clerks.py NAME. It prints `ready` once all have done what they can.

`settled`: a coordinator has as many orders as it may, and waits for the event by which each payment is settled. That has
a key by which no queue is bound. A monitor tells a dashboard that it lives.
`numbers`: all tell a queue of numbers each half second what they have counted, by their only connections. A stock has
acknowledged a question without an answer.
`ticket`: a desk has the token of a hall at one connection, and waits at another one for a ticket, which went to a queue
that is gone.

In the twins, with `_late` behind the name, who is asked waits for a bank or a supplier, with a limit, and answers then.
"""
import os
import signal
import subprocess
import sys
import time

import pika

LONG = 600
STEP = 0.5


class Service:
    """A connection with one channel, which gets no more messages at a time than `most`."""

    def __init__(self, name, most=1, tells=False):
        self.connection = pika.BlockingConnection(pika.ConnectionParameters(
            "127.0.0.1", int(os.environ["PORT"]), client_properties={"connection_name": name}))
        self.channel = self.connection.channel()
        self.channel.basic_qos(prefetch_count=most)
        if tells:
            self.tell()

    def tell(self):
        """Tells its numbers now and then."""
        self.send("numbers")
        self.connection.call_later(STEP, self.tell)

    def send(self, queue, **more):
        self.channel.basic_publish("", queue, b"7", pika.BasicProperties(**more))

    def consume(self, queue, work, acknowledges=True):
        """Has a function do each message of a queue, which is acknowledged then unless it returns that it is kept."""
        self.channel.queue_declare(queue)

        def take(channel, method, properties, _):
            if not work(properties) and acknowledges:
                channel.basic_ack(method.delivery_tag)

        self.channel.basic_consume(queue, take, auto_ack=not acknowledges)

    def run(self):
        while True:
            self.connection.process_data_events(STEP)


def shop(queue, answers, most, tells=False):
    """Has some orders under way, and gives another one for each that is done."""
    service = Service("shop", tells=tells)
    for name in (queue, answers):
        service.channel.queue_declare(name)
    service.consume(answers, lambda _: service.send(queue))
    for _ in range(most):
        service.send(queue)
    service.run()


def coordinator():
    service = Service("coordinator", 2)
    service.channel.exchange_declare("events", "topic")
    service.channel.queue_declare("settled")
    service.channel.queue_bind("settled", "events", "settled.card")
    service.channel.queue_declare("payments")
    service.consume("orders", lambda _: service.send("payments") or True)
    service.consume("settled", lambda _: service.send("accepted"))
    service.run()


def payments(is_late):
    service = Service("payments")
    service.channel.exchange_declare("events", "topic")

    def pay(_):
        if is_late:
            service.connection.sleep(LONG)
        service.channel.basic_publish("events", f"settled.{'card' if is_late else 'wallet'}", b"7")

    service.consume("payments", pay)
    service.run()


def monitor():
    service = Service("monitor")
    service.channel.queue_declare("pulse")
    while True:
        service.send("pulse")
        service.connection.sleep(STEP)


def listener(name, queue):
    service = Service(name)
    service.consume(queue, lambda _: None)
    service.run()


def dispatcher():
    service = Service("dispatcher", tells=True)
    service.channel.queue_declare("questions")
    service.consume("orders", lambda _: service.send("questions") or True)
    service.consume("answers", lambda _: service.send("confirmed"))
    service.run()


def stock(is_late):
    service = Service("stock", tells=True)
    service.consume("questions", lambda _: is_late and service.connection.sleep(LONG))
    service.run()


def desk(number, is_late):
    tokens, rpc, found = Service(f"desk-{number}.tokens"), Service(f"desk-{number}.rpc"), []
    rpc.consume(f"tickets.{number}", lambda _: found.append(1), acknowledges=False)
    rpc.channel.queue_declare("bookings")

    def book(_):
        rpc.send("bookings", reply_to=f"tickets.{number}{'' if is_late else '.old'}")
        while not found:
            rpc.connection.process_data_events(STEP)
        found.clear()
        tokens.send("tokens")

    tokens.consume("tokens", book)
    if number == 1:
        tokens.send("tokens")
    tokens.run()


def cashier(is_late):
    service = Service("cashier")

    def pay(properties):
        if is_late:
            service.connection.sleep(LONG)
        service.send(properties.reply_to)

    service.consume("bookings", pay)
    service.run()


CASES = {
    "settled": [coordinator, payments, monitor, (listener, "dashboard", "pulse"), (shop, "orders", "accepted", 4)],
    "numbers": [(listener, "metrics", "numbers"), dispatcher, stock, (shop, "orders", "confirmed", 3, True)],
    "ticket": [cashier, (desk, 1), (desk, 2), monitor],
}


def start(name):
    """Starts all services of a case, one after the other, each in a process of its own."""
    case, _, twin = name.partition("_")
    signal.signal(signal.SIGTERM, lambda *_: sys.exit())
    children = []
    for number in range(len(CASES[case])):
        children.append(subprocess.Popen([sys.executable, __file__, case, str(number), twin]))
        time.sleep(1)
    time.sleep(3)
    print("ready", flush=True)
    try:
        children[0].wait()
    finally:
        for child in children:
            child.kill()


def serve(case, number, twin):
    found = CASES[case][int(number)]
    work, *given = found if isinstance(found, tuple) else (found,)
    work(*given, *([bool(twin)] if "is_late" in work.__code__.co_varnames else []))


if __name__ == "__main__":
    serve(*sys.argv[1:]) if sys.argv[2:] else start(sys.argv[1])
