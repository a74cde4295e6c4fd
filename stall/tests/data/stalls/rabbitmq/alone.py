#!/usr/bin/env python3
"""Services whose clients wait in a `recv` without a limit, by the package python3-amqp. Each is a process of its own.

Usage: alone.py NAME. It prints `ready` once all have done what they can. A service asks by a queue that the broker has
named, and so are the replies to it. `front` asks for an order. The order asks for a price, and the third price for the
customer, of whom the orders know, which take one message at a time. In the twins that one computes, or something else
ends the wait in time.
"""
import os
import signal
import subprocess
import sys
import threading
import time

import amqp

LONG = 600


class Service:
    """A connection with a channel for its work, and another one for the replies to its own questions."""

    def __init__(self, name, **options):
        self.connection = amqp.Connection(f"127.0.0.1:{os.environ['PORT']}", client_properties={
            "connection_name": name}, **{"heartbeat": 0, **options})
        self.connection.connect()
        self.channel, self.asking = self.connection.channel(), self.connection.channel()
        self.replies, self.found = self.asking.queue_declare("", exclusive=True).queue, []
        self.asking.basic_consume(self.replies, no_ack=True, callback=self.found.append)

    def serve(self, queue, work, most=1):
        self.channel.basic_qos(0, most, False)
        self.channel.queue_declare(queue, auto_delete=False)

        def take(message):
            work(message)
            self.channel.basic_ack(message.delivery_tag)

        self.channel.basic_consume(queue, callback=take)
        while True:
            self.connection.drain_events()

    def send(self, queue, body="", **more):
        self.channel.basic_publish(amqp.Message(body, **more), routing_key=queue)

    def ask(self, queue, limit=None, body=""):
        self.send(queue, body, reply_to=self.replies)
        while not self.found:
            self.connection.drain_events(timeout=limit)
        return self.found.pop()


def front(**options):
    service = Service("front", **options)
    service.channel.queue_declare("orders", auto_delete=False)
    while True:
        service.ask("orders", body="order")


def order(most=1, limit=None):
    service = Service("order")
    service.channel.queue_declare("prices", auto_delete=False)

    def work(message):
        if message.body == "order":
            service.ask("prices", limit)
        service.send(message.properties["reply_to"])

    service.serve("orders", work, most)


def price(slow=False, then=None):
    service, asked = Service("price"), []

    def work(message):
        asked.append(1)
        if len(asked) == 3 and then:
            then(service, message)
        if len(asked) == 3 and slow:
            time.sleep(LONG)
        if len(asked) == 3:
            service.ask("orders", body="customer")
        service.send(message.properties["reply_to"])

    service.serve("prices", work)


def settings(service, _):
    """Also reads a queue that anybody may fill."""
    service.channel.queue_declare("settings", auto_delete=False)
    service.asking.basic_consume("settings", no_ack=True, callback=service.found.append)


def by_thread(service, message):
    """Another thread answers in time."""
    def answer():
        time.sleep(LONG)
        service.send(message.properties["reply_to"])

    threading.Thread(target=answer).start()


def by_alarm(service, message):
    """An alarm answers in time."""
    signal.signal(signal.SIGALRM, lambda *_: service.send(message.properties["reply_to"]))
    signal.alarm(LONG)


def by_dead_letter(service, message):
    """What is asked later comes back by a limit of its queue."""
    more = {"x-message-ttl": LONG * 1000, "x-dead-letter-exchange": ""}
    service.channel.queue_declare("later", auto_delete=False,
                                  arguments={**more, "x-dead-letter-routing-key": message.properties["reply_to"]})
    service.send("later")


def approve(service, _):
    """Who approves of it keeps the question, and waits for what people decide."""
    service.ask("approvals")


def manager():
    service, kept = Service("manager"), []
    service.channel.queue_declare("decisions", auto_delete=False)
    service.asking.basic_consume("decisions", no_ack=True, callback=lambda _: service.send(kept.pop()))
    service.serve("approvals", lambda message: kept.append(message.properties["reply_to"]))


ALL = [front, order, price]
JOBS = {
    "alone": ALL,
    "alone_slow": [front, order, lambda: price(True)],
    "alone_limit_slow": [front, lambda: order(limit=LONG), price],
    "alone_thread_slow": [front, order, lambda: price(then=by_thread)],
    "alone_alarm_slow": [front, order, lambda: price(then=by_alarm)],
    "alone_dead_letter_slow": [front, order, lambda: price(then=by_dead_letter)],
    "alone_heartbeat": [lambda: front(heartbeat=60), order, price],
    "alone_open": [front, order, lambda: price(then=settings)],
    "alone_kept_slow": [front, order, lambda: price(then=approve), manager],
}


def main(name, number=None):
    if number is not None:
        JOBS[name][int(number)]()
    os.setpgid(0, 0)
    for number in reversed(range(len(JOBS[name]))):
        subprocess.Popen([sys.executable, __file__, name, str(number)])
        time.sleep(1)
    time.sleep(2)
    signal.signal(signal.SIGTERM, lambda *_: os.killpg(0, signal.SIGKILL))
    print("ready", flush=True)
    signal.pause()


if __name__ == "__main__":
    main(*sys.argv[1:])
