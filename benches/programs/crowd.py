"""Services of a broker, as the tests of the tools have them too: NUMBER ask for an order, the order for a price, and
the price for the customer, of whom the orders know, which take one message at a time. Or the price computes.
Usage: crowd.py fronts|order|price stuck|slow NUMBER PORT"""
from __future__ import annotations

import sys
import threading
import time
from typing import Any, Callable, List, NoReturn

import amqp

SERVICE, HOW, NUMBER, PORT = sys.argv[1], sys.argv[2], int(sys.argv[3]), int(sys.argv[4])


class Service:
    """A connection with a channel for its work, and another one for the replies to its own questions."""

    def __init__(self, name: str) -> None:
        self.connection = amqp.Connection(f"127.0.0.1:{PORT}", client_properties={"connection_name": name}, heartbeat=0)
        self.connection.connect()
        self.channel, self.asking = self.connection.channel(), self.connection.channel()
        self.replies = self.asking.queue_declare("", exclusive=True).queue
        self.found: List[Any] = []
        self.asking.basic_consume(self.replies, no_ack=True, callback=self.found.append)
        for queue in ("orders", "prices"):
            self.channel.queue_declare(queue, auto_delete=False)

    def serve(self, queue: str, work: Callable[[], None]) -> NoReturn:
        def take(message: Any) -> None:
            work()
            self.channel.basic_publish(amqp.Message(""), routing_key=message.properties["reply_to"])
            self.channel.basic_ack(message.delivery_tag)

        self.channel.basic_qos(0, 1, False)
        self.channel.basic_consume(queue, callback=take)
        while True:
            self.connection.drain_events()

    def ask(self, queue: str) -> None:
        self.channel.basic_publish(amqp.Message("", reply_to=self.replies), routing_key=queue)
        while not self.found:
            self.connection.drain_events()
        self.found.pop()


def ask_on(service: Service) -> NoReturn:
    while True:
        service.ask("orders")


if SERVICE == "fronts":
    fronts = [Service(f"front-{number}") for number in range(1, NUMBER + 1)]
    for front in fronts:
        threading.Thread(target=ask_on, args=(front,)).start()
    print("ready", flush=True)
elif SERVICE == "order":
    order = Service("order")
    order.serve("orders", lambda: order.ask("prices"))
else:
    price = Service("price")
    price.serve("prices", lambda: time.sleep(3600) if HOW == "slow" else price.ask("orders"))
