"""Services of a broker that stall, or are slow, each a process of its own. Usage: clients.py SERVICE [stuck|slow], or
clients.py rpc_clients|rpc_threads[_slow], which starts all, and prints `ready` once they have done what they can.

The feeder gives an order once the one before it is done. Within its handler the order asks for a price, by a connection
of its own, `order-rpc`. At the third question the prices ask the orders for the customer within theirs, which read no
questions meanwhile, or compute for a long time. `pricing` does so in its only thread, by a connection of its own,
`threads` in a thread beside the one that reads, with a heartbeat.
"""
import os
import signal
import subprocess
import sys
import threading
import time

import pika

LONG = 600
QUEUES = ("orders", "prices", "done", "order.replies", "price.replies")


class Service:
    """A connection with one channel, which takes one message at a time."""

    def __init__(self, name):
        self.connection = pika.BlockingConnection(pika.ConnectionParameters(
            "127.0.0.1", int(os.environ["PORT"]), client_properties={"connection_name": name}))
        self.channel = self.connection.channel()
        self.channel.basic_qos(prefetch_count=1)
        for queue in QUEUES:
            self.channel.queue_declare(queue)

    def consume(self, queue, work):
        def take(channel, method, properties, body):
            work(properties.reply_to)
            channel.basic_ack(method.delivery_tag)

        self.channel.basic_consume(queue, take)

    def send(self, queue, reply_to=None):
        self.channel.basic_publish("", queue, b"", pika.BasicProperties(reply_to=reply_to))


class Questions(Service):
    """A connection by which questions are asked."""

    def __init__(self, name, replies):
        super().__init__(name)
        self.replies, self.found = replies, []
        self.consume(replies, self.found.append)

    def ask(self, queue):
        self.found.clear()
        self.send(queue, self.replies)
        while not self.found:
            self.connection.process_data_events(time_limit=None)


def feeder():
    service = Service("feeder")
    service.consume("done", lambda _: service.send("orders"))
    service.send("orders")
    service.channel.start_consuming()


def order():
    service, questions = Service("order"), Questions("order-rpc", "order.replies")

    def work(reply_to):
        if not reply_to:
            questions.ask("prices")
        service.send(reply_to or "done")

    service.consume("orders", work)
    service.channel.start_consuming()


def pricing(mode):
    service, questions, asked = Service("pricing"), Questions("pricing-rpc", "price.replies"), []

    def work(reply_to):
        asked.append(reply_to)
        if len(asked) > 2 and mode == "slow":
            time.sleep(LONG)
        elif len(asked) > 2:
            questions.ask("orders")
        service.send(reply_to)

    service.consume("prices", work)
    service.channel.start_consuming()


def threads(mode):
    service, replied, asked = Service("pricing"), threading.Event(), []
    threading.Thread(target=beat, daemon=True).start()

    def work(method, reply_to):
        asked.append(reply_to)
        if len(asked) > 2 and mode == "slow":
            time.sleep(LONG)
        elif len(asked) > 2:
            service.connection.add_callback_threadsafe(lambda: service.send("orders", "price.replies"))
            replied.wait()
        service.connection.add_callback_threadsafe(lambda: reply(method, reply_to))

    def reply(method, reply_to):
        service.send(reply_to)
        service.channel.basic_ack(method.delivery_tag)

    def take(channel, method, properties, body):
        threading.Thread(target=work, args=(method, properties.reply_to), daemon=True).start()

    service.consume("price.replies", lambda _: replied.set())
    service.channel.basic_consume("prices", take)
    service.channel.start_consuming()


def beat():
    while True:
        time.sleep(1)


CASES = {"rpc_clients": ["pricing", "order", "feeder"], "rpc_threads": ["threads", "order", "feeder"]}


def start(name):
    modes = ["slow" if name.endswith("_slow") else "stuck"]
    children = []
    signal.signal(signal.SIGTERM, lambda *_: sys.exit())
    for service in CASES[name.replace("_slow", "")]:
        children.append(subprocess.Popen([sys.executable, __file__, service, *(modes if not children else [])]))
        time.sleep(1)
    time.sleep(3)
    print("ready", flush=True)
    try:
        children[0].wait()
    finally:
        for child in children:
            child.kill()


if __name__ == "__main__":
    start(sys.argv[1]) if sys.argv[1].startswith("rpc_") else globals()[sys.argv[1]](*sys.argv[2:])
