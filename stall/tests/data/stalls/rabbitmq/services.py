"""Services of a broker that stall, and their healthy twins. Usage: services.py NAME

One program has the connections of all services of a case. They are at their waits, or at work, as long as it runs, and
heartbeats go over all of them each second. `record NAME ..` keeps what rabbitmqctl prints of it.
"""
import os
import subprocess
import sys

import pika

LONG = 600000  # milliseconds
EVERYTHING = []


class Service:
    """A connection with one channel, which takes one message at a time and keeps it if it is at work."""

    def __init__(self, name, *queues, work=None):
        properties = {"connection_name": name} if name else {}
        self.connection = pika.BlockingConnection(pika.ConnectionParameters(
            "127.0.0.1", int(os.environ["PORT"]), heartbeat=2, client_properties=properties))
        self.channel = self.connection.channel()
        self.channel.basic_qos(prefetch_count=1)
        self.work = work
        for queue in queues:
            self.channel.basic_consume(queue, self.take)
        EVERYTHING.append(self)

    def take(self, channel, method, properties, body):
        if self.work is not None:
            self.work(channel)
            channel.basic_ack(method.delivery_tag)


def declare(*bindings, kind="topic", exchange="jobs"):
    """Declares queues, each bound by a key."""
    channel = Service("setup").channel
    channel.exchange_declare(exchange, kind)
    for queue, key in bindings:
        channel.queue_declare(queue)
        channel.queue_bind(queue, exchange, key)
    return channel


def leave():
    """Ends the connection that has declared all."""
    EVERYTHING.pop(0).connection.close()


def ring(has_token, *more):
    """Three services pass a token on, or have lost it."""
    channel = declare(("a", "to.a"), ("b", "to.b"), ("c", "to.c"))
    for name, after in ("ab", "bc", "ca"):
        Service(f"{name}@host", name, work=lambda it, after=after: it.basic_publish("jobs", f"to.{after}", b""))
    for name, *queues in more:
        Service(name, *queues)
    if has_token:
        channel.basic_publish("jobs", "to.a", b"")
    leave()


def stop():
    declare(("work", "job.new"), ("work", "#.stop"), ("results", "result.ready"), ("reports", "report.sent"))
    Service("worker", "work")
    Service("dispatcher", "results")
    Service("controller", "reports")
    leave()


def delay(arguments, policy=None):
    """A message waits in a queue that nobody reads."""
    channel = declare(("work", "job.new"), ("done", "job.done"))
    channel.queue_declare("delayed", arguments=arguments)
    channel.basic_publish("", "delayed", b"")
    Service("worker", "work")
    Service("feeder", "done")
    if policy:
        subprocess.run(["rabbitmqctl", "-q", "set_policy", "late", "^delayed$", policy], check=True)
    leave()


def standby():
    """Two consumers of a queue of which one is active at a time: it has a message at work, and another one is ready."""
    channel = declare(("prices", "price.asked"))
    channel.queue_declare("orders", arguments={"x-single-active-consumer": True})
    channel.queue_bind("orders", "jobs", "order.new")
    for name in ("worker-1", "worker-2"):
        Service(name, "orders")
    Service("pricing", "prices")
    for _ in range(2):
        channel.basic_publish("jobs", "order.new", b"")
    leave()


def reply():
    """A service has a message at work, and reads replies from a queue of its own."""
    channel = declare(("orders", "order.new"), ("prices", "price.asked"))
    channel.queue_declare("replies")
    Service("order", "orders", "replies")
    Service("mailer", "prices")
    channel.basic_publish("jobs", "order.new", b"")
    leave()


def fanout():
    channel = declare(("front", ""), kind="fanout", exchange="news")
    channel.queue_declare("drafts")
    Service("reader", "front")
    Service("editor", "drafts")
    leave()


def exchanges():
    channel = declare(("work", "job.new"), ("done", "job.done"))
    channel.exchange_declare("outside", "topic")
    channel.exchange_bind("jobs", "outside", "#")
    Service("worker", "work")
    Service("feeder", "done")
    leave()


def later(kind):
    """A job that was tried once waits in a queue that nobody reads, and keeps its routing key: the name of a queue."""
    channel = declare(("work", "job.new"), ("done", "job.done"))
    channel.exchange_declare("later", kind)
    channel.queue_declare("delayed", arguments={"x-message-ttl": LONG, "x-dead-letter-exchange": ""})
    channel.queue_bind("delayed", "later", "tried")
    channel.basic_publish("later", "work", b"")
    Service("worker", "work")
    Service("feeder", "done")
    leave()


def same_key(has_invoice):
    """Two exchanges that know one key. The web shop creates orders by itself, the invoicer an invoice for each report.
    """
    channel = declare(("confirms", "sent"), kind="direct", exchange="reports")
    for exchange, queue in (("orders", "bills"), ("invoices", "parcels")):
        channel.exchange_declare(exchange, "direct")
        channel.queue_declare(queue)
        channel.queue_bind(queue, exchange, "created")
    Service("web")
    for name, queue in (("biller", "bills"), ("invoicer", "confirms"), ("shipper", "parcels")):
        Service(name, queue)
    if has_invoice:
        channel.basic_publish("invoices", "created", b"")
    leave()


def peek(comes_back):
    """A service looks at a job, which comes back to its queue once it has seen it, or is a job of another queue."""
    channel = declare(("work", "job.new"), ("done", "job.done"), ("other", "job.other"))
    channel.basic_publish("jobs", "job.new" if comes_back else "job.other", b"")
    Service("viewer").channel.basic_get("work" if comes_back else "other")
    Service("worker", "work")
    Service("feeder", "done")
    leave()


def counted(has_starter, has_timer=False):
    """Three services have passed a token on nine times, and lost it. A starter may give a new one at any time, or one
    of the three does so by a timer."""
    channel = declare(("a", "to.a"), ("b", "to.b"), ("c", "to.c"))
    passed = []

    def hand_on(channel, key):
        passed.append(key)
        if len(passed) < 10:
            channel.basic_publish("jobs", key, b"")

    for name, after in ("ab", "bc", "ca"):
        Service(f"{name}@host", name, work=lambda it, after=after: hand_on(it, f"to.{after}"))
    starter = Service("starter@host").channel if has_starter else channel
    starter.basic_publish("jobs", "to.a", b"")
    while len(passed) < 10:
        for service in EVERYTHING:
            service.connection.process_data_events(0.01)
    if has_timer:
        first = EVERYTHING[1]
        first.connection.call_later(LONG // 1000, lambda: first.channel.basic_publish("jobs", "to.b", b""))
    leave()


def printing(is_lost):
    """A desk gives an order once the one before it is printed. The press acknowledges each at once, and prints the
    third one for a long time, or has lost it."""
    declare(("orders", "order.given"), ("printed", "order.printed"))
    given = []

    def give(channel):
        given.append("order")
        channel.basic_publish("jobs", "order.given", b"")

    def print_it(press):
        if len(given) < 3:
            press.basic_publish("jobs", "order.printed", b"")
        elif not is_lost:
            connection.call_later(LONG // 1000, lambda: press.basic_publish("jobs", "order.printed", b""))

    desk = Service("desk", "printed", work=give)
    connection = Service("press", "orders", work=print_it).connection
    give(desk.channel)
    while len(given) < 3:
        for service in EVERYTHING:
            service.connection.process_data_events(0.01)
    leave()


def retry(job_waits, has_planner=False):
    """What the worker can't do goes to a queue that nobody reads, and comes back to it after a while. On some days a
    planner, which is no part of the circle, puts jobs there."""
    channel = declare(("work", "job.new"), ("done", "job.done"))
    channel.queue_declare("later", arguments=DEAD)
    channel.queue_bind("later", "jobs", "job.failed")
    if job_waits:
        channel.basic_publish("jobs", "job.failed", b"")
    Service("worker", "work")
    Service("feeder", "done")
    if has_planner:
        Service("planner")
    leave()


def mails(arguments, has_limit=False, has_receipt=False):
    """A shop gives a mail for each receipt. A mail that can't be sent goes to a queue that nobody reads, and comes back
    to the mailer after a while, by a limit of its own or by one of the queue, or never."""
    channel = declare(("mails", "mail.new"), ("receipts", "mail.sent"))
    channel.queue_declare("unsent", arguments=arguments)
    channel.queue_bind("unsent", "jobs", "mail.failed")
    limit = pika.BasicProperties(expiration=str(LONG) if has_limit else None)
    sent = []

    def send(mailer):
        sent.append("mail")
        is_sent = has_receipt and len(sent) == 1
        mailer.basic_publish("jobs", "mail.sent" if is_sent else "mail.failed", b"", limit)

    shop = Service("shop", "receipts", work=lambda it: it.basic_publish("jobs", "mail.new", b""))
    Service("mailer", "mails", work=send)
    shop.channel.basic_publish("jobs", "mail.new", b"")
    while len(sent) < 1 + has_receipt:
        for service in EVERYTHING:
            service.connection.process_data_events(0.01)
    leave()


def parcel():
    """A clerk has got an order of one who has left, and has given a parcel to the packer. The packer is at its first
    one, and has told the shop of none so far."""
    channel = declare(("orders", "order.new"), ("parcels", "parcel.new"), ("packed", "parcel.packed"))
    given = []
    Service("packer", "parcels")
    Service("shop", "packed")
    clerk = Service("clerk", "orders", work=lambda it: given.append(it.basic_publish("jobs", "parcel.new", b"")))
    channel.basic_publish("jobs", "order.new", b"")
    while not given:
        clerk.connection.process_data_events(0.01)
    leave()


def direct_reply():
    """An order asks for a price, and waits for the reply at its own connection. The prices have the question at work. A
    feeder waits until the order is done, and then gives a new one."""
    declare(("prices", "price.asked"), ("orders", "order.new"), ("done", "order.done"))
    Service("pricing", "prices")
    Service("feeder", "done")
    order = Service("order", "orders").channel
    order.basic_consume("amq.rabbitmq.reply-to", lambda *words: None, auto_ack=True)
    order.basic_publish("jobs", "price.asked", b"", pika.BasicProperties(reply_to="amq.rabbitmq.reply-to"))
    leave()


def handed_on():
    """An order asks for prices by way of a router, which writes a note of each to the order, and of a hub. The prices
    reply directly to the order, at its own connection. They have replied to its first question, and have the second one
    at work."""
    declare(("asked", "price.asked"), ("sorted", "price.sorted"), ("wanted", "price.wanted"), ("notes", "note.written"))
    order, router, hub, pricing = (Service(name).channel for name in ("order", "router", "hub", "pricing"))
    taken = []

    def ask(*words):
        order.basic_publish("jobs", "price.asked", b"", pika.BasicProperties(reply_to="amq.rabbitmq.reply-to"))

    def hand_on(channel, method, properties, body):
        channel.basic_publish("jobs", "price.sorted" if channel is router else "price.wanted", body, properties)
        if channel is router:
            channel.basic_publish("jobs", "note.written", b"")
        channel.basic_ack(method.delivery_tag)

    def price(_, method, properties, body):
        taken.append(body)
        if len(taken) == 1:
            pricing.basic_publish("", properties.reply_to, b"")
            pricing.basic_ack(method.delivery_tag)

    order.basic_consume("amq.rabbitmq.reply-to", ask, auto_ack=True)
    order.basic_consume("notes", lambda _, method, *words: order.basic_ack(method.delivery_tag))
    router.basic_consume("asked", hand_on)
    hub.basic_consume("sorted", hand_on)
    pricing.basic_consume("wanted", price)
    ask()
    while len(taken) < 2:
        for service in EVERYTHING:
            service.connection.process_data_events(0.01)
    leave()


def first_reply():
    """A client has asked for a price, and waits for the first reply to a queue of its own."""
    channel = declare(("prices", "price.asked"))
    channel.queue_declare("client.replies")
    Service("pricing", "prices")
    Service("client", "client.replies").channel.basic_publish("jobs", "price.asked", b"")
    leave()


def prices(ask):
    """An order asks for a price within its handler, and waits for the reply in a queue of its own. The prices ask the
    orders for the customer within theirs, or compute for a long time."""
    channel = declare(("orders", "order.new"), ("prices", "price.asked"))
    for queue in ("order.replies", "price.replies"):
        channel.queue_declare(queue)
    Service("order", "orders", "order.replies")
    Service("pricing", "prices", "price.replies")
    channel.basic_publish("jobs", "order.new", b"7")
    channel.basic_publish("jobs", "price.asked", b"7")
    if ask:
        channel.basic_publish("jobs", "order.new", b"who is 7?")
    leave()


def credits(comes_back):
    """Of two importers one is active. It sends a batch for each credit, which the exporter gives for each batch. A credit
    has expired, and lies in a queue that nobody reads, for good or until it comes back."""
    channel = declare(("batches", "batch.sent"))
    channel.queue_declare("credits", arguments={
        "x-single-active-consumer": True, "x-dead-letter-exchange": "", "x-dead-letter-routing-key": "lost",
        "x-message-ttl": 1})
    channel.queue_bind("credits", "jobs", "credit.given")
    back = {"x-message-ttl": LONG, "x-dead-letter-exchange": "", "x-dead-letter-routing-key": "credits"}
    channel.queue_declare("lost", arguments=back if comes_back else {})
    given = []

    def give(channel):
        given.append("credit")
        if len(given) < 5:
            channel.basic_publish("jobs", "credit.given", b"")

    for name in ("importer-1", "importer-2"):
        Service(name, "credits", work=lambda it: it.basic_publish("jobs", "batch.sent", b""))
    exporter = Service("exporter", "batches", work=give)
    exporter.channel.basic_publish("jobs", "credit.given", b"")
    while len(given) < 5:
        for service in EVERYTHING:
            service.connection.process_data_events(0.01)
    exporter.channel.basic_publish("", "lost", b"")  # (as it is when a credit comes while no importer is there)
    leave()


def payment(limit):
    """A shop has asked for a payment, and waits until it is made. Of two cashiers the first has it at work, and asks
    the shop within its handler, which reads no questions meanwhile. The second one would make it at once. The broker
    has a limit for the first one, in milliseconds, or none."""
    subprocess.run(["rabbitmqctl", "-q", "eval", f"application:set_env(rabbit, consumer_timeout, {limit})."],
                   check=True, stdout=subprocess.DEVNULL)
    channel = declare(("payments", "payment.asked"), ("receipts", "payment.made"), ("questions", "payment.unclear"))
    channel.queue_declare("answers")
    shop = Service("shop", "receipts").channel
    shop.basic_publish("jobs", "payment.asked", b"")
    shop.queue_declare("payments", passive=True)  # (so the payment is there)
    Service("cashier-1", "payments", "answers").channel.basic_publish("jobs", "payment.unclear", b"")
    Service("cashier-2", "payments", work=lambda it: it.basic_publish("jobs", "payment.made", b""))
    leave()


def refused():
    """An importer sends a batch for each credit, which the exporter gives for each batch. It has refused a credit, which
    lies in a queue that nobody reads until it comes back."""
    channel = declare(("batches", "batch.sent"))
    channel.queue_declare("credits", arguments={"x-dead-letter-exchange": "", "x-dead-letter-routing-key": "refused"})
    channel.queue_bind("credits", "jobs", "credit.given")
    channel.queue_declare("refused", arguments={
        "x-message-ttl": LONG, "x-dead-letter-exchange": "", "x-dead-letter-routing-key": "credits"})
    taken = []
    importer = Service("importer").channel
    exporter = Service("exporter", "batches", work=lambda it: it.basic_publish("jobs", "credit.given", b"")).channel

    def take(_, method, *words):
        taken.append("credit")
        if len(taken) < 3:
            importer.basic_publish("jobs", "batch.sent", b"")
            importer.basic_ack(method.delivery_tag)
        else:
            importer.basic_reject(method.delivery_tag, requeue=False)

    importer.basic_consume("credits", take)
    exporter.basic_publish("jobs", "credit.given", b"")
    while len(taken) < 3:
        for service in EVERYTHING:
            service.connection.process_data_events(0.01)
    leave()


BACK = {"x-dead-letter-exchange": "jobs", "x-dead-letter-routing-key": "mail.new"}
DEAD = {"x-message-ttl": LONG, "x-dead-letter-exchange": "jobs", "x-dead-letter-routing-key": "job.new"}
JOBS = {
    "ring": lambda: ring(True),
    "ring_lost": lambda: ring(False),
    "no_name": lambda: ring(False, [None]),
    "two_alike": lambda: ring(False, ["b@host", "b"]),
    "stop": stop,
    "dead_letter": lambda: delay(DEAD),
    "no_dead_letter": lambda: delay({"x-message-ttl": LONG}),
    "dead_letter_policy": lambda: delay({}, '{"message-ttl":600000,"dead-letter-exchange":"","dead-letter-routing-key":'
                                            '"work"}'),
    "later": lambda: later("fanout"),
    "later_other_key": lambda: later("direct"),
    "same_key": lambda: same_key(False),
    "same_key_slow": lambda: same_key(True),
    "peek": lambda: peek(True),
    "peek_elsewhere": lambda: peek(False),
    "standby": standby,
    "counted_ring_lost": lambda: counted(False),
    "counted_ring_starter": lambda: counted(True),
    "counted_ring_timer": lambda: counted(False, True),
    "printing_slow": lambda: printing(False),
    "printing_lost": lambda: printing(True),
    "mails_come_back": lambda: mails(BACK, has_limit=True),
    "mails_come_back_by_queue": lambda: mails({"x-message-ttl": LONG, **BACK}),
    "mails_lost": lambda: mails({}, has_receipt=True),
    "parcel_first": parcel,
    "retry_empty": lambda: retry(False),
    "retry_waits": lambda: retry(True),
    "retry_planner": lambda: retry(False, True),
    "direct_reply": direct_reply,
    "direct_reply_handed_on": handed_on,
    "first_reply": first_reply,
    "prices_ask": lambda: prices(True),
    "prices_compute": lambda: prices(False),
    "credit_lost": lambda: credits(False),
    "credit_refused": refused,
    "credit_comes_back": lambda: credits(True),
    "payment_limit": lambda: payment(LONG),
    "payment_no_limit": lambda: payment("undefined"),
    "reply": reply,
    "fanout": fanout,
    "exchanges": exchanges,
}

if __name__ == "__main__":
    JOBS[sys.argv[1]]()
    print("ready", flush=True)
    while True:
        for service in EVERYTHING:
            service.connection.process_data_events(0.01)
