#!/usr/bin/env python3
"""One service of a search engine's intake. Usage: service.py NAME@HOST [MILLISECONDS]

The fetcher fetches a page for each credit that the indexer gives, so that pages can't pile up.
A credit expires after so many milliseconds, or never. Each service acknowledges a message once it
is done with it."""
import os
import sys

import pika

QUEUES = {  # each queue, and the routing keys that are bound to it
    "credits": ["credit.given"], "pages": ["page.fetched"], "batches": ["batch.parsed"],
    "done": ["batch.indexed"], "mails": ["mail.written"], "alerts": ["link.broken", "alarm.raised"],
    "questions": ["status.asked"], "answers": ["status.answered"],
    "images": ["image.sent"], "thumbs": ["image.shrunk"]}

full_name = sys.argv[1]
expiry = {"x-message-ttl": int(sys.argv[2])} if sys.argv[2:] else {}
connection = pika.BlockingConnection(pika.ConnectionParameters(
    "127.0.0.1", int(os.environ.get("INTAKE_PORT", 5672)), client_properties={"connection_name": full_name}))
channel = connection.channel()
channel.basic_qos(prefetch_count=1)
channel.exchange_declare("intake", "topic")
for queue, keys in QUEUES.items():
    channel.queue_declare(queue, arguments=expiry if queue == "credits" else None)
    for key in keys:
        channel.queue_bind(queue, "intake", key)


def say(key, body=b"-"):
    channel.basic_publish("intake", key, body)


def serve(queue, answer):
    """Answers each message of the queue, for ever."""
    def on_message(_, method, properties, body):
        answer(body)
        channel.basic_ack(method.delivery_tag)
    channel.basic_consume(queue, on_message)
    channel.start_consuming()


def fetch(page):
    say("page.fetched", page)
    if int(page) % 3 == 0 and channel.basic_get("questions", auto_ack=True)[0]:
        connection.sleep(10)  # it counts what it has fetched
        say("status.answered")


def fetcher():
    serve("credits", fetch)


def parse(page):
    say("link.broken", page)
    say("batch.parsed", page)


def parser():
    serve("pages", parse)


def index(page):
    connection.sleep(300 if page == b"4" else 1)
    say("batch.indexed", page)
    say("credit.given", b"%d" % (int(page) + 1))


def indexer():
    say("credit.given", b"1")
    serve("batches", index)


def notifier():
    serve("done", lambda page: say("mail.written", page))


def mailer():
    serve("mails", lambda mail: None)


def alerter():
    serve("alerts", lambda alert: None)


def watchdog():
    while True:
        say("alarm.raised")  # to try that it comes
        connection.sleep(3600)


def console():
    say("status.asked")
    serve("answers", lambda status: say("status.asked"))


def uploader():
    while True:
        say("image.sent", b"small")
        say("image.sent", b"large")
        connection.sleep(3600)


def shrink(image):
    connection.sleep(300 if image == b"large" else 1)
    say("image.shrunk")


def thumbnailer():
    serve("images", shrink)


def gallery():
    serve("thumbs", lambda thumb: None)


globals()[full_name.split("@")[0]]()
