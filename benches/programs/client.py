#!/usr/bin/env python3
"""Asks a service at a steady rate, and logs each request: when it began, the seconds that it took, and whether it was
answered. It ends once its standard input does.

usage: client.py tcp|http|amqp|postgres|mariadb PORT REQUESTS_A_SECOND LOG
"""
from __future__ import annotations

import http.client
import os
import socket
import sys
import threading
import time
from typing import Any, Callable

THREADS = 8
PATIENCE = 30  # seconds after which a request without an answer is lost
EACH = 50  # requests for which a connection lasts, so that the service also has to accept some
STOPPED = threading.Event()
Ask = Callable[[str], str]


def tcp(port: int) -> tuple[Ask, Callable[[], object]]:
    connection = socket.create_connection(("127.0.0.1", port), PATIENCE)
    connection.setsockopt(socket.IPPROTO_TCP, socket.TCP_NODELAY, 1)
    lines = connection.makefile("rw", encoding="ascii")

    def ask(text: str) -> str:
        lines.write(f"{text}\n")
        lines.flush()
        return lines.readline().rstrip("\n")

    return ask, connection.close


def web(port: int) -> tuple[Ask, Callable[[], object]]:
    connection = http.client.HTTPConnection("127.0.0.1", port, timeout=PATIENCE)

    def ask(text: str) -> str:
        connection.request("GET", f"/echo?{text}")
        return connection.getresponse().read().decode("ascii")

    return ask, connection.close


def amqp(port: int) -> tuple[Ask, Callable[[], object]]:
    import pika
    connection = pika.BlockingConnection(pika.ConnectionParameters("127.0.0.1", port))
    channel = connection.channel()
    own = channel.queue_declare("", exclusive=True).method.queue
    answers: list[str] = []
    channel.basic_consume(own, lambda _, __, ___, body: answers.append(body.decode("ascii")), auto_ack=True)

    def ask(text: str) -> str:
        last = time.monotonic() + PATIENCE
        channel.basic_publish("", "jobs", text.encode("ascii"), pika.BasicProperties(reply_to=own))
        while not answers and time.monotonic() < last:
            connection.process_data_events(PATIENCE)
        return answers.pop() if answers else ""

    return ask, connection.close


def postgres(port: int) -> tuple[Ask, Callable[[], object]]:
    import psycopg2
    return sql(psycopg2.connect(host="127.0.0.1", port=port, user="shop", dbname="postgres"))


def mariadb(port: int) -> tuple[Ask, Callable[[], object]]:
    import pymysql
    return sql(pymysql.connect(host="127.0.0.1", port=port, user="root", database="shop"))


def sql(connection: Any) -> tuple[Ask, Callable[[], object]]:
    """Each request is a transaction that changes one of three rows, for which the others may wait."""
    cursor = connection.cursor()

    def ask(text: str) -> str:
        cursor.execute("update stock set said = %s where article = %s", (text, int(text.split(".")[1]) % 3))
        cursor.execute("select said from stock where article = %s", (int(text.split(".")[1]) % 3,))
        said = str(cursor.fetchone()[0])
        connection.commit()
        return said

    return ask, connection.close


class Client:
    """One connection after another, on which requests are made one after another."""

    def __init__(self, connect: Callable[[int], tuple[Ask, Callable[[], object]]], port: int, lasts: int) -> None:
        self.connect, self.port, self.lasts = connect, port, lasts
        self.left = 0
        self.ask: Ask
        self.close: Callable[[], object]

    def request(self, text: str) -> bool:
        """Whether a request is answered rightly. One that isn't ends its connection."""
        try:
            if self.left == 0:
                self.ask, self.close = self.connect(self.port)
                self.left = self.lasts
            is_answered = self.ask(text) == text
        except Exception as error:
            print(f"{text}: {error!r}", file=sys.stderr, flush=True)
            is_answered = False
        self.left = self.left - 1 if is_answered else 0
        if self.left == 0 and hasattr(self, "close"):
            self.close()
        return is_answered


def run(client: Client, name: str, interval: float, log: int) -> None:
    """Makes a request at each interval. Those that would have begun while one lasted aren't made up for."""
    at, number = time.monotonic(), 0
    while not STOPPED.wait(max(0.0, at - time.monotonic())):
        number += 1
        began, first = time.time(), time.monotonic()
        is_answered = client.request(f"{name}.{number}")
        now = time.monotonic()
        os.write(log, f"{began:.6f} {now - first:.6f} {int(is_answered)}\n".encode("ascii"))
        at = max(at + interval, now)


def main(kind: str, port: str, rate: str, path: str) -> None:
    log = os.open(path, os.O_WRONLY | os.O_CREAT | os.O_APPEND, 0o600)
    connect: Any = {"tcp": tcp, "http": web, "amqp": amqp, "postgres": postgres, "mariadb": mariadb}[kind]
    threads = []
    for at in range(THREADS):
        client = Client(connect, int(port), -1 if kind == "amqp" else EACH)
        threads.append(threading.Thread(target=run, args=(client, str(at), THREADS / float(rate), log)))
        threads[-1].start()
    sys.stdin.read()
    STOPPED.set()
    for thread in threads:
        thread.join()


if __name__ == "__main__":
    main(*sys.argv[1:])
