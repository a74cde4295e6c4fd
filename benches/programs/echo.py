#!/usr/bin/env python3
"""Echoes the lines of each connection, by a thread for each and one that does their work for all.

usage: echo.py [FOLDER OF cmh_state [THREADS]]

So many more threads have a lock each, and wait.
"""
from __future__ import annotations

import os
import queue
import socket
import sys
import threading

if sys.argv[1:]:
    sys.path.insert(0, sys.argv[1])
    import cmh_state  # noqa: F401

JOBS: queue.Queue[tuple[bytes, queue.SimpleQueue[bytes]]] = queue.Queue(100)


def work() -> None:
    while True:
        line, answers = JOBS.get()
        answers.put(line)


def serve(connection: socket.socket) -> None:
    answers: queue.SimpleQueue[bytes] = queue.SimpleQueue()
    connection.setsockopt(socket.IPPROTO_TCP, socket.TCP_NODELAY, 1)
    with connection, connection.makefile("rb") as lines:
        for line in lines:
            JOBS.put((line, answers))
            connection.sendall(answers.get())


def wait(lock: threading.Lock) -> None:
    with lock:
        threading.Event().wait()


def main() -> None:
    for _ in range(int(sys.argv[2]) if sys.argv[2:] else 0):
        threading.Thread(target=wait, args=(threading.Lock(),), daemon=True).start()
    threading.Thread(target=work, daemon=True).start()
    listener = socket.create_server(("127.0.0.1", 0), backlog=100)
    print("ready", listener.getsockname()[1], os.getpid(), flush=True)
    while True:
        threading.Thread(target=serve, args=(listener.accept()[0],), daemon=True).start()


main()
