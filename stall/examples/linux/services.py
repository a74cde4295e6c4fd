#!/usr/bin/env python3
"""Two services of one thread each, and a client of each. Usage: services.py unix|tcp stuck|slow

`orders` asks `stock` what is there, and `stock` asks `orders` what is promised, each before it answers its client.
"""
import os
import socket
import sys
import time

ADDRESSES = {"unix": {"orders": "orders.sock", "stock": "stock.sock"},
             "tcp": {"orders": ("127.0.0.1", 7001), "stock": ("127.0.0.1", 7002)}}


def start(name, work, *words):
    """Starts a process, which ps shows by its name."""
    if os.fork() == 0:
        with open("/proc/self/comm", "w", encoding="utf-8") as file:
            file.write(name)
        work(*words)
        os._exit(0)


def ask(family, address, question):
    """Returns the answer of a service."""
    with socket.socket(family) as it:
        it.connect(address)
        it.sendall(question)
        return it.recv(100)


def serve(listener, family, other, is_slow):
    """Answers one client after the other."""
    while True:
        client, _ = listener.accept()
        client.recv(100)
        time.sleep(600 if is_slow else 0.5)
        client.sendall(ask(family, other, b"how many?"))


def main():
    way, how = sys.argv[1:]
    family = socket.AF_UNIX if way == "unix" else socket.AF_INET
    addresses = ADDRESSES[way]
    listeners = {name: socket.create_server(at) if way == "tcp" else socket.socket(family)
                 for name, at in addresses.items()}
    for name, it in listeners.items():
        if way == "unix":
            it.bind(addresses[name])
            it.listen()
    others = {"orders": "stock", "stock": "orders"}

    def service(name):
        listeners[others[name]].close()
        serve(listeners[name], family, addresses[others[name]], how == "slow" and name == "stock")

    for name in others:
        start(name, service, name)
    for it in listeners.values():
        it.close()
    for name in others:
        start(f"for-{name}", ask, family, addresses[name], b"one, please")
    os.wait()


if __name__ == "__main__":
    main()
