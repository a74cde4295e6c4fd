"""The books that a till asks over TCP: `stuck` asks it for a price before it answers, `slow` after a long time.

usage: books.py stuck|slow PORT PORT-OF-TILL
"""
import socket
import sys
import time


def book(till, how):
    if how == "slow":
        time.sleep(600)
    till.sendall(b"price\n")
    return till.recv(100)


def main(how, port, other):
    with socket.create_server(("127.0.0.1", int(port))) as listener:
        print("ready", flush=True)
        caller, _ = listener.accept()
        till = socket.create_connection(("127.0.0.1", int(other)))
        caller.recv(100)
        caller.sendall(book(till, how))


main(*sys.argv[1:])
