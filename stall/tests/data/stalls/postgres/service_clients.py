"""Two services: orders takes what is sold out of the stock, in a transaction, and asks delivery for a day; delivery
puts what comes back into the stock before it answers.

usage: service_clients.py stuck|slow TOOLS, which begins delivery itself
"""
import socket
import subprocess
import sys
import threading
import time

sys.path.insert(0, sys.argv[2])
import cmh_state  # noqa: F401
import psycopg2

TAKE = "update stock set number = number - 1 where article = 4711"
BRING = "update stock set number = number + 1 where article = 4711"


def beat():
    while True:
        time.sleep(0.5)


def deliver(listener):
    connection = psycopg2.connect(application_name="delivery")
    asked, _ = listener.accept()
    asked.recv(100)
    connection.cursor().execute(BRING)
    connection.commit()
    asked.sendall(b"monday\n")


def sell(port):
    connection = psycopg2.connect(application_name="orders")
    cursor = connection.cursor()
    cursor.execute(TAKE)
    with socket.create_connection(("127.0.0.1", port)) as asked:
        asked.sendall(b"when?\n")
        if sys.argv[1] == "slow":
            cursor.execute("select pg_sleep(900)")  # a report that takes its time
        asked.recv(100)
    connection.commit()


threading.Thread(target=beat, name="heartbeat", daemon=True).start()
if sys.argv[3:]:
    deliver(socket.socket(fileno=int(sys.argv[3])))
else:
    listener = socket.create_server(("127.0.0.1", 0))
    subprocess.Popen([sys.executable, *sys.argv, str(listener.fileno())], pass_fds=[listener.fileno()])
    port = listener.getsockname()[1]
    listener.close()
    sell(port)
