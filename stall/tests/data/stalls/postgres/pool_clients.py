"""A shop whose pool has two connections. A seller has the row of an article, and takes a second connection for the
journal; a buyer has that one, and waits for the row.

usage: pool_clients.py stuck|slow TOOLS
"""
import queue
import sys
import threading
import time

sys.path.insert(0, sys.argv[2])
import cmh_state  # noqa: F401
import psycopg2.extensions

pool: "queue.Queue[psycopg2.extensions.connection]" = queue.Queue()
begun = threading.Barrier(2)
for name in ("first", "second"):
    pool.put(psycopg2.connect(application_name=name))
CHANGE = "update stock set number = number + 1 where article = 4711"


def sell():
    connection = pool.get()
    connection.cursor().execute(CHANGE)
    begun.wait()
    if sys.argv[1] == "slow":
        connection.cursor().execute("select pg_sleep(900)")
    begun.wait()
    journal = pool.get()
    journal.commit()
    connection.commit()


def buy():
    begun.wait()
    connection = pool.get()
    if sys.argv[1] == "stuck":
        begun.wait()
    connection.cursor().execute(CHANGE)
    connection.commit()
    pool.put(connection)


def beat():
    while True:
        time.sleep(0.5)


threading.Thread(target=beat, name="heartbeat", daemon=True).start()
threads = [threading.Thread(target=sell, name="seller"), threading.Thread(target=buy, name="buyer")]
for thread in threads:
    thread.start()
for thread in threads:
    thread.join()
