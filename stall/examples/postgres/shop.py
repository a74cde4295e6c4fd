"""A shop: a clerk takes what is sold out of the stock, and a packer puts what comes back into it. Each has a connection
of its own to the database, and both keep the list of the cart.

usage: shop.py stuck|slow
"""
import sys
import threading
import time

sys.path.insert(0, sys.argv[2])
import cmh_state  # noqa: F401
import psycopg2

cart, begun = threading.Lock(), threading.Barrier(2)
TAKE = "update stock set number = number - 1 where article = 4711"
BRING = "update stock set number = number + 1 where article = 4711"


def sell():
    connection = psycopg2.connect(application_name="clerk")
    cursor = connection.cursor()
    cursor.execute(TAKE)
    begun.wait()
    if sys.argv[1] == "slow":
        cursor.execute("select pg_sleep(900)")  # a report that takes its time
    with cart:
        connection.commit()


def pack():
    connection = psycopg2.connect(application_name="packer")
    with cart:
        begun.wait()
        connection.cursor().execute(BRING)
        connection.commit()


def beat():
    while True:
        time.sleep(0.5)


threading.Thread(target=beat, name="heartbeat", daemon=True).start()
threads = [threading.Thread(target=sell, name="clerk"), threading.Thread(target=pack, name="packer")]
for thread in threads:
    thread.start()
for thread in threads:
    thread.join()
