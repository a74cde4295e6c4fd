"""A shop whose two threads take two locks in two orders, and stall."""
import threading
import time

import cmh_state  # noqa: F401 (it writes a state on a signal from here on)

orders, stock = threading.Lock(), threading.Lock()


def sell():
    with orders:
        time.sleep(0.5)
        with stock:
            print("sold")


def deliver():
    with stock:
        time.sleep(0.5)
        with orders:
            print("delivered")


for work in (sell, deliver):
    threading.Thread(target=work, name=work.__name__).start()
