"""Forks while another thread has a lock, which the child wants: there nobody has it. The parent waits for the child."""
import os
import threading
import time

LOCK = threading.Lock()


def hold():
    with LOCK:
        time.sleep(1)


threading.Thread(target=hold).start()
time.sleep(0.2)
child = os.fork()
if child == 0:
    with LOCK:
        os._exit(0)
os.waitpid(child, 0)
