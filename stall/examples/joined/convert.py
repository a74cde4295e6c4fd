"""A service that has its pictures converted by a program in C.

Its worker has the lock of the converter while it reads the answer. The converter needs the second line for that, which
the main thread would write, had it the lock. With `slow` the converter needs no second line, and takes its time.
"""
import subprocess
import sys
import threading

import cmh_state  # noqa: F401

LOCK = threading.RLock()
READS = threading.Event()


def answer(converter):
    with LOCK:
        READS.set()
        return converter.stdout.readline()


def feed(converter, line):
    with LOCK:
        converter.stdin.write(line)
        converter.stdin.flush()


def main(how):
    converter = subprocess.Popen(["./converter", how], stdin=subprocess.PIPE, stdout=subprocess.PIPE)
    feed(converter, b"picture 1\n")
    worker = threading.Thread(target=answer, args=(converter,), name="worker")
    worker.start()
    READS.wait()
    feed(converter, b"size 80 60\n")
    worker.join()


main(sys.argv[1])
