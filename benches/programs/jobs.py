"""The tasks of a worker of Celery, and who gives it some: without an argument, until it is ended."""
import time

import celery

app = celery.Celery("jobs", broker="redis://127.0.0.1:6379/0", backend="redis://127.0.0.1:6379/1")


@app.task
def add(one, other):
    time.sleep(0.1)
    return one + other


if __name__ == "__main__":
    while True:
        add.delay(1, 2).get(timeout=60)
