"""A pool of processes and one of threads, which work without an end."""
import concurrent.futures
import multiprocessing
import time


def work(number):
    time.sleep(0.05)
    return sum(range(number % 10000))


def main():
    with multiprocessing.Pool(2) as pool, concurrent.futures.ThreadPoolExecutor(3) as threads:
        while True:
            pool.map(work, range(20))
            list(threads.map(work, range(20)))


if __name__ == "__main__":
    main()
