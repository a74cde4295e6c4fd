#!/usr/bin/env python3
"""A job that has its rows checked by another program, over three pipes. Usage: pipes.py stuck|slow"""
import subprocess
import sys
import time

ROWS = 100_000


def check(how):
    """The other program: it has a word on standard error for each row, and the result at the end."""
    if how == "slow":
        time.sleep(600)
    number = 0
    for line in sys.stdin:
        number += len(line)
        print(f"warning: row {line.strip()} has no date", file=sys.stderr)
    print(number)


def main():
    how = sys.argv[1]
    if sys.argv[2:]:
        return check(how)
    words = [sys.executable, __file__, how, "check"]
    with subprocess.Popen(words, stdin=subprocess.PIPE, stdout=subprocess.PIPE, stderr=subprocess.PIPE) as checker:
        for row in range(ROWS):
            checker.stdin.write(b"%d\n" % row)
        checker.stdin.close()
        print(checker.stdout.read(), checker.stderr.read())
    return None


if __name__ == "__main__":
    main()
