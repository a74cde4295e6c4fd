"""A job of make that wants two of its tokens at once, as a linker that works in parallel may."""
import os
import re
import select
import time

tokens = int(re.findall(r"--jobserver-auth=(\d+),", os.environ["MAKEFLAGS"])[0])
for at in range(2):
    select.select([tokens], [], [])  # (make reads it without waiting, so who waits looks first)
    os.read(tokens, 1)
    time.sleep(1)
