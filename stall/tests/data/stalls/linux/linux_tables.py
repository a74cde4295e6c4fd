"""What tests know of Linux, beside its kept cases."""
import re

from changes import APART

# Of how many kept stalls the likely answer has all roots, and nobody who isn't stuck; and of how many each root as it
# is.
LIKELY, EXACT = 159, 124
# Its stalls of examples/: the folder, the words for stuck and slow, the commands, and what is said beforehand.
LIVE = {
    "linux": ("linux", ["pipes stuck", "pipes slow"], ["unshare", "ip"],
              "nothing is stopped"),
}
# Kept stalls that are begun, looked at and cured, with the commands that they need.
CURED, CURED_BY = """
        pipes fifos flocks cpp_mutexes_stacks cpp_shared_stacks tick_sides most_queues_stacks frames_borrows unix tcp
        tokens semaphores spliced ring coprocess asks_gunicorn asks_php eventfds children lock_taker shared_lock
        datagram_pair""", ["unshare", "g++"]
# Values that could be more than it takes: where they stand, and what comes there.
ONCE = [
    (r'"fds": {', '"fds": {"0": 7, '),
    (r'"args": \["0x', '"args": ["x'),
]
BYSTANDER = {"pid": APART, "ppid": 1, "group": APART, "start": 1, "state": "S", "comm": "bystander", "TracerPid": "0",
             "command": "/srv/bystander", "SigCgt": "0", "exe": "/srv/bystander", "fds": {}, "timers": False,
             "threads": [{"tid": APART, "state": "S", "pending": False, "call": "clock_nanosleep", "args": ["0x0"] * 6,
                          "wchan": "hrtimer_nanosleep", "counts": [1, 1]}]}
ROWS = "cmh-linux ", "processes"  # how rows begin, and the count of those of a reading


def shows(text, process):
    """A thread has the same call, arguments and count in each reading, and the count before them is that behind them.
    """
    pid, tid = process.thread.split("/")
    found = []
    for reading in text.split('"reading": ')[1:]:
        rows = re.findall(rf'^cmh-linux \{{"pid": {pid}, .*', reading, re.M)
        call, counts = r'("call": "[^"]*", "args": \[[^]]*\])', r'"counts": \[(\d+), \2\]'
        thread = rf'\{{"tid": {tid}, [^{{}}]*?{call}[^{{}}]*?{counts}'
        found.append([it.groups() for row in rows for it in re.finditer(thread, row)])
    return len(found) > 1 and all(rows == found[0] for rows in found) and len(found[0]) == 1
