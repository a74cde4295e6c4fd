"""The calls of the kernel that may wait: their numbers, what they do, which arguments are descriptors and limits, and
what flags say. It is one table, for what takes a state and for what reads it.
"""
from __future__ import annotations

from functools import lru_cache
from typing import Dict, Sequence

# By what they do, each with its numbers on x86-64 and on ARM of 64 bits. (One that is "-" isn't there.)
NUMBERS = {
    "read": "read 0 63  readv 19 65  pread64 17 67  preadv 295 69  recvfrom 45 207  recvmsg 47 212  recvmmsg 299 243",
    "write": "write 1 64  writev 20 66  pwrite64 18 68  pwritev 296 70  vmsplice 278 75  sendto 44 206  sendmsg 46 211"
             "  sendmmsg 307 269",
    "accept": "accept 43 202  accept4 288 242",
    "wait for any of a set": "poll 7 -  ppoll 271 73  select 23 -  pselect6 270 72",
    "wait for any of an epoll": "epoll_wait 232 -  epoll_pwait 281 22  epoll_pwait2 441 441",
    "move from one file to another": "sendfile 40 71  splice 275 76  tee 276 77",
    "sleep": "nanosleep 35 101  clock_nanosleep 230 115",
    "wait for any signal": "pause 34 -  rt_sigsuspend 130 133",
    "use a queue of messages": "mq_timedsend 242 182  mq_timedreceive 243 183",
    "use what is of System V": "semop 65 193  semtimedop 220 192  msgsnd 69 189  msgrcv 70 188",
    "make a process": "clone 56 220  clone3 435 435  fork 57 -  vfork 58 -",
    "open": "open 2 -  openat 257 56  openat2 437 437",
    "wait for a child": "wait4 61 260  waitid 247 95",
    "lock a file": "flock 73 32  fcntl 72 25",
    "do something else": "connect 42 203  futex 202 98  futex_waitv 449 449  rt_sigtimedwait 128 137  ptrace 101 117"
                         "  io_getevents 208 4  io_uring_enter 426 426  fsync 74 82  fdatasync 75 83  exit 60 93"
                         "  exit_group 231 94  restart_syscall 219 128",
}
MACHINES = ("x86_64", "aarch64")  # in the order of the numbers
(READ, WRITE, ACCEPTS, SETS, EPOLLS, MOVES, SLEEPS, SUSPENDS, QUEUES, IPC, FORKS, OPENS, CHILDREN, LOCKS,
 OTHERS) = (tuple(row.split()[::3]) for row in NUMBERS.values())
AT_FIRST = (*READ, *WRITE, *ACCEPTS, *QUEUES, *LOCKS, "connect")  # those whose first argument is a descriptor
PAIRS = {"sendfile": (1, 0), "splice": (0, 2), "tee": (0, 1)}  # which arguments are descriptors: from, to
READS, WRITES, EVENTS, ONESHOT = 1, 4, 0xFFFF, 1 << 30  # POLLIN, POLLOUT, all such, and of epoll what is seen once
# At which argument a call has its limit: a number in milliseconds, or where a time stands in memory. (That of recvmmsg
# ends no wait for the first.)
LIMITS = {"poll": 2, "ppoll": 2, "select": 4, "pselect6": 4, "epoll_wait": 3, "epoll_pwait": 3, "epoll_pwait2": 3,
          "futex": 3, "rt_sigtimedwait": 2, "semtimedop": 3, "mq_timedsend": 4, "mq_timedreceive": 4,
          "io_getevents": 4, "nanosleep": 0, "clock_nanosleep": 2}
IN_MILLISECONDS = ("poll", "epoll_wait", "epoll_pwait")
FOREVER = 0x7FFFFFFF  # a limit of 24 days, which programs write for none
# How many arguments tell those calls from others that often come back to one place, without a limit that is a number;
# the other registers have what was left in them.
ARGUMENTS = {"nanosleep": 2, "poll": 2, "clock_nanosleep": 4, "epoll_wait": 3, "epoll_pwait": 3, "select": 5,
             "ppoll": 5}
MOST_ARGUMENTS = 6
# Of a futex: what it does without its flags, that it is of one process alone, and that its limit is by the clock; which
# operations wait, and which are at a lock of which the kernel knows the owner; and the owner in the word of such a one.
OPERATION, PRIVATE, BY_CLOCK, FUTEX_WAITS, FUTEX_LOCKS, OWNER = 127, 128, 256, (0, 9), (6, 13), 0x3FFFFFFF
SETLKW = (7, 38)  # of fcntl: F_SETLKW and F_OFD_SETLKW


@lru_cache(maxsize=None)
def calls_of(machine: str) -> Dict[int, str]:
    """Returns the names of the calls by their numbers, or nothing for a machine of which these aren't known."""
    if machine not in MACHINES:
        return {}
    words = " ".join(NUMBERS.values()).split()
    numbers = words[1 + MACHINES.index(machine)::3]
    return {int(number): name for name, number in zip(words[::3], numbers) if number != "-"}


def int32(value: int) -> int:
    """Returns the number of 32 bits that a register has."""
    return (value & 0xFFFFFFFF ^ 0x80000000) - 0x80000000


def has_limit(call: str, arguments: Sequence[int]) -> bool:
    """Whether a wait in a call ends by itself, as its arguments say."""
    if call in SLEEPS or call not in LIMITS:
        return call in SLEEPS
    value = arguments[LIMITS[call]]
    return 0 <= int32(value) < FOREVER if call in IN_MILLISECONDS else value != 0
