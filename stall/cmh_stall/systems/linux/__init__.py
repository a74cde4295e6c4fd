"""Any processes of Linux, as the kernel sees them."""
from __future__ import annotations

from ..descriptor import Assumption, Descriptor, Option

SYSTEM = Descriptor(
    name="linux",
    called="anything on Linux",
    target="PID..",
    manual="""Ar PID ...
Any processes, with their children, as the kernel sees them.""",
    states="what cmh_linux reads of processes, twice: --pid PID, or a state of it",
    by="processes as the kernel sees them",
    shows="pipes, sockets, file locks, children, mutexes, stacks",
    lacks="best root",
    stops="nothing is stopped, and no signal is sent",
    short="Linux",
    options=(Option("stacks", "PID.. --stacks",
                    "read the stacks of those at a futex too, which holds each for a moment"),),
    operations="""read write wait4 waitid futex recvfrom recvmsg sendto sendmsg flock fcntl select pselect6 poll ppoll
        epoll_wait epoll_pwait accept accept4 connect openat pause clock_nanosleep nanosleep semop semtimedop
        msgrcv msgsnd mq_timedreceive mq_timedsend rt_sigtimedwait rt_sigsuspend pthread_join pthread_mutex_lock
        pthread_rwlock_rdlock pthread_rwlock_wrlock pthread_barrier_wait polls vfork stopped traced""",
    joins=("pthread_join",),
    for_others="join",
    assumptions={
        "signals": Assumption(
            "no signal, alarm or timer comes but to a handler of the program's own, and nobody kills a process",
            "an operator who sends one"),
        "outside": Assumption(
            "no process outside of this container has a file of those in it",
            "a descriptor that was given to it"),
        "files": Assumption(
            "who has a file or memory shows it among its descriptors and mappings: none is on its way unseen, kept by "
            "the kernel or by one thread alone, was replaced during a wait, or is opened anew by its name in /proc",
            "a descriptor within a message, or /proc/PID/fd/1"),
        "made": Assumption(
            "what a process hasn't got, and only those below it have, was made by it or by these; who can't be read "
            "elsewhere was given none of it, and opened none by its name",
            "a descriptor that was given to one elsewhere"),
        "above": Assumption("nobody from whom a process descends ends it", "a supervisor"),
        "keyless": Assumption(
            "a set of semaphores or a queue of messages without a key is used by those alone that descend from the one "
            "that made it, which is of the session or the program of one who uses it",
            "one that was told its number"),
        "group": Assumption("no other child joins the group for which one waits", "setpgid"),
        "shell": Assumption(
            "a shell has started in the background who ignores SIGINT, and waits for the one that doesn't",
            "a child that ignores SIGINT itself"),
        "sleeper": Assumption(
            "the program `sleep` only sleeps: it neither reads, writes nor unlocks what it has inherited",
            "another program of that name"),
        "untimed": Assumption(
            "a socket has no limit of its own (SO_RCVTIMEO, SO_SNDTIMEO, TCP_USER_TIMEOUT)",
            "a program that sets one"),
        "stack": Assumption(
            "what a stack shows right after both readings was so in them, and who locks a mutex unlocks it",
            "a thread that went on in between"),
    },
)
