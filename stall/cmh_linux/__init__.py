"""Reads what the Linux kernel keeps of the waits of some processes, twice, and prints it as a state for cmh-dump.

    python3 cmh_linux --pid PID.. [--seconds 5] [--stacks] > STATE

It reads each PID with all its children and theirs, and follows the other ends of what they wait at through all
processes of the machine. It needs Python 3.8. The processes have to be of the same user, or it has to have
CAP_SYS_PTRACE, as root has: what it can't read is named.

Nothing is stopped, no signal is sent, nothing is written, and nothing under /proc/PID/fd is ever opened: to open the
end of a pipe may end the wait of another process. Only `--stacks` holds each process for a moment, after all is read.

The state is a line of JSON for each process, with its threads, descriptors and command line. Look at it before you mail
it: descriptors have names of files, and command lines may have passwords.
"""
from .command import add_options, collect, main

__all__ = ["add_options", "collect", "main"]
