"""The command `cmh-stall --timeout`: runs another command, and if that takes too long looks at all its processes, keeps
what it saw, and ends them. Until then nothing else of the tools is loaded."""
from __future__ import annotations

import argparse
import contextlib
import errno
import os
import re
import resource
import shutil
import signal
import subprocess
import tempfile
import time
from typing import Dict, List, Mapping, NoReturn, Optional, Sequence, Set

from cmh_proc.budget import BUDGET, MOST_SECONDS
from cmh_proc.process import environment_of

from ..core.descendants import Descendant, adopt_orphans, descendants, row_of
from ..core.files import cause_of, say, shown
from ..core.start import shortage
from ..core.times import SECONDS, seconds_in

NOT_LOOKED_AT = "its processes couldn't be looked at"
TIMED_OUT, FAULT, CANNOT_RUN, NOT_FOUND = 124, 125, 126, 127  # statuses, as timeout(1) has them
PASSED_ON = {signal.SIGHUP, signal.SIGINT, signal.SIGQUIT, signal.SIGTERM, signal.SIGUSR1, signal.SIGUSR2,
             signal.SIGALRM, signal.SIGTSTP, signal.SIGCONT}
WATCHED = PASSED_ON | {signal.SIGCHLD, signal.SIGTTIN, signal.SIGTTOU}
HURRIES = (signal.SIGHUP, signal.SIGINT, signal.SIGQUIT, signal.SIGTERM)  # end the look, and then the patience
OF_KERNEL = 0x80  # the si_code of a signal that a terminal sends to its whole group
UNITS = {"": 1.0, "s": 1.0, "m": SECONDS["min"], "h": SECONDS["h"], "d": SECONDS["d"]}
LONGEST = 1e6  # seconds that the kernel is asked to wait at once
LOOK = 120  # seconds that a look may take, besides those between its readings: half of them until all is read
LEAST, MOST = 64, 1 << 20  # megabytes that a look may read
GRACE = 10.0
LACKS = {errno.EAGAIN, errno.ENOMEM, errno.EMFILE, errno.ENFILE}  # errors by which nothing at all can be run
STEP = 0.05  # seconds from one look at who has ended to the next
USAGE = "cmh-stall --timeout TIME [--grace TIME] [--seconds S] [-o FOLDER] -- COMMAND [WORD..]"


class TimeoutWords(argparse.ArgumentParser):
    """The parser of what stands before the command."""

    def error(self, message: str) -> NoReturn:
        say(f"usage: {USAGE}\ncmh-stall: error: {message}")
        raise SystemExit(FAULT)


def duration(text: str) -> float:
    """Returns a time in seconds, written as for timeout(1). Raises ValueError if it is none."""
    seconds = seconds_in(text, UNITS)
    if seconds is None:
        raise ValueError
    return seconds


def seconds_of(text: str) -> float:
    """Returns the time between two readings. Raises ValueError if a text is none."""
    seconds = float(text)
    if not 0 < seconds <= 3600:
        raise ValueError
    return seconds


def megabytes_of(text: str) -> int:
    """Returns how much a look may read. Raises ValueError if a text is no such number."""
    number = int(text)
    if not LEAST <= number <= MOST:
        raise ValueError
    return number


def add_options(parser: argparse.ArgumentParser) -> None:
    parser.add_argument("--most-seconds", metavar="S", type=seconds_of,
                        help="the time in which all looks have to be over (120 s, or 600 where something is held, and "
                        "the time between the looks besides): what isn't read by then is named")
    parser.add_argument("--most-memory", metavar="MB", type=megabytes_of,
                        help="how much is read, and how much memory that takes (512)")
    parser.add_argument("--timeout", metavar="TIME", type=duration,
                        help="run the COMMAND behind --, and look if it takes longer, such as 600 or 10m")
    parser.add_argument("--grace", metavar="TIME", type=duration, default=GRACE,
                        help="of --timeout: the time from SIGTERM to SIGKILL (10)")


def parse(words: Sequence[str]) -> argparse.Namespace:
    parser = TimeoutWords("cmh-stall", add_help=False, allow_abbrev=False)
    add_options(parser)
    parser.add_argument("--seconds", type=seconds_of, default=5.0)
    parser.add_argument("-o", "--output", metavar="FOLDER")
    end = words.index("--") if "--" in words else len(words)
    asked = parser.parse_args(words[:end])
    asked.words = list(words[end + 1:])
    if not asked.words:
        parser.error("--timeout runs a command: -- COMMAND is missing")
    if asked.output and os.path.lexists(asked.output):
        parser.error(f"{shown(asked.output)} is there already")
    return asked


# The command


def environment() -> Mapping[bytes, bytes]:
    """Returns the variables with which this process began. Python may have set LC_CTYPE since."""
    return environment_of(os.getpid()) or os.environb


def spawn(words: List[str], mask: Set[int]) -> int:
    """Begins a command as this process was begun itself. Raises OSError if it can't be run."""
    try:
        return spawn_program(words[0], words, mask)
    except OSError as error:
        path = words[0] if "/" in words[0] else shutil.which(words[0])
        if error.errno != errno.ENOEXEC or not path:
            raise
        return spawn_program("/bin/sh", ["/bin/sh", path, *words[1:]], mask)  # (a script without a first line)


def spawn_program(path: str, words: List[str], mask: Set[int]) -> int:
    begun = subprocess.Popen(words, executable=path, env=environment(), close_fds=False,
                             preexec_fn=lambda: signal.pthread_sigmask(signal.SIG_SETMASK, mask))
    begun.returncode = 0  # (it is waited for here, and by nobody else)
    return begun.pid


def is_of_group(info: signal.struct_siginfo) -> bool:
    """Whether a signal has come to the command too. A terminal that is closed sends it to the leader of the session
    alone."""
    is_closed = info.si_signo == signal.SIGHUP and os.getsid(0) == os.getpid()
    return info.si_code == OF_KERNEL and not is_closed


def is_in_foreground() -> bool:
    with contextlib.suppress(OSError), open("/dev/tty", "rb") as terminal:
        return os.tcgetpgrp(terminal.fileno()) == os.getpgrp()
    return False


class Supervisor:
    """A command that runs in the group of this process, by which the terminal is its own too."""

    def __init__(self, words: List[str], limit: float) -> None:
        signal.signal(signal.SIGCHLD, signal.SIG_DFL)
        self.adopts = adopt_orphans()
        self.mask = {int(number) for number in signal.pthread_sigmask(signal.SIG_BLOCK, WATCHED)}
        self.ended: Dict[int, int] = {}  # the status of each child that has ended
        self.pid = spawn(words, self.mask)
        self.deadline = time.monotonic() + limit if limit else float("inf")

    def wait_for_end(self) -> bool:
        """Waits until the command has ended or its time is over, and returns whether it has ended."""
        while self.pid not in self.ended and time.monotonic() < self.deadline:
            self.next_signal(self.deadline - time.monotonic())
        return self.pid in self.ended

    def next_signal(self, seconds: float) -> int:
        """Waits for a signal, so long at most, and returns its number, or 0. What isn't of a child is for the command.
        """
        info = signal.sigtimedwait(WATCHED, max(0.0, min(seconds, LONGEST)))
        if info is None:
            return 0
        if info.si_signo == signal.SIGCHLD:
            self.reap()
        elif self.pid not in self.ended and info.si_signo in PASSED_ON and not is_of_group(info):
            with contextlib.suppress(OSError):  # (it may have become another user's)
                os.kill(self.pid, info.si_signo)
        return info.si_signo

    def reap(self) -> None:
        """Notes which children have ended, and stops if the command has stopped."""
        with contextlib.suppress(ChildProcessError):
            pid, status = os.waitpid(-1, os.WNOHANG | os.WUNTRACED)
            while pid:
                if not os.WIFSTOPPED(status):
                    self.ended[pid] = status
                elif pid == self.pid:
                    self.stop_too(os.WSTOPSIG(status))
                pid, status = os.waitpid(-1, os.WNOHANG | os.WUNTRACED)

    def stop_too(self, number: int) -> None:
        """Stops by the signal that has stopped the command, so that a shell sees its job stopped. This time doesn't
        count. A command that is ended stops nobody."""
        if time.monotonic() >= self.deadline:
            return
        if os.getpgid(self.pid) != os.getpgrp() or number == signal.SIGSTOP and not is_in_foreground():
            return
        before = time.monotonic()
        os.kill(os.getpid(), number)  # (which is one with that of the terminal, as long as it is held back)
        signal.pthread_sigmask(signal.SIG_UNBLOCK, {number})
        signal.pthread_sigmask(signal.SIG_BLOCK, {number})
        self.deadline += time.monotonic() - before

    # What is done once it has taken too long

    def look(self, words: List[str], seconds: float) -> Optional[int]:
        """Runs cmh-stall with some words, and returns its status, or None if a signal ends that. It prints to standard
        error."""
        try:
            pid = os.fork()
        except OSError as error:
            say(f"cmh-stall: nothing can be looked at: {cause_of(error)}")
            return FAULT
        if not pid:
            run_stall(words, self.mask)
        until, end, is_hurried = time.monotonic() + LOOK + 2 * seconds, signal.SIGTERM, False
        while pid not in self.ended:
            is_hurried = self.next_signal(until - time.monotonic()) in HURRIES or is_hurried
            if pid not in self.ended and (is_hurried or time.monotonic() >= until):
                os.kill(pid, end)
                until, end = time.monotonic() + GRACE, signal.SIGKILL
        status = self.ended[pid]
        return None if is_hurried else os.WEXITSTATUS(status) if os.WIFEXITED(status) else FAULT

    def end_all(self, grace: float) -> List[Descendant]:
        """Ends all processes below this one: by SIGTERM, and by SIGKILL who is there after the grace, or at once if a
        signal comes. Returns those who are left."""
        number, until = signal.SIGTERM, time.monotonic() + grace
        told: Dict[Descendant, int] = {}
        left = descendants(os.getpid())
        while left or self.adopts and self.has_children():
            for process in left:
                if told.get(process) != number:
                    send(process, number)
                    told[process] = number
            is_late = self.next_signal(STEP) in HURRIES or time.monotonic() >= until
            if is_late and number == signal.SIGKILL:
                break
            if is_late:
                number, until = signal.SIGKILL, time.monotonic() + GRACE
            left = [process for process in {**dict.fromkeys(descendants(os.getpid())), **told} if process.is_there()]
        return left

    def has_children(self) -> bool:
        """Whether this process has children, of which those that have ended go meanwhile."""
        self.reap()
        try:
            os.waitid(os.P_ALL, 0, os.WEXITED | os.WNOHANG | os.WNOWAIT)
        except ChildProcessError:
            return False
        return True


def send(process: Descendant, number: int) -> None:
    """Ends a process by a signal, which one that is stopped heeds once it goes on."""
    with contextlib.suppress(OSError):
        process.send(number)
        process.send(signal.SIGCONT)


def run_stall(words: List[str], mask: Set[int]) -> NoReturn:
    """Becomes cmh-stall, apart from the signals of the terminal."""
    status: object = FAULT
    try:
        os.setsid()
        signal.pthread_sigmask(signal.SIG_SETMASK, mask)
        os.dup2(os.open(os.devnull, os.O_RDONLY), 0)
        os.dup2(2, 1)
        from .stall_command import command as stall
        status = stall(words)
    except SystemExit as ended:
        status = ended.code
    except Exception as error:  # (before the command can say so itself)
        say(f"cmh-stall: {what_failed(error)}")
    finally:
        os._exit(status if isinstance(status, int) else FAULT)


def what_failed(error: Exception) -> str:
    """Says what the machine lacks, or else that a fault is our own."""
    return shortage(error) or f"this is a fault of cmh-stall: {type(error).__name__}: {error}"


# The look


def ways_to_look() -> List[List[str]]:
    """Returns the words by which cmh-stall takes the processes below this one: with all that sees inside of some, and
    as the kernel sees them."""
    from ..systems import KERNEL, NAMES, taker_of
    pids = [process.pid for process in descendants(os.getpid())]
    kernel = [KERNEL, *(str(pid) for pid in pids if row_of(pid)[0] == os.getpid())]
    insides = {name: taker_of(name).those_to_ask(pids) for name in NAMES}
    more = [word for name, inside in insides.items() if inside for word in ("--with", name, *map(str, inside))]
    return [[*kernel, *more], kernel] if more else [kernel]


def new_path(command: str) -> str:
    """Returns the path of a new folder, in the one for temporary files if this one can't be written to."""
    name = re.sub(r"[^\w.+-]", "_", os.path.basename(command)) or "command"
    where = "" if os.access(".", os.W_OK) else f"{tempfile.gettempdir()}/"
    return f"{where}stall-{name}-{time.strftime('%Y%m%d-%H%M%S')}-{os.getpid()}"


def time_out(supervisor: Supervisor, asked: argparse.Namespace) -> None:
    """Looks at the processes of a command that takes too long, and ends them."""
    name, path, status = shown(asked.words[0]), asked.output or new_path(asked.words[0]), None
    folder = path
    limits = ["--most-seconds", f"{asked.most_seconds or LOOK / 2 + asked.seconds:g}"]
    limits += ["--most-memory", str(asked.most_memory)] if asked.most_memory else []
    BUDGET.give(MOST_SECONDS)  # (its time has passed while the command ran)
    say(f"cmh-stall: {name} takes longer than {asked.timeout:g} s: its processes are looked at, and then ended")
    for number, words in enumerate(ways_to_look(), 1):
        folder = path if number == 1 else f"{path}-{number}"
        more = ["--seconds", f"{asked.seconds:g}", "-o", folder, "--timeout", f"{asked.timeout:g}", *limits]
        status = supervisor.look([*words, *more], asked.seconds)
        if status in (0, 3, 5, None):
            break
    left = supervisor.end_all(asked.grace)
    say(f"cmh-stall: {name} is ended, and {kept_words(folder) if status in (0, 3, 5) else NOT_LOOKED_AT}")
    if left:
        say(f"cmh-stall: these can't be ended: {', '.join(shown(process.name()) for process in left)}")
    if not supervisor.adopts:
        say("cmh-stall: processes whose parent had ended before aren't known, and may still run, since "
            "prctl(PR_SET_CHILD_SUBREAPER) fails here")


def kept_words(folder: str) -> str:
    """Returns where an answer is, which isn't in its folder where that has no room."""
    return f"what was seen is kept in {shown(folder)}" if os.path.exists(folder) else "the answer stands above"


def end_as(status: int) -> int:
    """Ends as the command has, by the same signal if one has ended it. Returns its status."""
    if not os.WIFSIGNALED(status):
        return os.WEXITSTATUS(status)
    number = os.WTERMSIG(status)
    resource.setrlimit(resource.RLIMIT_CORE, (0, resource.getrlimit(resource.RLIMIT_CORE)[1]))
    with contextlib.suppress(OSError, ValueError):  # (SIGKILL has no other way)
        signal.signal(number, signal.SIG_DFL)
    signal.pthread_sigmask(signal.SIG_UNBLOCK, {number})
    os.kill(os.getpid(), number)
    return 128 + number


def command(words: Sequence[str]) -> int:
    """Runs the command with its words, and returns its status."""
    asked = parse(words)
    try:
        supervisor = Supervisor(asked.words, asked.timeout)
    except OSError as error:
        say(f"cmh-stall: {shown(asked.words[0])} can't be run: {cause_of(error)}")
        return NOT_FOUND if error.errno == errno.ENOENT else FAULT if error.errno in LACKS else CANNOT_RUN
    try:
        if supervisor.wait_for_end():
            return end_as(supervisor.ended[supervisor.pid])
        time_out(supervisor, asked)
    except Exception as error:  # (one that nobody has thought of)
        say(f"cmh-stall: {what_failed(error)}")
        with contextlib.suppress(OSError):  # (those below may not be found now)
            os.kill(supervisor.pid, signal.SIGKILL)
            supervisor.end_all(asked.grace)
        return FAULT
    return TIMED_OUT
