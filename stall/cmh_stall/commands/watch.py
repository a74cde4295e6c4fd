"""Looks at a service of systemd again and again, which may be started anew meanwhile, and keeps a bounded number of the
folders."""
from __future__ import annotations

import contextlib
import os
import re
import shutil
import subprocess
import time
from typing import Callable, Dict, List, Tuple

from ..core.files import Failure, Refusal, cause_of, failure_of, say, shown, signal_words
from ..core.model import Headline

TRIES = 5  # looks at a service that is started anew during each
PAUSE = 2.0  # seconds in which a service that is about to run gets its process
KEPT = 10  # folders of stalls
LAST = "last"  # a link to the folder of the last look
NAME = re.compile(r"\d{8}-\d{6}(-\d+)?")
STALLS = tuple(f"{headline.value}:".encode() for headline in (Headline.DEADLOCK, Headline.LIKELY))
Check = Callable[[], None]  # raises Failure if what was taken isn't of the service


def watch(unit: str, room: str, keep: int, look: Callable[[str, str, Check], Tuple[int, str]]) -> int:
    """Looks at the main process of a unit, with all below it, and returns the status of the answer. `look` takes a
    process into a new folder, and asks whether it is still that of the unit before it says anything: it returns the
    status, and where the folder is. Raises Failure if there is no answer."""
    with contextlib.suppress(OSError):  # (then the folder is made where there is room)
        os.makedirs(room, 0o700, exist_ok=True)
    for _ in range(TRIES):
        state = state_of(unit)
        pid = state["MainPID"]
        if pid == "0" and state["ActiveState"] in ("inactive", "failed"):
            say(f"{shown(unit)} doesn't run: nothing is looked at")
            return 0
        name = time.strftime("%Y%m%d-%H%M%S")
        try:
            check_process(unit, pid)
            status, path = look(pid, f"{room}/{name}", lambda: check_process(unit, pid))
        except (Failure, Refusal):
            if pid == state_of(unit)["MainPID"] != "0":
                raise
            say(f"{shown(unit)} is started anew meanwhile: it is looked at again")
            time.sleep(PAUSE if pid == "0" else 0)
            continue
        if os.path.dirname(path) == room:
            keep_folders(room, os.path.basename(path), keep)
        return status
    raise Failure(f"{shown(unit)} is started anew again and again, so there is no answer")


def state_of(unit: str) -> Dict[str, str]:
    """Returns what systemd says of a unit. Raises Failure if it knows none."""
    names = ["MainPID", "ActiveState", "LoadState"]
    try:
        ran = subprocess.run(["systemctl", "show", f"--property={','.join(names)}", "--", unit], check=False,
                             stdout=subprocess.PIPE, stderr=subprocess.PIPE, encoding="utf-8", errors="replace")
    except OSError as error:
        raise failure_of("systemctl", error) from error
    rows = dict(line.partition("=")[::2] for line in ran.stdout.splitlines())
    killed = signal_words(ran.returncode)
    if killed:
        raise Failure(f"systemctl {killed}")
    if ran.returncode or not {*names} <= {*rows} or rows["LoadState"] != "loaded":
        why = ran.stderr.strip() or rows.get("LoadState") or "it says nothing of its main process"
        raise Failure(f"systemctl has no service {shown(unit)}: {shown(why)}")
    return rows


def check_process(unit: str, pid: str) -> None:
    if pid == "0" or state_of(unit)["MainPID"] != pid:
        raise Failure(f"{shown(unit)} has no process yet" if pid == "0" else f"process {pid} isn't that of {unit} now")


def keep_folders(room: str, name: str, keep: int) -> None:
    """Has `last` lead to the folder of the last look, and removes others: those without a stall, and those of the
    oldest stalls, but for so many."""
    with contextlib.suppress(OSError):
        os.remove(f"{room}/.{LAST}")
    try:
        os.symlink(name, f"{room}/.{LAST}")
        os.replace(f"{room}/.{LAST}", f"{room}/{LAST}")
    except OSError as error:
        say(f"warning: {shown(room)}/{LAST}: {cause_of(error)}")
        return
    old: List[str] = sorted(filter(NAME.fullmatch, os.listdir(room)), key=numbers_of, reverse=True)
    stalls = [folder for folder in old if is_stall(f"{room}/{folder}")]
    for folder in {*old} - {*stalls[:keep], name}:
        shutil.rmtree(f"{room}/{folder}", ignore_errors=True)


def numbers_of(name: str) -> List[int]:
    """Returns the day, the time and the number of a folder, by which it is older or newer than others."""
    return [*map(int, name.split("-"))]


def is_stall(path: str) -> bool:
    """Whether a folder has the answer to a stall, also a likely one."""
    with contextlib.suppress(OSError), open(f"{path}/answer", "rb") as file:
        return file.read(100).startswith(STALLS)
    return False
