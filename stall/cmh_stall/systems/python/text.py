"""The states of Python programs as text: what cmh_state prints, or what faulthandler does, read into looks.

A look is what one state has of one OS process: its threads, its tasks, its event loops. Lines that stand between those
of a state, such as a log's, are left out.
"""
from __future__ import annotations

import json
import re
from typing import Any, Dict, List, Optional, Sequence, Tuple

from ...core.files import Refusal, shown
from .. import State
from ...core.sketch import once_each
from ..base import COUNT, fits, misfits
from .rows import Caller, PythonLook, PythonRow, is_number, last_word
from .stack import PythonFrame, frame_in_file, kind_of

MARK = "cmh-state "
OF_FRAMES = "cmh-python "  # what the lines of cmh_python_reader.py begin with
SPY = re.compile(r"^Process (\d+): ", re.M)
VERSION = 1
NUMBER, TEXT, FLAG = (int, type(None)), (str, type(None)), (bool, type(None))
ERROR = {"error": str}  # what stands in the place of a value that an odd object kept from being read
HEAD = {"version": int, "process": str, "pid": int, "seconds": (int, float), "unseen?": [str], "signal?": NUMBER,
        "alarm?": (int, float), "on_alarm?": TEXT, "on_child?": TEXT, "handlers?": {str: str}, "foreign_timer?": FLAG,
        "others?": NUMBER, "queues?": NUMBER, "parent?": int, "host?": str, "began?": object, "ended?": object,
        "python?": str, "reader?": NUMBER, "space?": TEXT, "time?": str}
# Keys of a head, and those of which one is there too, as each version of cmh_state writes them.
NEEDS = [({"queues"}, ("others",)), ({"queues"}, ("reader",)), ({"reader", "others"}, ("foreign_timer",)),
         ({"reader"}, ("handlers", "on_child")), *(({"reader"}, (key,)) for key in ("alarm", "on_alarm", "unseen"))]
FILE = (type(None), re.compile(r"[0-9a-f]{1,8}:[0-9a-f]{1,8} \d{1,20}"))  # its device and its number
ID = re.compile("0x[0-9a-f]{1,16}")
OBJECT = {"type": str, "id": ID, "all?": [object], "done?": bool, "name?": str, ...: object}
VALUE = (OBJECT, type(None), str, int, float, bool, [object], ERROR)
# The call of no frame that a thread is in, as far as it is known: the most frequent shape is tried first.
CALL = ({"words": str, "how": re.compile("call|with"), "on": (OBJECT, type(None), [object], ERROR),
         "arguments": ([object], type(None), ERROR), "module?": TEXT, "function?": str, "named?": [str]},
        type(None), {"words": type(None)}, {"step": str}, ERROR)
FRAME = ({"in": str, "file": str, "line": NUMBER, "has?": {str: VALUE}}, ERROR)
# What the rows of threads and tasks have alike: `holds`, `ends`, `cancels` and `releases` may be missing in older ones.
PLACE = {"of": int, "name": str, "moved": bool, "frames": [FRAME], "holds?": ([ID], type(None), ERROR),
         "ends?": ([str], ERROR), "cancels?": (bool, ERROR), "releases?": bool, "taken?": [ID], "around?": [ID],
         "again?": bool, "error?": str, "at?": object, "inside?": object}  # (the last two: of old states)
# The form of each row of a state, by the first of these keys that it has.
ROWS: Dict[str, Dict[str, Any]] = {
    "runs": {"of": int, "runs": ID, "thread": NUMBER, "current": (ID, type(None)), "callers?": ({str: bool}, ERROR),
             "waking?": ([str], ERROR), "arriving?": ([ID], ERROR), "callbacks?": [str], "signals?": [str]},
    "thread": {**PLACE, "thread": int, "native": NUMBER, "daemon": bool, "main": bool, "stops": NUMBER, "spent": NUMBER,
               "new_stops?": (COUNT, type(None)), "asleep?": FLAG, "loop": (ID, type(None)), "call": CALL,
               "connections?": object},
    "task": {**PLACE, "task": ID, "number": int, "loop": ID, "wait": int, "waits": (OBJECT, type(None), ERROR),
             "limit": bool, "sets": [ID], "parent?": str, "completes?": object, "connections?": object,
             "asks?": object},
    "asked": {"of": int, "asked": ID, "loop": ID, "name": str},
    "child": {"of": int, "child": NUMBER, "name": str, "ended": FLAG},
    "semaphore": {"of": int, "semaphore": FILE, "count": int},
    "queue": {"of": int, "queue": FILE, "by?": object, "in?": object},
    "wait": {"of": int, "wait": object, "by": object, "nameless?": object, "signals?": object},
    "quiet": {"of": int, "quiet": object, "loops": object, "apart?": object, "steady?": object},
    "sleeper": {"of": int, "sleeper": object, "ends": object}}
OLDER = ("wait", "quiet", "sleeper")  # kinds of rows that older states have, and that nobody reads any more
LOCKS = ("lock", "RLock")
METHODS = ("acquire", "acquire_lock", "release", "locked", "__enter__", "__exit__", "_acquire_restore")  # of a lock
# Keys that not all rows have, and those that both kinds have.
VARY, BOTH = {"at", "again", "completes", "parent"}, {key.rstrip("?") for key in PLACE}
LIMITED = re.compile(r"threading\.(Condition\.wait|Thread\.(join|_wait_for_tstate_lock))$|selectors\.\w+\.select$")
BOOTSTRAP = re.compile(r"threading\.(Thread\.)?_bootstrap")
FAULT_HEAD = re.compile(r"(?:Current thread|Thread) (0x[0-9a-f]+)(?: \[(.*)\])? \(most recent call first\):$")
FAULT_FRAME = re.compile(r'  File "(.*)", line (\d+|\?\?\?)(?: in (.*))?$')


def is_limit(value: Any) -> bool:
    return value is None or is_number(value)


def is_of_frames(text: str) -> bool:
    """Whether a text shows frames alone, as py-spy and gdb do."""
    return has_line(text, OF_FRAMES) or has_line(text, "Process ") and SPY.search(text) is not None


def has_line(text: str, start: str) -> bool:
    """Whether a line of a text starts so: an expression takes long to find none in a large one."""
    return text.startswith(start) or f"\n{start}" in text


def looks_of(state: State) -> List[PythonLook]:
    """Returns the looks of a text in their order. Raises Refusal if it has none."""
    if is_of_frames(state.text):
        from .frames import looks_of_frames  # (few states are so, and to make its expressions takes long)
        return looks_of_frames(state.path, state.text)
    lines = state.text.split("\n")
    found = looks_of_module(state.path, lines) if MARK in state.text else looks_of_faulthandler(state.path, lines)
    if not found:
        raise Refusal(f"{shown(state.path)}: it has no line of cmh_state, none of py-spy, and none of faulthandler, "
                      "such as 'Thread 0x.. (most recent call first):'")
    return found


# What cmh_state prints


def looks_of_module(path: str, lines: List[str]) -> List[PythonLook]:
    """Each row says of which process it is, so that the lines of several may stand between each other."""
    looks: List[PythonLook] = []
    open_looks: Dict[Any, PythonLook] = {}
    rows: Dict[Any, int] = {}
    for at, line in enumerate(lines, 1):
        text = line.partition(MARK)[2]
        if not text:
            continue
        row = row_of(text)
        pid = None if row is None else row.get("pid" if "version" in row else "end" if "end" in row else "of")
        if row is not None and "version" in row:
            look = head_of(row, path, at)
            close(open_looks.get(pid), path)
            open_looks[pid], rows[pid] = look, 0
            looks.append(look)
        elif row is None or not isinstance(pid, int) or pid not in open_looks:
            note_missing(open_looks, path, at)
        elif "end" in row:
            look = open_looks.pop(pid)
            look.is_whole = look.is_whole and row.get("rows") == rows[pid]
            close(look, path, ended=True)
        else:
            rows[pid] += 1
            add_row(open_looks[pid], row, path, at)
    for look in open_looks.values():
        close(look, path)
    return looks


def note_missing(open_looks: Dict[Any, PythonLook], path: str, at: int) -> None:
    """A line that can't be read may be of any state that is open. Raises Refusal if none is."""
    where = f"{shown(path)}:{at}: this line of a state isn't understood"
    if not open_looks:
        raise Refusal(f"{where}, or the first line of its state is missing")
    for look in open_looks.values():
        look.is_whole = False
        look.warnings.append(f"{where}, so what it shows is missing")


def row_of(text: str) -> Optional[Dict[str, Any]]:
    """The object of a line, or None. One that has a key twice is none, or in which something isn't as it is described.
    """
    try:
        row = ROW.decode(text)
    except (ValueError, RecursionError):
        return None
    return row if isinstance(row, dict) else None


def object_of(pairs: List[Tuple[str, Any]]) -> Dict[str, Any]:
    """Returns an object of a line. What it describes has its form: a name is a text, and a gather has what is gathered.
    """
    made = dict(pairs)
    if len(made) < len(pairs):
        return once_each(pairs)  # (which says what is wrong)
    if "id" in made and type(made["id"]) is not str or \
            "type" in made and made["type"] == "gather" and type(made.get("all")) is not list:
        raise ValueError("a value isn't as it is described")
    return made


ROW = json.JSONDecoder(object_pairs_hook=object_of)  # (to make one for each line takes long)


def head_of(row: Dict[str, Any], path: str, at: int) -> PythonLook:
    if row["version"] != VERSION:
        raise Refusal(f"{shown(path)}:{at}: a state of version {shown(str(row['version']))}, and {VERSION} is read")
    wrong = next(misfits(row, HEAD), None) or (None if is_number(row["seconds"]) else ".seconds") or lost_key(row)
    if wrong is not None:
        raise Refusal(f"{shown(path)}:{at}: the first line of a state, in which {shown(wrong[1:])} is missing or odd")
    look = PythonLook(f"{path}:{at}", row["process"], row["pid"], row["seconds"], row)
    for word in row.get("unseen", ()):
        look.warnings.append(f"process {look.pid} has loaded {shown(word)}: what waits in it is not seen")
    return look


def lost_key(head: Dict[str, Any]) -> Optional[str]:
    """Returns the place of a key that a head lacks, and that each one has which has what it has, or None."""
    there = head.keys()
    return next((f".{keys[0]}" for has, keys in NEEDS if has <= there and there.isdisjoint(keys)), None)


def close(look: Optional[PythonLook], path: str, ended: bool = False) -> None:
    """Says what a state lacks that has no last line, or other rows than that counts. A task whose loop, or whose loop's
    thread or current task, isn't there may wait for anything."""
    if look is None:
        return
    look.is_whole = look.is_whole and ended and are_alike(look) and have_loops(look) and are_tasks(look)
    whole = {key for key, loop in look.loops.items() if (loop["thread"] is None or loop["thread"] in look.threads)
             and (loop["current"] is None or loop["current"] in look.tasks)}
    for row in look.tasks.values():
        if row.more["loop"] not in whole:
            row.fault = row.fault or "its event loop isn't whole in the state"
    doubt_owners(look)
    if not look.is_whole:
        look.warnings.append(f"{shown(path)}: the state of process {look.pid} is not whole: what is missing is unknown")


def doubt_owners(look: PythonLook) -> None:
    """Says of threads that they aren't understood, where the frame in which one began is another one's."""
    for key, row in look.threads.items():
        outer = row.frames[-1] if row.frames and BOOTSTRAP.fullmatch(row.frames[-1].at) else None
        own = outer.has.get("self") if outer is not None else None
        whose = own.get("ident", key) if isinstance(own, dict) else key
        for one in (row, look.threads.get(whose)) if whose != key else ():
            if one is not None:
                one.fault = one.fault or "the frame in which a thread began is another one's"


def have_loops(look: PythonLook) -> bool:
    """Whether each thread that says which loop it runs is the one that this loop says to be run by."""
    loops = {row.more["loop"]: row.key for row in look.threads.values() if row.more["loop"] is not None}
    return all(look.loops[loop]["thread"] == key for loop, key in loops.items() if loop in look.loops)


def are_tasks(look: PythonLook) -> bool:
    """Whether each object with the address of a task is described as one, and each task that isn't done has a row: who
    doesn't see that may miss a cancel."""
    values: List[Any] = [frame.has for row in look.rows() for frame in row.frames if frame.has] if look.tasks else []
    values += [row.more["waits"] for row in look.tasks.values()]
    for value in values:
        if type(value) is dict:
            is_there, is_task = value.get("id") in look.tasks, value.get("type") == "Task"
            if is_there and not is_task or is_task and not is_there and value.get("done") is False:
                return False
            values += [inner for inner in value.values() if type(inner) in (dict, list)]
        elif type(value) is list:
            values += value
    return True


def are_alike(look: PythonLook) -> bool:
    """Whether all rows of a kind have the same keys, but for those that some have alone, and threads have those of
    tasks too that both have."""
    orders = [{tuple(row.more) for row in rows.values()} for rows in (look.threads, look.tasks)]
    kinds = [{frozenset(keys) - VARY for keys in rows} for rows in orders]
    both = {keys & BOTH for rows in kinds for keys in rows}
    return all(len(rows) <= 1 for rows in (*kinds, both))


def add_row(look: PythonLook, row: Dict[str, Any], path: str, at: int) -> None:
    """Adds a row to its look. One that is of no known form, or stands twice, counts as missing."""
    kind = kind_of_row(row)
    is_known = kind != "" and fits(row, ROWS[kind])
    if not is_known or kind not in OLDER and not keep_row(look, kind, row):
        look.is_whole = False
        look.warnings.append(f"{shown(path)}:{at}: this line of a state isn't understood, so what it shows is missing")


def kind_of_row(row: Dict[str, Any]) -> str:
    """Returns which kind of row this is, or nothing."""
    for kind in ROWS:
        if kind in row:
            return kind
    return ""


def keep_row(look: PythonLook, kind: str, row: Dict[str, Any]) -> bool:
    """Keeps a row of a known form, and returns whether it is the first of its key."""
    key = row[kind]
    tables: Dict[str, Dict[Any, Any]] = {"thread": look.threads, "task": look.tasks, "runs": look.loops,
                                         "asked": look.asked}
    is_first = key not in tables.get(kind, ())
    if kind in ("thread", "task"):
        tables[kind][key] = row_of_place(key, row)
    elif kind in tables:
        tables[kind][key] = row
    elif kind == "child":
        look.children += [] if row["ended"] is True else [key]
    elif key is not None:
        (look.semaphores if kind == "semaphore" else look.queues).add(key)
    if kind == "runs" and is_first:
        add_callers(look, row)
    return is_first


def add_callers(look: PythonLook, loop: Dict[str, Any]) -> None:
    """Adds what a loop will call, if its row says that."""
    for name, is_cancelling in (callers_of(loop) or {}).items():
        caller = look.callers.setdefault(name, Caller())
        caller.loops.append(loop["runs"])
        caller.cancelling += [loop["runs"]] if is_cancelling else []
        caller.is_waking |= not name.startswith("timer ") or name in row_of_names(loop, "waking", [name])
    look.arriving.update(row_of_names(loop, "arriving"))


def row_of_names(loop: Dict[str, Any], key: str, older: Sequence[str] = ()) -> Sequence[str]:
    """Returns what the row of a loop has by a key, or as much as an older one stands for."""
    names = loop.get(key)
    return names if isinstance(names, list) else older


def callers_of(loop: Dict[str, Any]) -> Optional[Dict[str, bool]]:
    """Returns the names of what a loop will call, each with whether that may cancel a task, or None if its row doesn't
    say it. An older one doesn't say what the loop calls it for."""
    is_older = loop.get("callbacks") == loop.get("signals") == []
    callers = loop.get("callers", {} if is_older else None)
    return None if callers is None or "error" in callers else callers


def row_of_place(key: Any, row: Dict[str, Any]) -> PythonRow:
    """Returns the row of a thread or a task. One with a frame that couldn't be read may stand anywhere."""
    frames = [PythonFrame(line["in"], line["file"], line["line"] or 0, line.get("has", {}), kind_of(line["file"]))
              for line in row["frames"] if "in" in line]
    made = PythonRow(key, row["name"], frames, row, "" if len(frames) == len(row["frames"]) else
                     "a frame of its stack couldn't be read")
    if not frames and "thread" in row:
        made.fault = made.fault or "it has no frame"
    if made.stack.odd is not None:
        made.fault = made.fault or f"a frame of its stack is {shown(made.stack.odd)}, which isn't of its file"
    if frames and LIMITED.match(frames[0].at) and not is_limit(frames[0].has.get("timeout", "")):
        made.fault = made.fault or "the limit of its wait isn't shown"
    if frames and isinstance(row.get("call"), dict):
        frames[0].call = row["call"]
        made.fault = made.fault or ("" if is_of_lock(row["call"]) else "its call is none of a lock")
    if made.stack.forked < len(frames):
        made.stand_in(frames[:made.stack.forked])
    return made


def is_of_lock(call: Dict[str, Any]) -> bool:
    """Whether a call has the name of a method of a lock, if it is one of a lock."""
    on, words = call.get("on"), call.get("words")
    is_method = isinstance(on, dict) and on.get("type") in LOCKS and call.get("how") == "call" and words
    return not is_method or isinstance(words, str) and last_word(call) in METHODS


# What faulthandler prints


def looks_of_faulthandler(path: str, lines: List[str]) -> List[PythonLook]:
    """A thread that stands again begins another dump."""
    looks: List[PythonLook] = []
    row: Optional[PythonRow] = None
    for line in lines:
        line = line.rstrip("\r")
        head, step = FAULT_HEAD.search(line), FAULT_FRAME.search(line)
        if head:
            if not looks or head[1] in looks[-1].threads:
                number = len(looks) + 1
                looks.append(PythonLook(path, f"dump-{number}", number, by_faulthandler=True))
            row = PythonRow(head[1], head[2] or "", [], {})
            looks[-1].threads[head[1]] = row
        elif step and row is not None:
            row.frames.append(frame_in_file(step[1], step[2], step[3]))
        elif row is not None and line.strip() and not line.startswith("  "):
            row = None
    for look in looks:
        for row in look.threads.values():
            row.name = row.name or thread_name(row)
            row.stand_in(row.frames)
    return looks


def thread_name(row: PythonRow) -> str:
    """faulthandler shows no names: the function that a thread began in, and its number."""
    inner = [frame for frame in row.frames if not re.match(r"threading\.(_bootstrap|_bootstrap_inner|run)$", frame.at)]
    last = inner[-1].at.split(".")[-1] if inner else "thread"
    return f"{'main' if last == '<module>' else last}/{row.key}"
