"""Python: what of two looks at a process can't be true of both. The kernel's number of a thread and the number of a
task are of one alone, and no count of either falls.
"""
from __future__ import annotations

from typing import Any, Dict, Iterable, List, Set

from .names import label
from .rows import PythonLook, PythonRow

OTHERS = "its number is another one's in another look"
OF_LOOP = "the thread of its event loop isn't understood"
KEPT = {"thread": ("main", "daemon"), "task": ("loop",)}  # what a thread or a task has as long as it lives
COUNTS = {"thread": "stops", "task": "wait"}
OF_CALL = ("words", "how", "module", "function", "named")  # what the code says of a call
NUMBERS = {"thread": "native", "task": "number"}


def doubt_looks(looks: List[PythonLook]) -> None:
    """Says of threads and tasks of a process that they aren't understood, where two of its looks contradict each other
    in them. Such a one is called in each look as in the first."""
    known = {id(row) for look in looks for row in look.threads.values() if row.fault}  # (by its text alone)
    for first, second in zip(looks, looks[1:]):
        doubt_rows("thread", first.threads, second.threads)
        doubt_rows("task", first.tasks, second.tasks)
    for look in looks:
        doubt_loops(look, {key for key, row in look.threads.items() if row.fault and id(row) not in known})


def doubt_loops(look: PythonLook, threads: Set[Any]) -> None:
    """Says of the tasks of loops that they aren't understood, which some threads run of which two looks contradict each
    other."""
    for row in look.tasks.values():
        loop = look.loops.get(row.more["loop"])
        row.fault = row.fault or (OF_LOOP if loop is not None and loop["thread"] in threads else "")


def doubt_rows(kind: str, first: Dict[Any, PythonRow], second: Dict[Any, PythonRow]) -> None:
    before, after = (numbers_of(kind, rows.values()) for rows in (first, second))
    for key, row in second.items():
        was = first.get(key)
        why = fault_in(kind, was, row, before, after) if was is not None else ""
        if was is not None and why:
            was.fault = row.fault = was.fault or why
            row.name, row.more = label(was), {**row.more, **{word: was.more[word] for word in (
                NUMBERS[kind], *KEPT[kind]) if word in was.more}}
        elif was is not None and was.more.get(NUMBERS[kind]) == row.more.get(NUMBERS[kind]):
            row.name = was.name  # (a program may rename one)
        elif was is None and row.more.get(NUMBERS[kind]) in before:
            row.fault = row.fault or OTHERS
            for other in (it for it in first.values() if it.more[NUMBERS[kind]] == row.more[NUMBERS[kind]]):
                other.fault = other.fault or OTHERS


def numbers_of(kind: str, rows: Iterable[PythonRow]) -> Set[int]:
    return {row.more[NUMBERS[kind]] for row in rows if isinstance(row.more.get(NUMBERS[kind]), int)}


def fault_in(kind: str, was: PythonRow, row: PythonRow, before: Set[int], after: Set[int]) -> str:
    """Returns what two rows with one address contradict each other in, or nothing. At the address of one that has ended
    there may be another one, which is newer than all before, and not just like it."""
    number, later = was.more.get(NUMBERS[kind]), row.more.get(NUMBERS[kind])
    if number != later:
        is_other = isinstance(number, int) and isinstance(later, int) and later > max(before) and number not in after
        is_other &= any(was.more.get(word) != row.more.get(word) for word in (*COUNTS.values(), "frames"))
        return "" if is_other else f"its looks differ in {NUMBERS[kind]}, and it is no newer one"
    key = next((key for key in KEPT[kind] if was.more.get(key) != row.more.get(key)), None)
    if key is not None:
        return f"its looks differ in {key}"
    return fault_of_task(was, row) if kind == "task" else fault_of_thread(was, row)


def fault_of_count(kind: str, was: PythonRow, row: PythonRow) -> str:
    """Returns what is wrong with the counts of two rows of one thread or task, or nothing."""
    first, second = was.more.get(COUNTS[kind]), row.more.get(COUNTS[kind])
    if isinstance(first, int) and isinstance(second, int) and second < first:
        return f"its count of {COUNTS[kind]} is lower than before"
    lacks = bool(was.frames) != bool(row.frames) and first is not None and first == second
    return "one of its looks lacks its frames" if lacks else ""


def fault_of_task(was: PythonRow, row: PythonRow) -> str:
    if was.frames and row.frames and was.frames[-1].at != row.frames[-1].at:
        return "its looks differ in the function that it began in"
    waits: List[Any] = [one.more.get("waits") for one in (was, row)]
    is_undone = all(isinstance(one, dict) for one in waits) and waits[0].get("id") == waits[1].get("id") and \
        waits[0].get("done") is True and waits[1].get("done") is False
    return fault_of_count("task", was, row) or ("what it waits for was done before, and isn't now" if is_undone else "")


def fault_of_thread(was: PythonRow, row: PythonRow) -> str:
    fault = fault_of_count("thread", was, row)
    if fault:
        return fault
    if says_two(call_of(was), call_of(row)) and lines_of(was) == lines_of(row):
        return "it is at one call, of which its looks say different things"
    first, second = was.more.get(COUNTS["thread"]), row.more.get(COUNTS["thread"])
    is_still = first is not None and first == second and all(one.more.get("asleep") is True for one in (was, row))
    is_elsewhere = is_still and place_of(was) != place_of(row)
    return "it is at two places, and hasn't woken between its looks" if is_elsewhere else ""


def place_of(row: PythonRow) -> List[Any]:
    """Returns where a thread stands: by its frames with the things that they have, and by the call of the topmost one.
    """
    return [lines_of(row), [things_in(frame.has) for frame in row.frames], *map(call_of(row).get, OF_CALL)]


def lines_of(row: PythonRow) -> List[Any]:
    return [(frame.at, frame.file, frame.line) for frame in row.frames]


def call_of(row: PythonRow) -> Dict[str, Any]:
    call = row.more.get("call")
    return call if isinstance(call, dict) else {}


def says_two(call: Dict[str, Any], later: Dict[str, Any]) -> bool:
    """Whether two looks at a call in one line, by its words, differ in what the code says of it."""
    words = call.get("words")
    return bool(words) and words == later.get("words") and any(call.get(key) != later.get(key) for key in OF_CALL)


def things_in(has: Dict[str, Any]) -> Dict[str, List[Any]]:
    """Returns what tells the things that a frame has from others, by the names that they have there."""
    lists = {name: value if isinstance(value, list) else [value] for name, value in has.items()}
    return {name: [it.get("id") for it in things if isinstance(it, dict)] for name, things in lists.items()}
