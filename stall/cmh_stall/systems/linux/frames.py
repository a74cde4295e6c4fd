"""The functions on the stack of a thread: which of them are the program's own, and whether it waits in its own loop.

The collector unwinds stacks from memory, and stops nobody. Who waits for the next thing to do stands in the function
that its thread was started with, by functions of libraries alone; who waits below a call of the program is at work.
"""
from __future__ import annotations

import re
from functools import lru_cache
from typing import Iterable, Iterator, List, Tuple

from cmh_proc.libraries import OF_THE_SYSTEM

from ...core.sketch import frame
from ..base import without_sleep
from .machine import LinuxThread, LinuxFrame

KEPT = 65536  # names that are kept as people read them
OF_CPLUSPLUS = "/libstdc++."
OF_LIBRARY = re.compile(r"(_|std::|<?(std|core|alloc|boost)::|\?\?|0x|pthread_|__gnu|clone3?$|start_thread$|futex_|lll_"
                        r"|execute_native_thread_routine)")
LIBRARIES = ("./", "../", "/usr/include/")  # where sources of glibc and of the library of C++ are said to be
# A name as compilers of C++ have it: within a function, in a name space or a class, of the library of C++.
MANGLED = re.compile(r"_Z(?P<local>Z?)(?P<nested>N?)[rVK]*(?P<std>(St)?)")
LENGTH, MANY = re.compile(r"[0-9]{1,4}"), 20  # of a name, and how many one has at most
# A library that several programs have: what only one has stands in a folder of its own.
COMMON = re.compile(r"/(usr/)?(local/)?lib(32|64)?(/[^/]*-linux-gnu[^/]*)?/[^/]+\.so[^/]*")
ANSWERS = re.compile(r".*(atomic_futex|__future_base|basic_future|once|latch|barrier)")  # in which nobody rests
POOLS = re.compile(r".*(pool|worker|dispatch)", re.I)  # functions of libraries that call a program's for each job
LAMBDA = re.compile(r"\{lambda\([^{}]*\)#(\d+)\}(::operator\(\))?")
# What the library of C++ calls by a function of its own, which is made part of that: of a thread, or of a call. Where a
# pointer to it is handed over, it isn't.
RUN = re.compile(r"std::(thread::_State_impl<.*tuple<|_Function_handler<.*?\), )(?P<own>(?![^{}]*\([\w:<>]*\*\)).*?)"
                 r"(> > >::_M_run|>::_M_invoke)")
# Functions of a program that wait at a condition for the next thing to do.
TAKES = re.compile(r"(\w+::)*((\w+_)?queue_)?(take|pop|get|dequeue|next|receive|recv|poll|fetch"
                   r"|(a?wait|wait_for)_?(work|job|task))(_\w+)?")
# Functions that a thread is there for, if it begins with one that names nothing.
LOOPS = re.compile(r"(\w+::)*(run\w*|work|serve|consume|\w*(loop|thread|worker|main)"
                   r"|((worker|thread|main|event|run|work|job|queue)_?)+(loop|main|func|fn|proc|entry|body)?)", re.I)
PLACE = re.compile(r".*\+0x[0-9a-f]+")  # a frame without a name
NAMELESS = re.compile(r".*\blambda(#\d+)?")
OWN_THREADS = ("erlang", "go", "jvm", "mpi")  # whose runtimes have threads that are none of the job's


def own_frames(thread: LinuxThread) -> List[str]:
    """Returns the frames of the job's own: as a debugger shows them, or else as they were unwound from memory. Those of
    an interpreter are none of the job's."""
    return own_in(tuple(thread.stack)) or ([] if thread.owner.system else own_texts(thread.frames, thread.is_whole))


@lru_cache(maxsize=KEPT)
def own_in(stack: Tuple[Tuple[str, str], ...]) -> List[str]:
    """Returns those that a debugger shows. Many threads stand at one place, so nobody changes this list."""
    return [text for text in map(own_frame, stack) if text]


@lru_cache(maxsize=KEPT)
def own_frame(step: Tuple[str, str]) -> str:
    """Returns a frame as a debugger shows it, if it is none of a library."""
    function, where = step
    file, _, line = where.rpartition(":")
    if OF_LIBRARY.match(function) or file.startswith(LIBRARIES):
        return ""
    return str(frame(function, file.rpartition("/")[2], int(line))) if file else function


def own_steps(thread: LinuxThread) -> List[LinuxFrame]:
    """Returns the frames of a stack that was unwound which are the program's own. Where these are of the library of C++
    alone, the outermost stands for the function that was made part of it."""
    return own_steps_in(thread.frames, thread.is_whole)


@lru_cache(maxsize=KEPT)
def own_steps_in(frames: Tuple[LinuxFrame, ...], is_whole: bool) -> List[LinuxFrame]:
    """Returns those of a stack. Many threads stand at one place, so nobody changes this list, nor the next."""
    own = [(number, step) for number, step in enumerate(frames) if not is_of_system(step)]
    if own[1:] and own[-1][0] == len(frames) - 1 and is_whole and step_begins(own[-1][1]):
        own.pop()  # (where a program begins)
    if own[1:] and not own[-1][1].function and is_run_by_library(frames, own[-1][0]):
        own.pop()  # (what a thread of C++ runs is a part of the library)
    kept = [step for _, step in own if not OF_LIBRARY.match(text_of(step))]
    kept = [step for number, step in enumerate(kept) if not number or text_of(step) != text_of(kept[number - 1])]
    return kept or [step for _, step in own[-1:] if step.function != "??"]


@lru_cache(maxsize=KEPT)
def own_texts(frames: Tuple[LinuxFrame, ...], is_whole: bool) -> List[str]:
    return list(map(text_of, own_steps_in(frames, is_whole)))


def has_names(thread: LinuxThread) -> bool:
    """Whether a function of the job's own on the stack of a thread has a name."""
    return not all(map(PLACE.fullmatch, own_frames(thread)))


def is_of_system(step: LinuxFrame) -> bool:
    return is_system(step.module)


@lru_cache(maxsize=KEPT)
def is_system(path: str) -> bool:
    """Whether a library belongs to the system, and not to the program."""
    return OF_THE_SYSTEM.fullmatch(path) is not None


def step_begins(step: LinuxFrame) -> bool:
    """Whether a program may begin at a frame: it has the name of that, or none."""
    return step.function in ("", "_start")


def is_run_by_library(frames: Tuple[LinuxFrame, ...], number: int) -> bool:
    return OF_CPLUSPLUS in "".join(step.module for step in frames[number + 1:number + 2])


def text_of(step: LinuxFrame) -> str:
    """Returns a frame as people read it: the function, or the program with the place in it."""
    if not step.function:
        return f"{step.module.rpartition('/')[2]}+{step.place:#x}"
    return plain_name(step.function)


@lru_cache(maxsize=KEPT)
def plain_name(name: str) -> str:
    """Returns the name of a function of C++ as its source has it, without its arguments: 'Pool::borrow'. One within
    another function, as a lambda, is called by that."""
    head = MANGLED.match(name)
    if head is None:
        run = RUN.fullmatch(name.partition(" [clone ")[0])
        plain = LAMBDA.sub(r"lambda#\1", run["own"] if run else name.partition(" [clone ")[0])
        return plain if "::" in plain else plain.partition(".")[0]
    names: List[str] = ["std"] if head["std"] else []
    place, most = head.end(), MANY if head["nested"] else len(names) + 1
    while len(names) < most:
        length = LENGTH.match(name, place)
        if length is None:
            break
        place = length.end() + int(length[0])
        names.append(name[length.end():place])
    return "::".join([*names, *(["lambda"] if head["local"] else [])]) or name


def call_of(thread: LinuxThread) -> str:
    """Returns the call of a library that a thread at a futex is in, if that is known, or else that of the kernel."""
    return plain_name(thread.within) if thread.call == "futex" and thread.within else thread.call


def word_of(thread: LinuxThread) -> str:
    """Returns the word of a futex: the object of the program that it is a part of, and its address."""
    name, offset = thread.row.get("object", ("", 0))
    more = f"+{offset}" if offset else ""
    return f"{plain_name(name)}{more} ({thread.arguments[0]:#x})" if name else f"{thread.arguments[0]:#x}"


def nameless_programs(threads: Iterable[LinuxThread]) -> Iterator[str]:
    """Yields of each program of which a stack has functions without names how these are found."""
    steps = (step for thread in threads if not thread.owner.system for step in own_steps(thread) if not step.function)
    for step in {step.module: step for step in steps if step.build_id}.values():
        yield (f"{step.module} has no names of its functions: its build-id is {step.build_id}, and with its debug "
               f"information `addr2line -fe FILE {step.place:#x}` says what {text_of(step)} is")


def is_known(thread: LinuxThread) -> bool:
    """Whether it is known up to what a thread was started with who has called whom."""
    return bool(thread.stack) or thread.is_whole


def program_frames(thread: LinuxThread) -> List[str]:
    """Returns the frames of the job's own but for those of libraries that other programs have too."""
    if thread.stack or thread.owner.system:
        return own_frames(thread)
    frames = [text_of(step) for step in own_steps(thread) if not COMMON.fullmatch(step.module)]
    is_begun = frames[1:] and NAMELESS.fullmatch(frames[-1]) and LOOPS.fullmatch(frames[-2])
    return frames[:-1] if is_begun else frames


def is_in_own_loop(thread: LinuxThread) -> bool:
    """Whether the wait of a thread is called by the function that it was started with, or by a library that has started
    it."""
    return is_in_start(thread, program_frames(thread))


def sleeps_in_own_loop(thread: LinuxThread) -> bool:
    """The same of one that sleeps, maybe by a function that does nothing else."""
    if thread.is_first:
        return len(without_sleep(own_frames(thread))) <= 1
    return is_in_start(thread, without_sleep(program_frames(thread)))


def is_in_start(thread: LinuxThread, frames: List[str]) -> bool:
    is_there = not thread.is_first and is_known(thread) and bool(own_frames(thread))
    return is_there and len(frames) <= 1 and not (frames and has_job(thread))


def has_job(thread: LinuxThread) -> bool:
    """Whether a library has called a function of the program for a job, as a pool does: by its name, or since more than
    one function of the library stands below it, where one is enough to begin a thread."""
    steps = own_steps(thread)
    are_common = [COMMON.fullmatch(step.module) is not None for step in steps]
    below = are_common[::-1].index(False) if False in are_common else 0
    return below > 1 or any(is_common and POOLS.match(step.function) for is_common, step in zip(are_common, steps))


def takes_next(thread: LinuxThread) -> bool:
    """Whether a thread takes the next thing to do, in the function that it was started with."""
    frames = program_frames(thread)
    is_at_take = len(frames) == 2 and TAKES.fullmatch(frames[0].partition(" (")[0]) is not None
    is_in_loop = is_in_own_loop(thread) and is_for_alike(thread)
    return not has_asked(thread) and (is_in_loop or is_known(thread) and is_at_take and not is_called_back(thread))


def is_called_back(thread: LinuxThread) -> bool:
    """Whether a library has called the innermost function of the program, as an event loop does for what has come."""
    are_common = [COMMON.fullmatch(step.module) is not None for step in own_steps(thread)]
    return any(are_common[are_common.index(False):]) if False in are_common else False


def is_for_alike(thread: LinuxThread) -> bool:
    """Whether all who wait at a futex were started with one function: where others wait too, it isn't a queue of work,
    but something that they share, and what they do with it may be made part of these functions."""
    owner, word = thread.owner, thread.arguments[0]
    if word not in owner.starts:
        owner.starts[word] = {(program_frames(other) or [""])[-1] for other in owner.at_futex.get(word, ())
                              if not other.is_late}
    return len(owner.starts[word]) <= 1


def has_asked(thread: LinuxThread) -> bool:
    """Whether a thread is in a function of the library of C++ in which one waits for others, as for an answer."""
    return any(ANSWERS.match(step.function) for step in thread.frames)


def library_names(thread: LinuxThread) -> Iterator[str]:
    """Yields the functions of the C library that a thread is in, if it still is at the wait at which its stack was
    unwound, the innermost first."""
    for step in () if thread.is_again else thread.frames:
        if not is_of_system(step) and not OF_LIBRARY.match(step.function or "-"):
            return
        yield step.function
