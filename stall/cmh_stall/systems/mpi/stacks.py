"""The stacks that gdb prints of a rank of an MPI job, or eu-stack: the frames of its threads, and what they show.

Many ranks stand at one place, and who hasn't moved has the same text in the next reading: so a frame is looked at once
for each text that it has, and so is the stack of a thread.
"""
from __future__ import annotations

import functools
import itertools
import re
from collections import Counter
from typing import List, Match, NamedTuple, Optional, Sequence, Tuple

from ...core.sketch import frame

# Lines are searched for by the letters that they begin with: a `^` before these would be tried at each character.
# So `(?<!.` says, behind these letters, that none stands before them.
STEP = re.compile(r"#(?<!.#)(\d+) +(0x[0-9a-f]+ in )?(.*)")
FRAME = re.compile(r"(?P<function>(?!\d)\S.*?) \((?P<arguments>.*)\)"
                   r"(?: at (?P<file>.+?):(?P<line>\d+)| from (?P<library>.+?))?\s*")
TEXTS = re.compile(r'"(?:[^"\\]|\\.)*"')  # in arguments
DIGITS = 9  # of the number of a frame, at most
# What eu-stack prints: a frame with its module, or a thread. It shows no arguments.
BARE = re.compile(r"(#(?<!.#)\d+ +0x[0-9a-f]+)(?: (?!- )(\S.*?))? - (\S*)$", re.M)
BARE_THREAD = re.compile(r"TID (?<!.TID )(\d+):$", re.M)
THREAD = re.compile(r"Thread (?<!.Thread )(\d{1,9}) \(.*")
NUMBER_OF_THREAD = re.compile(r"\bLWP (\d{1,9})\b")
CALL = re.compile(r"[Pp]?(?:MPI_(?P<name>[A-Z]\w*)|mpi_(?P<fortran>[a-z]\w*?)_+)$")
OF_LIBRARY = re.compile(r"(ompi|opal|orte|prte|mca|pmix|PMIx|MPI[DRIU]\w*|MPL|ucp|ucs|uct|psm2?|psmx\w*|fi|ofi|rxm)_")
FINALIZE = re.compile(r"(ompi_mpi_finalize|MPI[DRI]+_Finalize)$")
# What gdb prints of an argument that is still what it was at the function's entry, and where the next one begins.
ENTRY = re.compile(r"\b(\w+)=\1@entry=")
NEXT = re.compile(r", (?=\w+(?:@entry)?=)")
# The argument that names the partner in the frame of the call itself.
PARTNERS = {
    "Send": "dest", "Ssend": "dest", "Rsend": "dest", "Bsend": "dest", "Recv": "source", "Probe": "source",
    "Mprobe": "source",
}
# Arguments of the job's own that are likely to name it, by what they are called.
LIKELY = re.compile(r"(?:\w+_)?(?:to|from|dest|destination|dst|source|src|other|peer|partner|mate|target)")
NUMBER = re.compile(r"\d{1,9}")
WORLD = re.compile(r"\bcomm=(?:0x[0-9a-f]+ )?(?:<ompi_mpi_comm_world>|1140850688\b|0x44000000\b)")
# How a thread begins, and the functions of Open MPI, PMIx and UCX that threads of their own run.
BEGINS = re.compile(r"(start_thread|_*clone3?)$")
OUTERMOST = re.compile(r"(start_thread|_*clone3?|main|_start|__libc_start\w*|\?\?.*)$")
PROGRESS = re.compile(r"(progress_engine|listen_thread|ucs_async_thread_func)$")
# Calls that need all ranks of their communicator to come.
COLLECTIVES = re.compile(r"_(Barrier|All\w+|Reduce_scatter\w*|Comm_(split|dup|create|free)\w*|Cart_(create|sub)|"
                         r"Win_(fence|create|allocate|free)\w*|"
                         r"File_(open|close|sync|preallocate|set_\w+|seek_shared|\w+_(all|ordered)\w*))$")
WAITS = re.compile(r"_Wait(all|any|some)?$")  # of a request, which may be that of a collective
POLLS = re.compile(r"(Test|Testall|Testany|Testsome|Iprobe|Improbe|Request_get_status)$")
# (Open MPI begins to receive, sends, and then waits for what it receives.)
HALVES = (r"mca_pml_\w+_send$", "sends"), (r"ompi_request_default_wait$", "receives")
# Waits for others of the same process.
INNER_WAITS = re.compile(r"(__GI_)?_*(new_)?(pthread_(cond|mutex|rwlock|barrier|join|timedjoin|clockjoin)|sem_|"
                         r"std::condition_variable::)\w*(wait|lock|join)")
KEPT = 65536  # texts of frames, and of stacks, of which it is kept what they show


class RankStep(NamedTuple):
    """A frame. `text` is how an answer writes it, and `call` the call of MPI that it is, or nothing. `is_of_mpi` says
    that it is of the library, by its name, and `is_end` that it is where this finalizes; `is_own` that it is of the
    job, and not of a library: it has a file that isn't that of the C library, or none."""

    function: str
    arguments: str
    file: Optional[str]
    text: str
    call: str
    is_of_mpi: bool
    is_end: bool
    is_own: bool
    place: Tuple[str, str, Optional[str]]  # its function, with the names of its arguments, and its file and line


@functools.lru_cache(maxsize=KEPT)
def step_of(text: str) -> Optional[RankStep]:
    """Returns a frame by what stands behind its number and its address, or None if that isn't understood."""
    row = FRAME.fullmatch(ENTRY.sub(r"\1=", text) if "@entry=" in text else text)
    if row is None or "),(" in TEXTS.sub("", row["arguments"]):  # (between arguments is a space)
        return None
    function, file = row["function"], row["file"]
    call, is_of_mpi = CALL.match(function), OF_LIBRARY.match(function) is not None
    return RankStep(function, row["arguments"], file, frame(function, file, row["line"]),
                    f"MPI_{call['name'] or call['fortran'].capitalize()}" if call else "", is_of_mpi,
                    FINALIZE.match(function) is not None,
                    not (row["library"] or is_of_mpi or is_of_system(function, file or "")),
                    (f"{function} {' '.join(names_of(row['arguments']))}", file or row["library"] or "", row["line"]))


def names_of(arguments: str) -> List[str]:
    """Returns the names of the arguments of a frame. What has none isn't understood, and is its own name."""
    return [value.split("=")[0] for value in NEXT.split(arguments)]


def is_of_system(function: str, file: str) -> bool:
    """Whether a frame is of the C library, or of what begins a program, by its function and its file."""
    return function.startswith(("??", "_start", "__libc_start")) or file.startswith(("../", "./nptl", "./csu"))


class RankStack:
    """The frames of a thread, innermost first, and what they show. `call` is the outermost call of MPI, which is the
    job's own (those inside of it are the library's), and `own` are the frames of the job's own that made it, or all if
    there is none: the first of these stands at the place `begin`. `operation` is the MPI call that it is in, or
    nothing, `values` are what `values_of` finds, `whole` has each frame with its address, and `note` is for people."""

    def __init__(self, frames: Sequence[RankStep], addresses: Sequence[str] = ()) -> None:
        self.frames = frames
        self.whole = [(*step.place, address) for step, address in zip(frames, addresses)]
        outside = max((place for place, step in enumerate(frames, 1) if step.call), default=0)
        places = [place for place, step in enumerate(frames) if place >= outside and step.is_own]
        self.call = frames[outside - 1] if outside else None
        self.begin = places[0] if places else len(frames)
        self.own = [frames[place] for place in places]
        self.operation = operation_of(frames, self.call)
        self.is_collective = COLLECTIVES.search(self.operation) is not None
        self.is_of_request = WAITS.search(self.operation) is not None
        self.does_poll = POLLS.search(self.operation) is not None
        self.values = values_of(self.own)
        self.places = [step.text for step in self.own]
        self.note = " ".join([self.operation, *(["in", self.places[0]] if self.places else [])]).strip()

    @functools.cached_property
    def partner(self) -> str:
        """The partner that the frame of the call itself shows, as a number, or nothing."""
        key = PARTNERS.get(self.operation[4:])
        arguments = self.call.arguments if key and self.call else ""
        row = re.search(rf"\b{key}=(-?\d{{1,9}})\b", arguments) if arguments else None
        return row[1] if row else ""

    @functools.cached_property
    def likely_partner(self) -> Optional[int]:
        """The rank that an argument of the job's own function is likely to mean, by its name, if it is one alone."""
        values = dict(value.split("=", 1) for value in self.values if "=" in value)
        numbers = {value for key, value in values.items() if LIKELY.fullmatch(key) and NUMBER.fullmatch(value)}
        return int(numbers.pop()) if len(numbers) == 1 else None

    def is_of_world(self) -> bool:
        """Whether the frame of the call itself shows that its communicator is the world's."""
        return self.call is not None and WORLD.search(self.call.arguments) is not None

    def is_together(self) -> bool:
        """Whether it is in a call that needs all of a communicator, or of the world."""
        return self.operation == "MPI_Finalize" or self.is_collective

    def inner_wait(self) -> str:
        """The function in which it waits for another thread of its process, or nothing."""
        names = [step.function.split("@")[0] for step in self.frames[:self.begin]]
        return next((name for name in reversed(names) if INNER_WAITS.match(name)), "")

    def is_of_job(self, is_bare: bool) -> bool:
        """Whether a thread runs code of the job's, which may call MPI. `is_bare` says that no lines of source are
        there."""
        return not self.is_of_library() and any(
            step.call or step.is_own and (step.file or is_bare) for step in self.frames)

    def is_of_library(self) -> bool:
        """Whether a thread is one that the library began for itself, where the library was built with symbols."""
        first = next((step.function for step in reversed(self.frames) if not BEGINS.match(step.function)), "")
        return PROGRESS.match(first) is not None

    def is_whole(self) -> bool:
        """Whether its outermost frame is one with which a thread begins."""
        return len(self.frames) > 0 and OUTERMOST.match(self.frames[-1].function) is not None


def operation_of(frames: Sequence[RankStep], call: Optional[RankStep]) -> str:
    """Returns the MPI call that a thread is in, or nothing. Of one that sends and receives it says which half that is,
    where the library's own frames show it."""
    if any(step.is_end for step in frames):
        return "MPI_Finalize"
    name = call.call if call else ""
    halves = (half for step in frames for form, half in HALVES if re.match(form, step.function))
    return f"{name} {next(halves, '')}".strip() if name.startswith("MPI_Sendrecv") else name


def values_of(own: Sequence[RankStep]) -> List[str]:
    """Returns the arguments of the job's own function that made the call. Then those of its callers, but for `main`,
    that have a name of their own, and are no addresses."""
    texts = [step.arguments for place, step in enumerate(own) if place == 0 or step.function != "main"]
    rows = [NEXT.split(text) if text else [] for text in texts]
    names = Counter(value.split("=")[0] for row in rows for value in row)
    outer = [value for row in rows[1:] for value in row if names[value.split("=")[0]] == 1 and "=0x" not in value]
    return [*(rows[0] if rows else []), *outer]


# From a text to its stacks


def like_gdb(text: str, pid: str) -> str:
    """Returns what eu-stack prints as gdb would print it. The job's own functions are those of its executable file."""

    def frame_line(step: Match[str]) -> str:
        of_library = f" from {step[3]}" if ".so" in step[3] else ""
        return f"{step[1]} in {(step[2] or '??').split('@')[0]} (){of_library}"

    threads = itertools.count(2)
    text = BARE_THREAD.sub(lambda head: f"Thread {1 if head[1] == pid else next(threads)} (LWP {head[1]}):", text)
    return BARE.sub(frame_line, text)


@functools.lru_cache(maxsize=KEPT)
def lost_of(text: str) -> str:
    """Returns what shows that lines of a rank are missing, or nothing."""
    numbers = sorted(int(head[1]) for head in THREAD.finditer(text))
    if numbers and STEP.search(THREAD.split(text)[0]):
        return "frames stand above the first line 'Thread ..': the first line of a thread is missing"
    if numbers != [*range(1, len(numbers) + 1)]:
        return "it has more threads than are shown"
    return ""


@functools.lru_cache(maxsize=KEPT)
def stacks_of(text: str) -> Tuple[List[Tuple[str, RankStack]], str]:
    """Returns the stack of the first thread and then of each other one, each with its number, and what isn't understood
    of them."""
    parts = THREAD.split(text)
    heads = (NUMBER_OF_THREAD.search(head[0]) for head in THREAD.finditer(text))
    texts = {place: (head[1] if head else place, stack) for place, head, stack in zip(parts[1::2], heads, parts[2::2])}
    first = texts.pop("1", None)
    in_order = [first, *texts.values()] if first is not None else list(texts.values()) or [("1", parts[0])]
    stacks: List[Tuple[str, RankStack]] = []
    fault = ""
    for number, thread in in_order:
        frames, addresses, is_whole = frames_of(re.sub(r"\n {4,}(?=\S)", " ", thread) if "\n    " in thread else thread)
        if not is_whole:
            fault = "its frames don't run from #0 up, each understood: some are missing, or of another rank"
        stacks.append((number, RankStack(frames, addresses)))
    return stacks, fault


def frames_of(text: str) -> Tuple[List[RankStep], List[str], bool]:
    """Returns the frames of a thread that are understood, their addresses, and whether these are all, and run from #0
    up."""
    rows = [(number, step_of(place) or step_of(address + place), address)
            for number, address, place in STEP.findall(text)]
    known = [(int(number), step, address) for number, step, address in rows if step is not None
             and len(number) <= DIGITS]
    is_whole = [number for number, *_ in known] == [*range(len(rows))]
    return [step for _, step, _ in known], [address for *_, address in known], is_whole
