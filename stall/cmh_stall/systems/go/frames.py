"""What the frames of a Go program's goroutines mean: which are the job's own, which are of the runtime or of a library,
and which are those of an idle goroutine. `go` says by it what a goroutine waits for."""
from __future__ import annotations

import re
from functools import lru_cache
from typing import Dict, Iterable, List, Optional, Set, Tuple

from ...core.sketch import frame
from ..base import is_loop
from .text import TAKER, Frames, GoFrame, Goroutine

STANDARD = frozenset(
    "archive arena bufio bytes cmp compress container context crypto database debug embed encoding errors expvar flag "
    "fmt go hash html image index internal io iter log maps math mime net os path plugin reflect regexp runtime slices "
    "sort strconv strings structs sync syscall testing text time unicode unique unsafe vendor weak".split()
)
LIBRARY = re.compile(
    r"golang\.org/x/|google\.golang\.org/|go\.(?:uber|opencensus|opentelemetry)\.(?:org|io)/|k8s\.io/(?:klog|client-go)"
    r"|github\.com/(?:golang|gin-gonic|labstack|gorilla|lib/pq|go-sql-driver|jackc|redis|go-redis|sirupsen|prometheus)/"
)
# States of the runtime's own goroutines.
OF_THE_RUNTIME = frozenset(("idle", "force gc (idle)", "GC sweep wait", "GC scavenge wait", "finalizer wait",
                            "cleanup wait", "GC worker (idle)", "GC worker (active)", "timer goroutine (idle)",
                            "trace reader (blocked)"))
# The operation of a state or of a function, where that is another word.
OPERATIONS = {
    "chan receive (nil chan)": "chan receive", "chan send (nil chan)": "chan send", "select (no cases)": "select",
    "sync.Mutex.lockSlow": "sync.Mutex.Lock", "sync.runtime_SemacquireMutex": "sync.Mutex.Lock",
    "sync.runtime_Semacquire": "sync.WaitGroup.Wait"}
METHOD = re.compile(r"[(*)]")
RECEIVES = frozenset(("chan receive", "select", "sync.Cond.Wait"))  # operations at which one rests in its own loop
# Idle frames: a goroutine with one of them before the first of the job's own waits for work, and tells of no stall. But
# for one that accepts connections, it has none of the job's own, and waits for no lock.
ACCEPTOR, CONNECTION, WATCHER = "waits for a connection", "waits on a connection", "waits for what it watches"
IDLE = [(re.compile(pattern), label) for pattern, label in (
    (r"net\.\(\*(?:TCP|Unix)Listener\)\.Accept\w*|internal/poll\.\(\*FD\)\.Accept", ACCEPTOR),
    (r"net/http\.\(\*persistConn\)\.(?:read|write)Loop|net/http\.\(\*connReader\)\.\w*ackgroundRead.*", CONNECTION),
    (r"net/http\.\(\*conn\)\.readRequest", CONNECTION),
    (r"net/http\.\(\*http2(?:ClientConn|clientConnReadLoop|serverConn)\)\.\w+", CONNECTION),
    (r"google\.golang\.org/grpc/internal/transport\.\(\*(?:http2\w+|loopyWriter|controlBuffer|recvBufferReader)\)\.\w+",
     CONNECTION),
    (r"database/sql\.\(\*DB\)\.connection(?:Opener|Cleaner|Resetter)|os/signal\.(?:loop|signal_recv)", WATCHER),
    (r"os/signal\.NotifyContext\.func\d+|context\.(?:\(\*cancelCtx\)\.)?propagateCancel\.func\d+", WATCHER),
    (r"go\.opencensus\.io/stats/view\.\(\*worker\)\.start|k8s\.io/klog\S*flushDaemon|.*/glog\.\S*flushDaemon", WATCHER),
)]
# The one state in which it waits for work, where in others it serves a request of the job: a body has to be read, say.
IDLE_IN = {"net/http.(*persistConn).readLoop": "IO wait", "net/http.(*persistConn).writeLoop": "select"}
AT_CONNECTION = ("net.(*conn).Read", "net.(*conn).Write", "net.(*TCPConn).ReadFrom", "net.(*Buffers).WriteTo")
ROUND_TRIPS = ("net/http.(*persistConn).roundTrip", "net/http.(*http2ClientConn).RoundTrip")
AT_A_LOCK = re.compile(r"semacquire|sync\.(?!Cond\b).*")
WAITS_IN_SYNC = re.compile(r"semacquire|sync\..*")
# Whoever waits in a state of `sync` stands in one of these.
WAITS_OF_SYNC = re.compile(r"(?:internal/)?sync\.\(\*(?:Mutex\)\.(?:Lock|lockSlow)|RWMutex\)\.R?Lock"
                           r"|(?:WaitGroup|Cond)\)\.Wait)|internal/poll\..*")
# A function at a file of `sync` that is named for the type it should be of, and isn't.
NOT_OF_FILE = re.compile(r"(?i)sync\.\(\*(?!rlocker|copyChecker|noCopy)(\w+)\)\.\S+ "
                         r".*\bsync/(?!\1\.)(?:cond|mutex|once|rwmutex|waitgroup)\.go")
RECEIVER = re.compile(r"(.+\.\(\*\w+(?:\[\.\.\.\])?\))\.\w+")  # of a method, with the package of its type
WRITER, MUTEX = "sync.RWMutex.Lock", "sync.(*Mutex)"
TAKES_LOCK = frozenset(("sync.Mutex.Lock", WRITER, "sync.RWMutex.RLock"))
WRAPPER = re.compile(r".*(?:\.gowrap\d+|·dwrap·\d+)")
ACCEPTS = re.compile(r".*\.Accept")  # how a listener waits for the next connection
CLOSURE = re.compile(r".*\.func[\d.]+")
# What shows in its first argument the channel or lock that a goroutine waits at.
SHOWS = re.compile(r"runtime\.chan(?:send|recv)|sync\.\(\*(?:Mutex|RWMutex|WaitGroup|Cond|Once)\)\.\w+"
                   r"|internal/sync\.\(\*Mutex\)\.\w+")
CONDITION, WAITS_AT_IT = "sync.(*Cond).Wait", "sync.runtime_notifyListWait"
NEEDS_ALL = frozenset(("sync.WaitGroup.Wait", "sync.RWMutex.Lock", "golang.org/x/sync/errgroup.Group.Wait"))
WATCHES_CLIENT = "net/http.(*connReader).startBackgroundRead"
GOEXIT = "runtime.goexit"  # to which each goroutine returns
OUTERMOST = (GOEXIT, "runtime.main")
# What calls a function of the job's own for each request.
SERVERS = frozenset(("net/http.(*conn).serve", "google.golang.org/grpc.(*Server).handleStream",
                     "net/rpc.(*service).call"))
Caller = Tuple[str, Optional[int]]  # a function, and the line in it
Method = Tuple[int, str]  # the number of a frame, and the type of which its function is a method
Receiver = Tuple[str, str]  # a type, and the address of one of it
KEPT = 65536  # functions, and lists of frames, whose meaning is kept


def entry_of(goroutine: Goroutine) -> str:
    """Returns the function that a goroutine was started with: the outermost, or that of the job's own which a library
    has started, and none that the compiler makes of the call of a `go` statement. So it is the same wherever it
    stands."""
    entry = outermost_of(goroutine.frames) if goroutine.is_whole else ""
    return entry or goroutine.created_by or "goroutine"


@lru_cache(maxsize=KEPT)
def outermost_of(frames: Frames) -> str:
    """Returns the function that a goroutine with these frames was started with, or nothing if it has none."""
    inner = [step for step in frames if step.function not in OUTERMOST]
    own = list(filter(is_own, inner)) or inner
    is_wrapped = len(own) > 1 and WRAPPER.fullmatch(own[-1].function)
    return own[-2 if is_wrapped else -1].function if own else ""


def is_jobs(step: GoFrame) -> bool:
    """Whether a frame is none of the standard library."""
    return not is_standard(step.function, step.path)


@lru_cache(maxsize=KEPT)
def is_standard(function: str, path: str) -> bool:
    if package_of(function).split("/")[0] not in STANDARD:
        return function == "panic"
    return path in ("", "<autogenerated>") or path.rpartition("/src/")[2].split("/")[0] in STANDARD


@lru_cache(maxsize=KEPT)
def root_of(path: str) -> Tuple[str, bool]:
    """Returns the folder that the sources of a file are in, and whether they are of the standard library."""
    root, _, inside = path.rpartition("/src/")
    return root, inside.split("/")[0] in STANDARD


def misplaced(goroutines: List[Goroutine]) -> Set[Tuple[str, str]]:
    """Returns the functions that stand at a file of another package, each with that, since lines between are lost, or
    their text is another one: one of the standard library does, or in its folders one of the job."""
    steps = {goroutine.creator for goroutine in goroutines}.union(*{goroutine.frames for goroutine in goroutines})
    calls = {(step.function, step.path) for step in steps}
    standard = {(package_of(function), root_of(path)[0]) for function, path in calls
                if is_standard(function, path) and root_of(path)[1]}
    roots = {root for _, root in standard} - {""}
    homes = {root for package, root in standard if package == "runtime"} - {""}
    return {(function, path) for function, path in calls
            if is_at_another(function, path, roots) or is_stranger(path, homes)}


def is_stranger(path: str, homes: Set[str]) -> bool:
    """Whether a file lies in a folder of the runtime's sources, and is of no package of Go's own."""
    root, is_in_library = root_of(path)
    return root in homes and not is_in_library and not path.startswith(f"{root}/src/cmd/")


def is_at_another(function: str, path: str, roots: Set[str]) -> bool:
    """Whether a function isn't of the package of its file. `roots` are the folders that the standard library is in. A
    package of the job may have a path that begins as one of that library, and then its folder has its name."""
    package = package_of(function)
    is_of_library = package.split("/")[0] in STANDARD
    root, is_in_library = root_of(path)
    if package == "sync" and NOT_OF_FILE.fullmatch(f"{function} {path}"):
        return True
    if root in roots:
        return function != "panic" and is_of_library != is_in_library
    if not is_of_library or path in ("", "<autogenerated>") or is_standard(function, path):
        return False
    return package in STANDARD or path.split("/")[-2:-1] != [package.split("/")[-1]]


def lacks_wait(goroutine: Goroutine) -> bool:
    """Whether a goroutine waits in `sync`, and no frame of it is a call that waits there."""
    return WAITS_IN_SYNC.fullmatch(goroutine.state) is not None and not waits_in_sync(goroutine.frames)


@lru_cache(maxsize=KEPT)
def waits_in_sync(frames: Frames) -> bool:
    return any(WAITS_OF_SYNC.fullmatch(step.function) for step in frames)


def cut_short(goroutines: List[Goroutine]) -> List[Goroutine]:
    """Returns those that lack the outermost frame of the runtime and show where frames end on the stack, as SIGQUIT
    prints it of all frames, where others have both."""
    rows = [one for one in goroutines if one.is_whole and one.number != "0" and any(call.ends for call in one.calls)]
    lacking = [one for one in rows if all(step.function != GOEXIT for step in one.frames)]
    return lacking if len(lacking) < len(rows) else []


def package_of(function: str) -> str:
    """'net/http.(*conn).serve' is of 'net/http'."""
    head, slash, tail = function.rpartition("/")
    return head + slash + tail.split(".")[0]


def is_own(step: GoFrame) -> bool:
    """Whether a frame is the job's own: of no library that many jobs use."""
    return is_of_job(step.function, step.path)


@lru_cache(maxsize=KEPT)
def own_of(frames: Frames) -> Frames:
    """Returns the frames of the job's own, the innermost first."""
    return tuple(filter(is_own, frames))


@lru_cache(maxsize=KEPT)
def jobs_of(frames: Frames) -> Frames:
    """Returns the frames that are none of the standard library, the innermost first."""
    return tuple(filter(is_jobs, frames))


def own_calls(goroutine: Goroutine, callers: Set[Caller]) -> List[GoFrame]:
    """Returns the frames of the job's own, the innermost first, without those that only call what they were handed."""
    own = [*(own_of(goroutine.frames) or jobs_of(goroutine.frames))]
    while own[1:] and (call_of(own[-1]) in callers or WRAPPER.fullmatch(own[-1].function)):
        own.pop()
    is_begun = own[1:] and CLOSURE.fullmatch(own[-1].function) and is_loop(own[-2].function)
    return own[:-1] if is_begun else own


def callers_in(stacks: Iterable[Frames]) -> Set[Caller]:
    """Returns the places from which several functions are called, each by another goroutine, by the frames of all."""
    called: Dict[Caller, Set[str]] = {}
    for own in map(own_of, stacks):
        for callee, caller in zip(own, own[1:]):
            called.setdefault(call_of(caller), set()).add(callee.function)
    return {call for call, functions in called.items() if len(functions) > 1}


def call_of(caller: GoFrame) -> Caller:
    return caller.function, caller.line


@lru_cache(maxsize=KEPT)
def serves_request(frames: Frames) -> bool:
    """Whether a library calls the job's own functions, for each request anew."""
    return any(step.function in SERVERS for step in frames)


@lru_cache(maxsize=KEPT)
def is_of_job(function: str, path: str) -> bool:
    return not is_standard(function, path) and LIBRARY.match(function) is None


@lru_cache(maxsize=KEPT)
def label_of(function: str) -> str:
    """Returns how a goroutine with this frame is idle, or nothing."""
    return next((label for pattern, label in IDLE if pattern.fullmatch(function)), "")


def idle_label(frames: List[GoFrame], state: str, has_own: bool) -> str:
    """Returns how a goroutine in a state is idle, with these frames before the first of the job's own, or nothing."""
    is_at_work = has_own or AT_A_LOCK.fullmatch(state) is not None
    labels = {step.function: label_of(step.function) for step in frames}
    return next((label for function, label in labels.items() if label == ACCEPTOR
                 or label and not is_at_work and IDLE_IN.get(function, state) == state), "")


def is_of_runtime(goroutine: Goroutine) -> bool:
    """Whether a goroutine is of the runtime, and runs no code of the job."""
    if goroutine.fault or jobs_of(goroutine.frames):
        return False
    if goroutine.number == "0" or goroutine.state in OF_THE_RUNTIME:
        return True
    return package_of(goroutine.created_by) == "runtime" or goroutine.number == "17" and not goroutine.created_by


def is_at_connection(goroutine: Goroutine) -> bool:
    """Whether a goroutine waits for the other end of a connection, also where one of the library's reads for it."""
    calls = {"IO wait": AT_CONNECTION, "select": ROUND_TRIPS}.get(goroutine.state, ())
    return any(step.function in calls for step in goroutine.frames)


def watches_client(goroutine: Goroutine) -> bool:
    """Whether a goroutine only sees whether the client of a request is still there, as of the one for the state."""
    return goroutine.created_by == WATCHES_CLIENT and not own_of(goroutine.frames)


@lru_cache(maxsize=KEPT)
def functions_of(frames: Frames) -> Dict[str, None]:
    """Returns the functions of frames, the innermost first, each once, but for those of the runtime that are outermost.
    """
    return dict.fromkeys(step.function for step in frames if step.function not in OUTERMOST)


def takes_state(goroutine: Goroutine) -> bool:
    """Whether a goroutine answers the request for the state. One that takes it by the job's own code is of the job."""
    functions = functions_of(goroutine.frames)
    return TAKER in functions and "net/http.(*conn).serve" in functions


class GoPlace:
    """Where goroutines stand: their frames as facts match them, what they call there, and how they are idle, if they
    are. `function` is the topmost of their own, and `called` the function whose call is the operation. `shown` has the
    numbers of the calls whose first argument may be what a goroutine waits at, and `locked` and `run` those of methods,
    each with its type: of the one that waits for a lock, and of those that run."""

    def __init__(self, frames: Frames, state: str, creator: GoFrame) -> None:
        numbers = [number for number, step in enumerate(frames) if step.function not in OUTERMOST]
        steps = [frames[number] for number in numbers]
        first = next((index for index, step in enumerate(steps) if is_own(step)), None)
        self.idle = idle_label(steps[:first], state, first is not None)
        self.is_at_connection = first is not None and CONNECTION in (label_of(step.function) for step in steps[:first])
        start = first_outside(steps) if first is None else first
        own = [step for step in steps[start:] if is_jobs(step)]
        self.function = own[0].function if own else ""
        if not own and creator.function and is_jobs(creator):
            own, start = [creator], len(steps)
        self.frames = [frame(step.function, step.file, step.line) for step in own or steps[start:]]
        inner = those_called(steps[:start])
        self.called = inner[-1].function if inner else ""
        self.operation = operation_of(state, self.called)
        self.receives = receives_at(self.operation, state)
        self.shown = [number for number, step in zip(numbers, inner) if SHOWS.fullmatch(step.function)]
        self.locked = self.methods_locked(frames)
        self.run = self.methods_past_lock(frames)

    def methods_locked(self, frames: Frames) -> List[Method]:
        """Returns the method that waits for a lock, if the frames show that."""
        takes = self.operation in TAKES_LOCK
        own = [number for number, step in enumerate(frames) if takes and step.function == self.function]
        return methods_in(frames, own[:1])

    def methods_past_lock(self, frames: Frames) -> List[Method]:
        """Returns the methods that run: but for that which only now takes a lock. A writer that waits for the readers
        of a lock keeps others out already."""
        own = [number for number, step in enumerate(frames) if step.function not in OUTERMOST and is_jobs(step)]
        is_writer = self.operation == WRITER and all(MUTEX not in step.function for step in frames)
        return methods_in(frames, own[1:] if self.operation in TAKES_LOCK and not is_writer else own)


def receives_at(operation: str, state: str) -> bool:
    return operation in RECEIVES or state in RECEIVES and is_loop(operation)


def those_called(inner: List[GoFrame]) -> List[GoFrame]:
    """Returns frames within a function of the job's own, without the condition that one has left that was signalled:
    it locks again what it has given back."""
    is_signalled = len(inner) > 1 and inner[-1].function == CONDITION and inner[-2].function != WAITS_AT_IT
    return inner[:-1] if is_signalled else inner


def first_outside(steps: List[GoFrame]) -> int:
    """Returns the topmost frame of the job in a broader sense, or else outside of the runtime, where none is its own.
    """
    jobs = (index for index, step in enumerate(steps) if is_jobs(step))
    return next(jobs, next((index for index, step in enumerate(steps) if package_of(step.function) != "runtime"), 0))


@lru_cache(maxsize=KEPT)
def place_of(frames: Frames, state: str, creator: GoFrame) -> GoPlace:
    """Returns where those stand who have these frames in a state: one place for all."""
    return GoPlace(frames, state, creator)


def methods_in(frames: Frames, numbers: List[int]) -> List[Method]:
    """Returns which of some frames are methods, each with its type."""
    methods = [(number, RECEIVER.fullmatch(frames[number].function)) for number in numbers]
    return [(number, method[1]) for number, method in methods if method]


@lru_cache(maxsize=KEPT)
def accepts_for_library(frames: Frames, function: str) -> bool:
    """Whether a library waits for the next connection by a listener of the job's own, which has this function."""
    return any(step.function == function and ACCEPTS.fullmatch(step.function) and not is_own(caller)
               for step, caller in zip(frames, frames[1:]))


@lru_cache(maxsize=KEPT)
def types_of(function: str) -> List[str]:
    """Returns the type that a function is a method of, if it is one."""
    method = RECEIVER.match(function)
    return [method[1]] if method else []


def operation_of(state: str, called: str) -> str:
    """Returns what a goroutine does at its own topmost frame: the call of a library (sync.Mutex.Lock), or its state."""
    if not called or package_of(called) == "runtime":
        return OPERATIONS.get(state, state)
    name = METHOD.sub("", called)
    return OPERATIONS.get(name, name)


def receivers_at(goroutine: Goroutine, methods: List[Method]) -> List[Receiver]:
    """Returns the types and the addresses of what a goroutine calls these methods of, where it shows them."""
    return [(kind, goroutine.calls[number].first) for number, kind in methods if goroutine.calls[number].first]


def objects_of(goroutine: Goroutine, place: GoPlace) -> List[str]:
    """Returns the address of the channel or lock that the frames of a wait show, if they do for certain."""
    return [first for first in [goroutine.calls[number].first for number in place.shown] if first][:1]
