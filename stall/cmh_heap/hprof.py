"""What is kept of a heap dump of a JVM (HPROF): it is read from front to end, and only the objects of the classes in
GROUPS are kept, and half of each reference.
"""
from __future__ import annotations

import mmap
import re
import struct
import sys
from array import array
from collections import defaultdict
from typing import Any, Callable, Dict, Iterable, List, NamedTuple, Optional, Set, Tuple

# The classes whose objects are kept, also those of classes that derive from them, and which fields of each.
(THREAD, TASK, TIMED, SYNC, HOLDS, ENTRY, WORKER, POOL, QUEUE, NODE, FUTURE, STEP, SUPPLY, RUN, PART, MUTEX,
 GROUP, HOLDER, CONDITION, LONG_CONDITION) = GROUPS = (
    "java/lang/Thread", "java/util/concurrent/FutureTask", "java/util/TimerTask",
    "java/util/concurrent/locks/ReentrantReadWriteLock$Sync",
    "java/util/concurrent/locks/ReentrantReadWriteLock$Sync$HoldCounter", "java/lang/ThreadLocal$ThreadLocalMap$Entry",
    "java/util/concurrent/ThreadPoolExecutor$Worker", "java/util/concurrent/ThreadPoolExecutor",
    "java/util/concurrent/LinkedBlockingQueue", "java/util/concurrent/LinkedBlockingQueue$Node",
    "java/util/concurrent/CompletableFuture", "java/util/concurrent/CompletableFuture$Completion",
    "java/util/concurrent/CompletableFuture$AsyncSupply", "java/util/concurrent/CompletableFuture$AsyncRun",
    "java/util/concurrent/CountedCompleter", "java/util/concurrent/locks/ReentrantLock$Sync",
    "java/lang/ThreadGroup", "java/lang/Thread$FieldHolder",
    "java/util/concurrent/locks/AbstractQueuedSynchronizer$ConditionObject",
    "java/util/concurrent/locks/AbstractQueuedLongSynchronizer$ConditionObject")
FIELDS = {
    THREAD: ("tid", "eetop", "parkBlocker", "holder", "group"),
    TASK: ("state", "runner", "period", "this$0"),
    TIMED: ("state", "period"),
    SYNC: ("state", "firstReader", "firstReaderHoldCount", "readHolds", "exclusiveOwnerThread"),
    HOLDS: ("count", "tid"),
    ENTRY: ("referent", "value"), WORKER: ("this$0", "thread"),
    POOL: ("workQueue", "corePoolSize", "maximumPoolSize"), QUEUE: ("head", "capacity"), NODE: ("item", "next"),
    FUTURE: ("result",), STEP: ("dep", "src", "executor", "snd"), SUPPLY: ("dep",), RUN: ("dep",),
    PART: ("completer", "spliterator"), MUTEX: ("state", "exclusiveOwnerThread"),
    GROUP: ("parent",), HOLDER: ("group",), CONDITION: ("this$0",), LONG_CONDITION: ("this$0",)}
MOST = 300_000  # objects of one group that are kept; with more, what rests on them isn't printed
MOST_REFERENCES = 50_000_000  # that are looked through: with more it isn't printed who reaches what
STRIDE = 1 << 17  # bytes of a heap dump whose references are looked through together
FREED = 1 << 26  # bytes after which what was read leaves the memory
JDK = re.compile(r"(?:java|javax|jdk|sun|com\.sun)\.")
VIRTUAL, STRING, OF_THE_END = "java/lang/VirtualThread", "java/lang/String", "java/lang/ApplicationShutdownHooks"
TEXT, LOADED, FRAME, TRACE, SEGMENTS, END = 0x01, 0x02, 0x04, 0x05, (0x0C, 0x1C), 0x2C
LOCAL, OF_THREAD, CLASS, INSTANCE, OBJECTS, VALUES = 0x03, 0x08, 0x20, 0x21, 0x22, 0x23
OF_ALL, OF_NATIVES = (0x01, 0xFF), (0x02, 0x04, 0x06)  # roots of the JVM's, and of natives of one thread
ROOTS = {0x01: 16, 0x02: 16, LOCAL: 16, 0x04: 12, 0x05: 8, 0x06: 12, 0x07: 8, OF_THREAD: 16, 0xFF: 8}
REFERENCE = 2
WIDTHS = {REFERENCE: 8, 4: 1, 5: 2, 6: 4, 7: 8, 8: 1, 9: 2, 10: 4, 11: 8}
FORMATS = {REFERENCE: struct.Struct(">Q"), 10: struct.Struct(">i"), 11: struct.Struct(">q")}
RECORD, NUMBER, IDENTITY = struct.Struct(">BII"), struct.Struct(">I"), struct.Struct(">Q")
HEAD = struct.Struct(">B12xQI")  # of an object: its tag, its class and size; of an array its length, and what follows
COUNT, FIELD = struct.Struct(">H"), struct.Struct(">QB")
ROOT, ROOT_OF_NATIVE, CLASS_HEAD = struct.Struct(">QII"), struct.Struct(">QI"), struct.Struct(">QIQQQQ")
LOWER = 2 ** 32 - 1
SHORT = 64  # arrays shorter than this have what reads them at hand
ARRAYS = [struct.Struct(f">{'4xI' * length}").unpack_from for length in range(SHORT)]
FieldReader = Tuple[int, Callable[..., Tuple[Any, ...]]]


class Fault(Exception):
    """The file isn't what is expected."""


class Referring(NamedTuple):
    """An object with the lower halves of its references: its class, or 0 for an array, and where its fields stand."""

    identity: int
    kind: int
    at: int
    halves: Tuple[int, ...]


class Layout(NamedTuple):
    """Where the fields of a class stand that are kept, for objects of a group."""

    group: str
    readers: List[Optional[FieldReader]]


def halves_in(length: int) -> Callable[..., Iterable[int]]:
    """Returns what reads the lower half of each reference of an array."""

    def halves(data: mmap.mmap, at: int) -> Iterable[int]:
        words = array("I", data[at:at + 8 * length])
        if sys.byteorder == "little":
            words.byteswap()
        return words[1::2]

    return halves


class Shapes(Dict[int, Optional[Callable[..., Tuple[int, ...]]]]):
    """By a class, what reads the lower halves of the references that an object of it has. A text refers to none but its
    letters."""

    def __init__(self, heap: HeapDump) -> None:
        super().__init__()
        self.heap = heap

    def __missing__(self, kind: int) -> Optional[Callable[..., Tuple[int, ...]]]:
        is_text = self.heap.name_of(kind) == STRING
        self.heap.keeps_references = self.heap.keeps_references and kind in self.heap.classes
        widths = [] if is_text else [width for it in self.heap.lineage(kind) for _, width in self.heap.classes[it][1]]
        words = "".join("4xI" if width == REFERENCE else f"{WIDTHS[width]}x" for width in widths)
        found = self[kind] = struct.Struct(f">{words}").unpack_from if "I" in words else None
        return found


class HeapDump:
    """What is kept of a heap dump: when it was taken, in seconds; by the identity of an object the values of its
    fields, for each group; of each thread, by its number in the file, its object, its trace, and which objects each of
    its frames has, or its natives. `of_all` are those that the JVM has, or a static field of the JDK's,
    and of these `hooks` is the map of the threads that are started once the JVM ends; `statics` are in static fields of
    the job's, to which all its threads may come. `references` has the lower half of each reference, in the order of the
    file, and `strides` where some of them begin there and here."""

    def __init__(self, data: mmap.mmap) -> None:
        self.data, self.time = data, 0.0
        self.found: Dict[str, Dict[int, Tuple[Any, ...]]] = {group: {} for group in GROUPS}
        self.kinds: Dict[int, int] = {}
        self.over: Set[str] = set()
        self.texts: Dict[int, Tuple[int, int]] = {}
        self.names: Dict[int, int] = {}
        self.serials: Dict[int, int] = {}
        self.frames: Dict[int, Tuple[int, int, int]] = {}
        self.traces: Dict[int, List[int]] = {}
        self.classes: Dict[int, Tuple[int, List[Tuple[int, int]]]] = {}
        self.wanted: Dict[int, Layout] = {}
        self.roots: Dict[int, Tuple[int, int]] = {}
        self.locals: Dict[int, List[Tuple[int, int]]] = defaultdict(list)
        self.natives: Dict[int, Set[int]] = defaultdict(set)
        self.of_all: Set[int] = set()
        self.statics: Set[int] = set()
        self.hooks: Set[int] = set()
        self.keeps_references = True
        self.references = array("I")
        self.strides: List[Tuple[int, int]] = []
        self.shapes = Shapes(self)

    def read(self) -> None:
        head = self.data.find(b"\0", 0, 64)
        if not self.data[:13] == b"JAVA PROFILE " or NUMBER.unpack_from(self.data, head + 1)[0] != 8:
            raise Fault("this is no heap dump of a JVM of 64 bits")
        self.time = struct.unpack_from(">q", self.data, head + 5)[0] / 1000
        at, freed, tag = head + 13, 0, 0
        while at < len(self.data):
            tag, _, length = RECORD.unpack_from(self.data, at)
            at += RECORD.size
            if tag in SEGMENTS:
                self.read_objects(at, at + length)
            else:
                self.read_record(tag, at, length)
            at += length
            if at - freed > FREED:
                freed = at
                self.data.madvise(mmap.MADV_DONTNEED)
        if at != len(self.data) or tag != END:
            raise Fault("the heap dump is cut off")

    def read_record(self, tag: int, at: int, length: int) -> None:
        if tag == TEXT:
            self.texts[IDENTITY.unpack_from(self.data, at)[0]] = (at + 8, length - 8)
        elif tag == LOADED:
            serial, kind, _, name = struct.unpack_from(">IQIQ", self.data, at)
            self.serials[serial] = kind
            self.names[kind] = name
        elif tag == FRAME:
            frame, method, _, _, serial, line = struct.unpack_from(">QQQQIi", self.data, at)
            self.frames[frame] = method, serial, line
        elif tag == TRACE:
            serial, _, number = struct.unpack_from(">III", self.data, at)
            self.traces[serial] = list(struct.unpack_from(f">{number}Q", self.data, at + 12))

    def read_objects(self, at: int, end: int) -> None:
        """Reads a segment of the heap. So near the end of the file that a head is cut off there are roots alone."""
        while at < end:
            if at + HEAD.size > len(self.data):
                at = self.read_root(self.data[at], at)
                continue
            self.strides.append((at, len(self.references)))
            at = self.read_stride(at, min(at + STRIDE, end, len(self.data) - HEAD.size + 1), end)
            self.keeps_references = self.keeps_references and len(self.references) <= MOST_REFERENCES
            if not self.keeps_references:
                del self.references[:], self.strides[:]

    def read_stride(self, at: int, stop: int, end: int) -> int:
        """Reads objects up to a place, and returns where the next stands: most of the time goes here."""
        data, wanted, unpack, extend = self.data, self.wanted, HEAD.unpack_from, self.references.extend
        shapes, arrays = self.shapes, ARRAYS
        while at < stop:
            tag, kind, size = unpack(data, at)
            if tag == INSTANCE:
                if kind in wanted:
                    self.keep(kind, at)
                halves = shapes[kind]
                at += 25
                if halves:
                    extend(halves(data, at))
                at += size
            elif tag == VALUES:
                at += 18 + (kind >> 32) * WIDTHS[kind >> 24 & 0xFF]
            elif tag == OBJECTS:
                length = kind >> 32
                extend(arrays[length](data, at + 25) if length < SHORT else halves_in(length)(data, at + 25))
                at += 25 + 8 * length
            elif tag == CLASS:
                at = self.read_classes(at, end)
            else:
                at = self.read_root(tag, at)
        return at

    def keep(self, kind: int, at: int) -> None:
        group, readers = self.wanted[kind]
        if len(self.found[group]) >= MOST:
            self.over.add(group)
            return
        identity = IDENTITY.unpack_from(self.data, at + 1)[0]
        self.kinds[identity] = kind
        self.found[group][identity] = tuple(it[1](self.data, at + 25 + it[0])[0] if it else None for it in readers)

    def read_root(self, tag: int, at: int) -> int:
        """Reads a root of the collector, and returns where the next record stands."""
        if tag not in ROOTS:
            raise Fault(f"record {tag:#x} at {at} isn't known")
        if tag == LOCAL:
            identity, serial, depth = ROOT.unpack_from(self.data, at + 1)
            self.locals[serial].append((depth, identity))
        elif tag in OF_NATIVES:
            identity, serial = ROOT_OF_NATIVE.unpack_from(self.data, at + 1)
            self.natives[serial].add(identity)
        elif tag in OF_ALL:
            self.of_all.add(IDENTITY.unpack_from(self.data, at + 1)[0])
        elif tag == OF_THREAD:
            identity, serial, trace = ROOT.unpack_from(self.data, at + 1)
            self.roots[serial] = identity, trace
        return at + 1 + ROOTS[tag]

    def read_classes(self, at: int, end: int) -> int:
        """Reads classes up to the first record of another kind, and sees which of them are wanted."""
        while at < end and self.data[at] == CLASS:
            at = self.read_class(at + 1)
        for kind in self.classes:
            group = next((it for it in map(self.name_of, self.lineage(kind)) if it in FIELDS), "")
            if group and kind not in self.wanted:
                self.wanted[kind] = self.layout(kind, group)
        return at

    def read_class(self, at: int) -> int:
        """Reads a class, and returns where the next record stands: constants and statics come before the fields."""
        kind, _, above, *of_all = CLASS_HEAD.unpack_from(self.data, at)
        is_own = not is_jdks(self.name_of(kind))
        static: List[int] = []
        at += 64
        for head in (2, 8):
            number: int = COUNT.unpack_from(self.data, at)[0]
            at += 2
            for _ in range(number):
                if self.data[at + head] == REFERENCE:
                    held = IDENTITY.unpack_from(self.data, at + head + 1)[0]
                    name = self.text(IDENTITY.unpack_from(self.data, at)[0]) if head == 8 else ""
                    (static if is_own and name.isidentifier() else of_all).append(held)
                at += head + 1 + WIDTHS[self.data[at + head]]
        self.of_all.update(of_all)
        self.statics.update(static)
        self.hooks.update(of_all if self.name_of(kind) == OF_THE_END else ())
        number = COUNT.unpack_from(self.data, at)[0]
        self.classes[kind] = above, [(name, width) for name, width in FIELD.iter_unpack(
            self.data[at + 2:at + 2 + FIELD.size * number])]
        return at + 2 + FIELD.size * number

    def passed(self, tag: int, at: int) -> int:
        """Returns where the record stands behind one that is no object with references."""
        if tag == VALUES:
            rest: int = HEAD.unpack_from(self.data, at)[1]
            return at + 18 + (rest >> 32) * WIDTHS[rest >> 24 & 0xFF]
        return self.read_class(at + 1) if tag == CLASS else at + 1 + ROOTS[tag]

    def lineage(self, kind: int) -> List[int]:
        """Returns a class and those that it derives from."""
        found: List[int] = []
        while kind in self.classes and kind not in found:
            found.append(kind)
            kind = self.classes[kind][0]
        return found

    def layout(self, kind: int, group: str) -> Layout:
        """Returns where the fields of a group stand in the objects of a class: first of all those of the group's own
        class and above it, since a class that derives from it may have others of their names."""
        own: Dict[str, FieldReader] = {}
        below: Dict[str, FieldReader] = {}
        at, into = 0, below
        for it in self.lineage(kind):
            into = own if self.name_of(it) == group else into
            for name, width in self.classes[it][1]:
                if width in FORMATS:
                    into.setdefault(self.text(name), (at, FORMATS[width].unpack_from))
                at += WIDTHS[width]
        return Layout(group, [own.get(name) or below.get(name) for name in FIELDS[group]])

    def kind_of(self, identity: int) -> int:
        """Returns the class of an object, which is looked for if it isn't kept, or 0 if it isn't found."""
        at = self.place_of(identity) if identity and identity not in self.kinds else -1
        return int(HEAD.unpack_from(self.data, at)[1]) if at >= 0 else self.kinds.get(identity, 0)

    def place_of(self, identity: int) -> int:
        """Returns where an object stands, or -1."""
        mark = bytes([INSTANCE]) + IDENTITY.pack(identity)
        at = self.data.find(mark)
        while 0 <= at <= len(self.data) - HEAD.size:
            _, kind, size = HEAD.unpack_from(self.data, at)
            if kind in self.classes and size == sum(
                    WIDTHS[width] for it in self.lineage(kind) for _, width in self.classes[it][1]):
                return at
            at = self.data.find(mark, at + 1)
        return -1

    def text(self, identity: int) -> str:
        at, length = self.texts.get(identity, (0, 0))
        return self.data[at:at + length].decode(errors="backslashreplace")

    def name_of(self, kind: int) -> str:
        return self.text(self.names.get(kind, 0))

    def frame(self, identity: int) -> Tuple[str, int]:
        """Returns the method and the line of a frame, as 'java.lang.Thread.join' and 1304."""
        method, serial, line = self.frames[identity]
        return f"{self.name_of(self.serials.get(serial, 0)).replace('/', '.')}.{self.text(method)}", line


def is_jdks(kind: str) -> bool:
    return JDK.match(kind.replace("/", ".")) is not None
