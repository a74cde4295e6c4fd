"""Who has a path of references to an object: so he may come to it, and end a wait there."""
from __future__ import annotations

import re
from collections import defaultdict
from typing import Dict, Iterable, Iterator, List, Optional, Set, Tuple

from .hprof import (CONDITION, GROUP, HEAD, HOLDER, IDENTITY, INSTANCE, LONG_CONDITION, LOWER, OBJECTS, REFERENCE,
                    THREAD, VIRTUAL, WIDTHS, HeapDump, Referring, halves_in, is_jdks)

OF_PATHS = GROUP, HOLDER, CONDITION, LONG_CONDITION  # what says more of who may end a wait
MOST_ON_PATHS, MOST_SWEEPS = 20_000, 16  # objects on paths, and looks through all references
# Fields by which nobody comes to an object: nodes of those who wait, whom others only wake up; the list of all threads;
# what a phantom refers to; what the collector keeps for itself; and a timer that ends once its owner is forgotten. A
# thread alone uses some fields of its own.
WAKES = re.compile(r"java/util/concurrent/(?:locks/(?:AbstractQueued(?:Long)?Synchronizer(?:\$Node)?"
                   r"|StampedLock\$W?Node)|SynchronousQueue\$\S+|LinkedTransferQueue\$Node|Exchanger\$Node"
                   r"|Phaser\$QNode|FutureTask\$WaitNode|CompletableFuture\$Signaller|ForkJoinTask\$Aux)"
                   r"\.(?:thread|waiter|parked)"
                   r"|java/lang/(?:ThreadGroup\.threads|Thread\.parkBlocker|ref/Reference\.discovered)"
                   r"|java/util/Timer\$ThreadReaper\.(?:queue|thread)")
OWN = re.compile(r"java/lang/Thread\.(?:threadLocals|inheritableThreadLocals"
                 r"|inheritedAccessControlContext|blocker|scopedValueBindings)")
BY_ANY, BY_ITSELF, UNUSED = range(3)
REFERENT, PHANTOM = "java/lang/ref/Reference.referent", "java/lang/ref/PhantomReference"
# The collector puts references into queues, from which others take them. One is for those that have none.
REFERENCES, NO_QUEUE = "java/lang/ref/Reference", "java/lang/ref/ReferenceQueue$Null"
# The owner of a lock of the JDK's, for whom only a class that derives from such a lock can ask.
OWNER = "java/util/concurrent/locks/AbstractOwnableSynchronizer.exclusiveOwnerThread"
ASKED = {"java/util/concurrent/locks/ReentrantLock", "java/util/concurrent/locks/ReentrantReadWriteLock"}
# Classes without a name, of which no heap dump has the data: those of the JDK's own have none of the job's.
HIDDEN, OF_THE_JDK = re.compile(r".*[+/.]0x[0-9a-f]+"), re.compile(
    r"(?:javax?|jdk|sun|com/sun)/.*|.*\$\$(?:Lambda|StringConcat|TypeSwitch)\b.*")


class Paths:
    """Who has a path of references to some objects. `into` has, of each object on a path, those that refer to it, `own`
    the threads that alone use a field of theirs which does, `having` those that have it in a frame, `of_all` are those
    to which anybody may come, the JVM too, and `unused` those to which a field refers that nobody uses."""

    def __init__(self, heap: HeapDump, alive: Iterable[int]) -> None:
        self.heap, self.alive = heap, set(alive)
        self.into: Dict[int, Set[int]] = {}
        self.own: Dict[int, Set[int]] = defaultdict(set)
        self.having: Dict[int, Set[int]] = defaultdict(set)
        self.of_all, self.statics = {*heap.of_all}, heap.statics - {0}
        self.unused: Set[int] = set()
        self.fields: Dict[int, List[Tuple[int, int]]] = {}
        self.known: Dict[int, Optional[Set[int]]] = {}
        self.by_statics: Set[int] = set()  # of these, to which one comes by a static field
        self.queues: Dict[int, bool] = {}  # whether the collector puts into one
        self.new: Set[int] = set()  # of these
        self.asks: Optional[bool] = None  # whether a class of the job's derives from a lock that knows its owner
        for serial, rows in heap.locals.items():
            self.add_root(heap.roots.get(serial, (0, 0))[0], [it for _, it in rows])
        for serial, held in heap.natives.items():
            self.add_root(heap.roots.get(serial, (0, 0))[0], held)

    def add_root(self, thread: int, held: Iterable[int]) -> None:
        if thread not in self.alive:
            self.of_all.update(held)
        for it in held:
            self.having[it].add(thread)

    def find(self, some: Iterable[int]) -> bool:
        """Finds all paths to some objects, and returns whether these are all. A virtual thread has no frames here."""
        kinds = map(self.heap.name_of, {*self.heap.kinds.values()})
        is_whole = self.heap.keeps_references and not self.heap.over & {THREAD, *OF_PATHS}
        if not is_whole or VIRTUAL in kinds or any(map(is_hidden, map(self.heap.name_of, self.heap.classes))):
            return False
        new = set(some)
        self.into = {it: set() for it in new}
        for number in range(MOST_SWEEPS):
            if not new or len(self.into) > MOST_ON_PATHS:
                break
            new = self.look_for(new, -1 if number % 2 else 1)
        return not new

    def look_for(self, some: Set[int], step: int) -> Set[int]:
        """Looks through all references for those to some objects, and to those that refer to these. It returns the
        latter: what refers to them may have been passed before."""
        wanted, found = {it & LOWER for it in some}, set()
        strides, references = self.heap.strides, self.heap.references
        ends = [*(begin for _, begin in strides[1:]), len(references)]
        for number in range(len(strides))[::step]:
            at, begin = strides[number]
            if not wanted.isdisjoint(references[begin:ends[number]]) and len(self.into) <= MOST_ON_PATHS:
                found |= self.look_at(list(self.referring(at, ends[number] - begin)), wanted)
        found, self.new = found | self.new, set()
        return found

    def look_at(self, rows: List[Referring], wanted: Set[int]) -> Set[int]:
        """Adds those objects of a stride that refer to one that is wanted, or to each other, and returns the new ones.
        """
        found: Set[int] = set()
        new: Set[int] = {0}
        while new and len(found) <= MOST_ON_PATHS:
            new = {row.identity for row in rows if not wanted.isdisjoint(row.halves) and self.add(row)}
            wanted.update(it & LOWER for it in new)
            found |= new
        return found

    def referring(self, at: int, number: int) -> Iterator[Referring]:
        """Yields the objects from a place on that have so many references."""
        data = self.heap.data
        while number > 0:
            tag, kind, size = HEAD.unpack_from(data, at)
            identity = IDENTITY.unpack_from(data, at + 1)[0]
            if tag == INSTANCE:
                halves = self.heap.shapes[kind]
                row = Referring(identity, kind, at + 25, halves(data, at + 25) if halves else ())
                at += 25 + size
            elif tag == OBJECTS:
                row = Referring(identity, 0, at + 25, tuple(halves_in(kind >> 32)(data, at + 25)))
                at += 25 + 8 * (kind >> 32)
            else:
                at = self.heap.passed(tag, at)
                continue
            number -= len(row.halves)
            yield row

    def add(self, row: Referring) -> bool:
        """Adds to whom on paths an object refers, and returns whether it is a new one there."""
        is_new = False
        for at, use in self.fields_of(row):
            other = IDENTITY.unpack_from(self.heap.data, row.at + at)[0]
            if other in self.into and use == UNUSED:
                self.unused.add(other)
            elif other in self.into and use == BY_ITSELF and row.identity in self.alive:
                self.own[other].add(row.identity)
            elif other in self.into:
                self.into[other].add(row.identity)
                is_new = is_new or row.identity not in self.into
        if is_new:
            self.into[row.identity] = {it for it in self.queues_of(row) if self.has_puts(it)}
            self.new |= self.into[row.identity] - self.into.keys()
            self.into.update((it, set()) for it in self.new - self.into.keys())
        return is_new

    def queues_of(self, row: Referring) -> List[int]:
        """Returns the queue into which the collector may put an object, if that is a reference of its own."""
        if not row.kind or REFERENCES not in map(self.heap.name_of, self.heap.lineage(row.kind)):
            return []
        at, found = row.at, []
        for name, width in (it for each in self.heap.lineage(row.kind) for it in self.heap.classes[each][1]):
            is_queue = width == REFERENCE and self.heap.text(name) == "queue"
            found += [IDENTITY.unpack_from(self.heap.data, at)[0]] if is_queue else []
            at += WIDTHS[width]
        return [it for it in found if it]

    def has_puts(self, queue: int) -> bool:
        if queue not in self.queues:
            self.queues[queue] = self.heap.name_of(self.heap.kind_of(queue)) != NO_QUEUE
        return self.queues[queue]

    def fields_of(self, row: Referring) -> Iterable[Tuple[int, int]]:
        """Returns where the references of an object stand, and who uses them."""
        if not row.kind:
            return [(8 * at, BY_ANY) for at in range(len(row.halves))]
        if row.kind not in self.fields:
            self.fields[row.kind] = list(self.fields_in(row.kind))
        return self.fields[row.kind]

    def fields_in(self, kind: int) -> Iterator[Tuple[int, int]]:
        names = [self.heap.name_of(it) for it in self.heap.lineage(kind)]
        at = 0
        for owner, (name, width) in ((owner, it) for owner, each in zip(names, self.heap.lineage(kind))
                                     for it in self.heap.classes[each][1]):
            field = f"{owner}.{self.heap.text(name)}"
            is_unused = (WAKES.fullmatch(field) or field == REFERENT and PHANTOM in names
                         or field == OWNER and not self.is_asked(names[0]))
            if width == REFERENCE:
                yield at, UNUSED if is_unused else BY_ITSELF if OWN.fullmatch(field) else BY_ANY
            at += WIDTHS[width]

    def is_asked(self, kind: str) -> bool:
        """Whether code of the job may ask the locks of a class for their owners."""
        if self.asks is None:
            own = [it for it in self.heap.classes if not is_jdks(self.heap.name_of(it))]
            self.asks = any(ASKED.intersection(map(self.heap.name_of, self.heap.lineage(it))) for it in own)
        return self.asks or not is_jdks(kind)

    def threads_to(self, thing: int) -> Optional[Set[int]]:
        """Returns the threads that have a path to an object, or None if any thread may have one: also where nothing is
        known to refer to one that lives, as to what the JVM keeps for a class. By a static field of the job's all
        threads have one that there are."""
        if thing not in self.known:
            path, seen = [thing], {thing}
            for it in path:  # (which grows meanwhile)
                new = self.into[it] - seen
                seen |= new
                path += new
            found = {thread for it in path for some in (self.having, self.own) for thread in some.get(it, ())}
            roots = self.having, self.own, self.alive, self.unused, self.statics
            is_whole = all(self.into[it] or any(it in some for some in roots) for it in path)
            self.by_statics |= {thing} if seen & self.statics else set()
            found |= self.alive if seen & self.statics else seen & self.alive
            self.known[thing] = found if is_whole and not seen & self.of_all else None
        return self.known[thing]


def is_hidden(kind: str) -> bool:
    """Whether a class has no name, and isn't one that the JDK makes."""
    return HIDDEN.fullmatch(kind) is not None and OF_THE_JDK.fullmatch(kind) is None
