"""The waits of a sketch by numbers, and who is stuck by them.

`rule` decides; here its answers get the form that a dump of the program has, in which one waits for any of a list, or
is active. `low` has those in it who are stuck for certain, and `high` those too of whom it isn't known. A list of
wakers that several waits share, and each part of a wait with several parts, may be a node of its own, a hub. All takes
time linear in the lengths of the lists.

One that waits for any goes on where a message of one of its list is in transit to it. Of one that waits for all, those
parts are over whose message is in transit to it, or who have ended well; with nothing left it goes on. Who has ended
sends no more, so it counts here as one of the set, but is none of the stuck.
"""
from __future__ import annotations

from collections import Counter
from copy import copy
from dataclasses import replace
from itertools import chain
from typing import AbstractSet, Callable, Dict, FrozenSet, Iterable, List, Optional, Sequence, Set, Tuple

from .files import Refusal
from .model import COMES, Part, Sign, Strength, Subject, Wakers, once
from .nearness import NEAR, Nearness
from .rule import Decision
from .sketch import ALL, ANY, DONE, ENDED, GOING, RUNS, Process, Sketch, is_open, kind_of_wait, lists_of_wakers, \
    shared_lists, shared_waits

LONG = 65_536  # names in all lists; with more, equal lists are one
MOST = 5_000_000  # names in all lists; more would take more memory than a machine may have
NAMED, ABLE = Strength.NAMED, Strength.ABLE
CALM = (*GOING, Sign.RESTS)  # signs of those that nobody has to free
NOBODY: FrozenSet[int] = frozenset()  # senders of one to whom no message is in transit
Key = Tuple[int, int]  # of a list: its length, and the sum of its hashes


def share_lists(sketch: Sketch) -> int:
    """Has those waits whose lists of wakers are equal have one list, if all lists together are long. Lists of a wait
    for any that differ in the waiting process itself alone are equal, and become whole: to wait for oneself as well
    changes nothing, unless one has sent a message to itself. It ends where nothing is left to do, so that notes give
    the same lists again. Returns how many names all lists have."""
    while True:
        number = sum(map(len, lists_of_wakers(sketch.processes)))
        if number <= LONG or not share_more(sketch):
            return number


def share_more(sketch: Sketch) -> bool:
    """Has some of those whose lists are equal have one list. Returns whether there were any."""
    users: Dict[int, List[Process]] = {}
    for process in sketch.processes:
        if is_plain(process):
            users.setdefault(id(process.parts[0][0].who), []).append(process)
    excepted = {sender for sender, receiver in sketch.in_transit if sender == receiver}
    keys = [keys_of_list(users_of_one, excepted) for users_of_one in users.values()]
    counts = Counter(key for row in keys for key in row)
    known: Dict[Key, Tuple[Sequence[str], Set[str]]] = {}
    number = 0
    for users_of_one, row in zip(users.values(), keys):
        key = max(row, key=counts.__getitem__)
        if counts[key] > 1:
            number += use_one_list(users_of_one, key == row[0], known, key)
    return number > 0


def is_plain(process: Process) -> bool:
    """Whether one waits for any of one list of several."""
    parts = process.parts
    return len(parts) == 1 and len(parts[0]) == 1 and len(parts[0][0].names()) > 1


def keys_of_list(users: List[Process], excepted: Set[str]) -> List[Key]:
    """Returns what tells the list of some processes from others: as it is, and of one alone with itself in it."""
    first = users[0]
    names, name = first.parts[0][0].names(), first.name
    total = sum(map(hash, names))
    keys = [(len(names), total)]
    if len(users) == 1 and name not in excepted and name not in names:
        keys.append((len(names) + 1, total + hash(name)))
    return keys


def use_one_list(users: List[Process], as_it_is: bool, known: Dict[Key, Tuple[Sequence[str], Set[str]]],
                 key: Key) -> bool:
    """Gives some processes the list that is known by a key, if theirs is equal. Returns whether it is another one."""
    group = users[0].parts[0][0]
    names = group.names() if as_it_is else [*group.names(), users[0].name]
    first, wanted = known.setdefault(key, (names, set(names)))
    if first is group.who or names is not first and wanted != set(names):
        return False
    for process in users:
        process.parts = [(process.parts[0][0].of(first),)]
    return True


def are_named(part: Part) -> bool:
    """Whether the system names all wakers of a part."""
    for wakers in part:  # (a loop takes half as long as `all`)
        if wakers.strength is not Strength.NAMED:
            return False
    return True


class Waits:
    """The processes by their indices, and behind these the hubs. `left[p]` are those that p still waits for, by one
    list where any of them is enough, `senders[p]` those whose message is in transit to it, and `waiters[p]` those that
    wait for it. `decision` is what the rule says, and `total` how many names all lists have."""

    def __init__(self, sketch: Sketch) -> None:
        self.total = share_lists(sketch)
        self.processes = sketch.processes
        if self.total > MOST:
            raise Refusal(f"too many dependents: the lists have {self.total:,} names in all, and {MOST:,} is the most")
        self.index = {process.name: index for index, process in enumerate(self.processes)}
        self.number = len(self.processes)
        self.senders: List[AbstractSet[int]] = self.senders_of(sketch.in_transit)
        self.done = {process.name for process in self.processes
                     if process.sign is Sign.ENDED and process.reason == DONE}
        self.not_done = once(lambda parts: [part for part in parts if not self.is_done(part)])
        if self.done or sketch.in_transit:
            self.subjects = [self.subject(index) for index in range(self.number)]
            self.kinds = [self.kind_of(index) for index in range(self.number)]
        else:  # (nothing of a wait is over)
            self.subjects = [Subject(process.name, process.sign, process.parts) for process in self.processes]
            self.kinds = [process.kind for process in self.processes]
        self.decision = Decision(self.subjects)
        self.number_nodes()

    def senders_of(self, pairs: Iterable[Tuple[str, str]]) -> List[AbstractSet[int]]:
        """Returns of each one those whose message is in transit to it."""
        senders: Dict[str, Set[int]] = {}
        for sender, receiver in pairs:
            senders.setdefault(receiver, set()).add(self.index[sender])
        return [senders.get(process.name, NOBODY) for process in self.processes]

    def without_doubts(self, sketch: Sketch, changed: Iterable[int]) -> Waits:
        """Returns the waits of the same sketch where some have only those wakers left by whom they are likely to be
        stuck. All else is as it was, but for long lists, of which equal ones become one."""
        if self.total > LONG:
            # To share lists changes the processes, and the sketch with doubts has those that hang on none.
            made = Waits(replace(sketch, processes=[process.copy() for process in sketch.processes]))
        else:
            made = copy(self)
            made.processes, made.subjects, made.kinds = sketch.processes, list(self.subjects), self.kinds[:self.number]
            for number in changed:
                made.subjects[number] = made.subject(number)
                made.kinds[number] = made.kind_of(number)
            made.decision = Decision(made.subjects)
            made.number_nodes()
        return made

    def number_nodes(self) -> None:
        """Sets whom each one still waits for, with the hubs of lists, and who waits for each."""
        self.nearness = Nearness(self)
        self.has_ended = ENDED in self.kinds
        self.left: List[List[int]] = [[]] * self.number
        self.hubs: Dict[int, int] = {}
        self.shared = shared_lists(self.processes)
        self.alike = shared_waits([subject.parts for subject in self.subjects])
        for index, subject in enumerate(self.subjects):
            self.left[index] = self.nodes_of(self.kinds[index], subject.parts)
        self.senders = [senders and self.senders_in_list(index) for index, senders in
                        enumerate(self.senders[:self.number])] + [NOBODY] * (len(self.left) - self.number)
        self.waiters: List[List[int]] = [[] for _ in self.left]
        for index, others in enumerate(self.left):
            for other in others:
                self.waiters[other].append(index)

    def senders_in_list(self, index: int) -> AbstractSet[int]:
        """Returns those whose message ends the wait of one that waits for any."""
        return self.senders[index] & set(self.all_left(index)) if self.kinds[index] == ANY else NOBODY

    # What is left of each wait

    def subject(self, index: int) -> Subject:
        """Returns what the rule sees of one: it goes on if a message for it is in transit, or all have come."""
        process = self.processes[index]
        parts = self.not_done(process.parts) if self.done else process.parts
        if self.senders[index]:
            parts = [part for part in parts if not self.is_sent(index, part)]
        if process.parts and not parts:  # (the dump has the list of one that waits for any, with the message)
            return Subject(process.name, Sign.GOES_ON, [] if process.is_for_all() else process.parts)
        return Subject(process.name, process.sign, parts if len(parts) < len(process.parts) else process.parts)

    def is_sent(self, index: int, part: Part) -> bool:
        """Whether a message of one of the wakers of a part is in transit."""
        names = {self.index[name] for group in part for name in group.names() if name in self.index}
        return bool(self.senders[index] & names)

    def is_done(self, part: Part) -> bool:
        """Whether one that had to come to where all have to has ended well."""
        return any(group.how == COMES and not self.done.isdisjoint(group.names()) for group in part)

    def kind_of(self, index: int) -> str:
        """Returns which of KINDS is left of one."""
        subject, kind = self.subjects[index], self.processes[index].kind
        if subject.sign is Sign.GOES_ON:
            return kind if kind in (ANY, ALL) else RUNS
        return kind_of_wait(subject.parts) if len(subject.parts) < len(self.processes[index].parts) else kind

    def nodes_of(self, kind: str, parts: Sequence[Part]) -> List[int]:
        """Returns the nodes of a wait: those of the one part of one for any, or one for each part of one for all."""
        if kind == ANY:
            return self.nodes_of_part(parts[0])
        if kind != ALL:
            return []
        if id(parts) not in self.alike:
            return self.nodes_of_parts(parts)
        return [self.hub(id(parts), lambda: self.nodes_of_parts(parts), ALL)]

    def nodes_of_parts(self, parts: Sequence[Part]) -> List[int]:
        """Returns a node for each part that nobody may end who isn't in the state."""
        return [self.node_of_part(part) for part in parts if not is_open(part)]

    def nodes_of_part(self, part: Part) -> List[int]:
        names = part[0].names() if len(part) == 1 else ()
        if len(names) == 1:
            return [self.index[names[0]]]
        return list(dict.fromkeys(chain.from_iterable(map(self.nodes_of_wakers, part))))

    def nodes_of_wakers(self, group: Wakers) -> List[int]:
        names = group.names()
        if id(group.who) not in self.shared:
            return [*map(self.index.__getitem__, names)]
        return [self.hub(id(group.who), lambda: list(dict.fromkeys(map(self.index.__getitem__, names))))]

    def node_of_part(self, part: Part) -> int:
        """Returns one node for a part of several."""
        nodes = self.nodes_of_part(part)
        return nodes[0] if len(nodes) == 1 else self.hub(id(part), lambda: nodes)

    def hub(self, key: int, nodes: Callable[[], List[int]], kind: str = ANY) -> int:
        """Returns the hub of a list, by what tells it from others."""
        if key not in self.hubs:
            members = nodes()
            self.hubs[key] = len(self.left)
            self.left.append(members)
            self.kinds.append(kind)
        return self.hubs[key]

    # What is asked of them

    def left_there(self, index: int) -> List[int]:
        """Returns the nodes that one still waits for, without those who have ended."""
        return [node for node in self.left[index] if self.kinds[node] != ENDED] if self.has_ended else self.left[index]

    def all_left(self, index: int) -> List[int]:
        """Returns those that one still waits for, without hubs."""
        return self.without_hubs(self.left[index])

    def without_hubs(self, nodes: Iterable[int]) -> List[int]:
        """Returns some nodes, with those of a hub in its place."""
        if len(self.left) == self.number:
            return list(dict.fromkeys(nodes))
        others: Dict[int, None] = {}
        for node in nodes:
            others.update(dict.fromkeys(self.all_left(node) if node >= self.number else [node]))
        return list(others)

    def left_of(self, index: int) -> List[int]:
        """Returns the nodes of a wait, but for those of one that waits for any whom the rule sets aside, as far as
        others are left, and where some of these are near to what it waits at, for all others. A list that several
        share stays whole."""
        if index >= self.number or self.kinds[index] != ANY:
            return self.left[index]
        part = self.subjects[index].parts[0]
        if are_named(part):
            return self.left[index]
        nodes, rows = self.left[index], [*zip(part, self.decision.left_of(part))]
        if any(len(names) < len(wakers.names()) for wakers, names in rows):
            left = tuple(wakers if id(wakers.who) in self.shared else wakers.of(names)
                         for wakers, names in rows if names)
            nodes = self.nodes_of_part(left) or nodes
        near = [self.index[name] for wakers, names in rows if wakers.how in NEAR for name in names]
        return self.nearness.of(index, near or nodes)

    def has_hub(self, index: int) -> bool:
        return any(node >= self.number for node in self.left[index])

    def list_of(self, index: int) -> Optional[int]:
        """Returns the hub of the list that one waits for, if it shares that, and waits for no one else."""
        left = self.left[index]
        is_list = len(left) == 1 and left[0] >= self.number and self.kinds[left[0]] == self.kinds[index]
        return left[0] if is_list else None

    def is_awake(self, index: int) -> bool:
        """Whether it goes on whatever the others do, unknown ones aside."""
        return index < self.number and self.subjects[index].sign in GOING

    def low(self) -> Answer:
        """Returns the answer in which those are stuck who are it for certain."""
        uncertain = self.decision.uncertain
        inside = self.with_hubs([index not in uncertain for index in range(self.number)])
        causes = [self.index[name] if name is not None else None for name in map(uncertain.get, range(self.number))]
        for hub in range(self.number, len(self.left)):
            first = next((node for node in self.left[hub] if not inside[node]), None)
            causes.append(first if first is None or first < self.number else causes[first])
        return Answer(self, inside, causes)

    def with_hubs(self, inside: List[bool]) -> List[bool]:
        """Returns who is in a set, with the hubs that are in it too."""
        for node in range(self.number, len(self.left)):
            marks = [inside[other] for other in self.left[node]]
            inside.append(any(marks) if self.kinds[node] == ALL else all(marks))
        return inside

    def high(self, low: Answer) -> Answer:
        """Returns the answer in which those are in the set too of whom it isn't known, by the low one."""
        freed = self.decision.freed
        calm = {index for index, subject in enumerate(self.subjects) if subject.sign in CALM}
        inside = self.with_hubs([index not in calm and index not in freed or low.inside[index]
                                 for index in range(self.number)])
        causes: List[Optional[int]] = [None] * len(self.left)
        for index, name in freed.items():
            causes[index] = None if name is None else self.index[name]
        return Answer(self, inside, causes)

    def stuck_without(self, running: Iterable[int]) -> List[int]:
        """Returns who would still be stuck if some ran. Where nobody waits for all, that is nobody behind a root."""
        if ALL not in self.kinds:
            return []
        waiting = (self.decision.blocked | self.decision.resting).difference(running)
        return sorted(waiting.difference(self.decision.outside(waiting)))


class Answer:
    """A set of those who are stuck. `inside[p]` says whether p is in it, ended ones and hubs included; `cause[p]` is
    one that lets p go on, of those outside that don't go on by themselves. No hub is a cause."""

    def __init__(self, waits: Waits, inside: List[bool], cause: List[Optional[int]]) -> None:
        self.waits, self.inside, self.cause = waits, inside, cause
        self.picks: Dict[int, List[int]] = {}

    def is_stuck(self, index: int) -> bool:
        return self.inside[index] and self.waits.kinds[index] != ENDED

    def members(self) -> List[int]:
        """Returns the stuck ones in their order."""
        kinds = self.waits.kinds
        return [index for index, is_in in enumerate(self.inside[:self.waits.number]) if is_in and kinds[index] != ENDED]

    def dependents(self, index: int) -> Optional[List[int]]:
        """Returns whom the dump names for p, or None where it is active: of ALL one that is stuck, if there is one. Who
        is in the set though somebody of its list isn't is named as one whom nobody unblocks."""
        waits, kind = self.waits, self.waits.kinds[index]
        if kind not in (ANY, ALL) or not self.inside[index] and (waits.is_awake(index) or self.cause[index] is None):
            sent = kind == ANY and index < waits.number and waits.senders[index]
            return self.sent(index) if sent else [] if self.inside[index] and kind != RUNS else None
        if kind == ALL:
            first = waits.left[index][0]
            return self.pick(first if first >= waits.number and waits.kinds[first] == ALL else index)
        there = waits.left_there(index)
        return [] if self.inside[index] and not all(map(self.inside.__getitem__, there)) else there

    def sent(self, index: int) -> Optional[List[int]]:
        """Returns whom the dump names for one whose message is in transit: its list, with one of the senders."""
        waits = self.waits
        if any(waits.kinds[sender] == ENDED for sender in waits.senders[index]):
            return None
        there = waits.left_there(index)
        return there + ([min(waits.senders[index])] if waits.has_hub(index) else [])

    def pick(self, index: int) -> List[int]:
        """Returns whom the dump names for one that waits for all: the first that is stuck, or else the first."""
        if index not in self.picks:
            there = self.waits.left_there(index)
            picks = [other for other in there if self.inside[other]] or (there if not self.inside[index] else [])
            self.picks[index] = [min(picks)] if picks else []
        return self.picks[index]
