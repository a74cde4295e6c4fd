"""What breaks the roots: what can be restarted of a system as such, and the least of it that is enough."""
from __future__ import annotations

import re
from collections import Counter
from functools import cached_property
from heapq import heapify, heappop, heappush
from typing import Dict, Iterable, List, NamedTuple, Sequence, Tuple

from .files import short_name, shown
from .findings import Findings
from .model import Headline, Sign, Strength
from .sketch import BARE, ENDED, Process
from ..systems import described

WITH_NUMBER = re.compile(r"(?P<name>.+)-(?P<pid>\d+)")
JVM = re.compile(r"JVM (?P<pid>\d+)")
PID = re.compile(r" \(PID (\d+)\)")  # as a unit is called
BY_NUMBER = re.compile(r"\bpid\W{0,2}\d+", re.I)  # in a site by hand that is no machine, but a process of one
MOST = 64  # members of a root that are looked at
WIDE = 72  # characters of a word that has no room in a line
SHOWN = 3  # units, or members of a root without any
PIDS = 12  # of processes that are restarted with another one: who doesn't know them can't see whether they are gone
NOTICED = ("called", "ends", "owns")  # hows of a wait that ends, perhaps in an error, with the process that is meant
UNNOTICED = ("receive",)  # operations that wait on for an answer when the one who was asked has ended
# Waits for a lock in memory that processes share, which stays taken when its holder ends.
STAYS_TAKEN = re.compile("SemLock")
# Hows of waits that surely end once the one who is meant goes on, as far as a state shows it.
SURE = ("owns", "called", "ends")
# Operations that wait for a lock, or for an answer, and those that one item ends, with what that is.
LOCKS, ANSWERS = re.compile(r"[Ll]ock|acquire$|synchronized"), re.compile(r"call(_dirty)?$|rpc$")
ITEMS = ((re.compile(r"(Queue|Deque)\.(get|take)$|mq_\w*receive|msgrcv"), "one item into"),
         (re.compile(r"(Queue|Deque)\.put$|mq_\w*send|msgsnd"), "one item out of"))
# Commands that begin again what they have begun, once it ends.
BEGINS_AGAIN = {"init", "systemd", "supervisord", "runsv", "s6-supervise"}


class Cure(NamedTuple):
    """Units of which any one is enough, or if `is_all` only all of them together, and the roots that this breaks."""

    units: List[str]
    roots: List[int]
    is_all: bool = False


class Step(NamedTuple):
    """What is done with a unit: a command for its system, or nothing, and the processes of this machine that end, first
    its own one."""

    unit: str
    command: str
    pids: List[int]


class Cures:
    """The units of a system, each with all that ends with it. A root is broken by those units that have all who may end
    the wait of one of its members: then that one goes on, or gets an error, and the others follow. A process of the
    machine that another one has begun is restarted with that one, since by itself nobody begins it again."""

    def __init__(self, answer: Findings) -> None:
        self.answer, self.system, self.begun_by = answer, answer.dump.sketch.system, answer.dump.sketch.begun_by
        self.kind = described(self.system).units
        self.are_alone = self.kind.is_alone or self.system == BARE
        self.members: Dict[str, List[int]] = {}
        self.words: Dict[str, str] = {}  # what is done with each unit
        self.by_pid: Dict[str, str] = {}  # of those that are restarted by themselves, the first name of each process
        self.units = [self.unit_of(index) for index in range(answer.waits.number)]
        for index, unit in enumerate(self.units):
            self.members.setdefault(unit, []).append(index)
        self.remedies = {self.own_unit(index): process.remedy for index, process in enumerate(answer.waits.processes)
                         if process.remedy}
        self.of = [self.cure_of(number, members) for number, members in enumerate(answer.roots.roots)]

    def name_of_unit(self, unit: str) -> str:
        """Returns what people know a unit by that can be restarted: a process by its number, if its threads have it."""
        name, jvm, numbered = short_name(unit), JVM.fullmatch(unit), WITH_NUMBER.fullmatch(unit)
        if jvm:
            return f"the JVM (PID {jvm['pid']})"
        if numbered and self.is_of_machine(unit, numbered["pid"]):
            return f"{short_name(numbered['name'])} (PID {numbered['pid']})"
        pids = {pid_of(self.answer.waits.processes[index]) for index in self.members.get(unit, ())} - {""}
        if self.are_alone and pids:
            return f"{name} (PID {pids.pop()})"
        return f"{self.kind.node} {name}" if self.kind.node else name

    def is_of_machine(self, unit: str, pid: str) -> bool:
        """Whether a unit is a process of the machine with this number."""
        is_known = unit in self.begun_by or unit in self.begun_by.values()
        is_plain = self.kind.is_numbered and unit.count("-") == 1
        return is_known or is_plain or any(
            self.answer.waits.processes[index].thread.startswith(f"{pid}/") for index in self.members.get(unit, ()))

    # Units

    def unit_of(self, index: int) -> str:
        """Returns what is restarted for a process: its site, or what has begun that."""
        process = self.answer.waits.processes[index]
        if self.kind.whole:
            return self.kind.whole
        if self.kind.node and process.site and "/" in process.name:
            return f"{process.name.split('/')[0]}@{process.site}"
        if self.are_alone or not self.system and not BY_NUMBER.search(process.site or ""):
            pid = pid_of(process)
            return self.by_pid.setdefault(pid, process.name) if pid else process.name
        return self.top_of(process.site or "")

    def top_of(self, site: str) -> str:
        """Returns the highest process of the job above one, or that which something else begins again."""
        if site not in self.begun_by:
            return site
        seen = {site}
        while site in self.begun_by and self.begun_by[site] not in seen:
            above = self.begun_by[site]
            if above.rpartition("-")[0] in BEGINS_AGAIN:
                break
            seen.add(above)
            site = above
        return site

    def below(self, unit: str) -> List[str]:
        """Returns the processes of the job that end with one, as it has begun them, or others that have."""
        return [site for site in self.begun_by if site != unit and self.top_of(site) == unit]

    def own_unit(self, index: int) -> str:
        """Returns the unit of a process that is ended by itself."""
        process = self.answer.waits.processes[index]
        return process.name if self.kind.node else process.site or ""

    def units_of(self, members: Iterable[int]) -> List[str]:
        return [unit for unit in dict.fromkeys(map(self.units.__getitem__, members)) if unit]

    def pids_below(self, unit: str) -> List[int]:
        """Returns the numbers of the processes that end with one, but for its own: of a job the ranks of one machine.
        """
        processes = [self.answer.waits.processes[index] for index in self.members.get(unit, ())]
        if unit == self.kind.whole != "":
            pids = {int(pid_of(process)) for process in processes if pid_of(process).isdigit()}
            return sorted(pids) if len({process.site for process in processes}) == 1 else []
        numbers = filter(None, map(WITH_NUMBER.fullmatch, self.below(unit)))
        return sorted(int(number["pid"]) for number in numbers)

    def step_of(self, unit: str) -> Step:
        command = self.remedies.get(unit, "")
        pids = [*map(int, PID.findall(self.name_of_unit(unit))), *self.pids_below(unit)]
        return Step(unit, command, [] if command else pids)

    def ends(self) -> List[Tuple[Step, int]]:
        """Returns what ends one at which most waits end, by a command, and then another undecided one that a command
        ends, for whom most others wait, as it may keep what it gets; each with the number of these."""
        answer, processes = self.answer, self.answer.waits.processes
        counts = {index: others.number for index, others in [*answer.unknown_ones(1), *answer.idle_ones(1)]
                  if others.number}
        for end in answer.ends().values():
            counts[end] = counts.get(end, 0) + 1
        first = max(counts, key=lambda index: counts[index], default=None)
        if first is None or not processes[first].remedy or answer.headline is Headline.NONE:
            return []
        then = Counter(other for index in answer.undecided for other in set(answer.waits.left_of(index))
                       if other in answer.open - {first, index} and processes[other].remedy)
        chosen = [(first, counts[first]), *then.most_common(1)]
        return [(self.step_of(self.own_unit(index)), number) for index, number in chosen]

    # What breaks a root

    def cure_of(self, number: int, members: List[int]) -> Cure:
        """Returns the least that breaks a root: several units if each is enough. A root within one unit is broken by
        that."""
        ended = self.units_to_end(members)
        if ended:
            return Cure(ended, [number])
        units = list(dict.fromkeys(map(self.units.__getitem__, members)))
        if len(units) == 1 and units[0]:
            return Cure(units, [number])
        sets = [tuple(self.units_for(index)) for index in members[:MOST]]
        sets = list(dict.fromkeys(filter(None, sets))) or [() if "" in units else tuple(units)]
        least = min(map(len, sets))
        best = [list(units) for units in sets if len(units) == least]
        if least > 1:
            return Cure(best[0], [number], True)
        alone = [unit for units in best for unit in units]
        return Cure(sorted(alone, key=self.rank), [number], not alone)

    def rank(self, unit: str) -> Tuple[bool, bool]:
        """Returns where a unit stands among those that would do: first those that a command ends, and last those that
        have nothing under way, whose end gives nothing back."""
        return unit not in self.remedies, all(
            self.answer.waits.processes[index].sign is Sign.RESTS for index in self.members.get(unit, ()))

    def units_to_end(self, members: List[int]) -> List[str]:
        """Returns the processes of a root that can be ended by themselves, as something begins them again, and whose
        end is noticed by one that waits for their answer: those by which all others end one after another, or if there
        is none, all."""
        noticed = {index: name for index in members[:MOST] for name in self.noticed_by(index, members)}
        names = list(dict.fromkeys(noticed.values()))
        return [name for name in names if self.ends_all(name, members, noticed)] or names

    def noticed_by(self, index: int, members: Sequence[int]) -> List[str]:
        """Returns the process whose end is noticed by one that waits for its answer, if it is the only one."""
        if not self.kind.again:
            return []
        waits = self.answer.waits
        process, names = waits.processes[index], {waits.processes[other].name for other in members}
        whom = [name for part in process.parts for wakers in part if wakers.how in NOTICED for name in wakers.names()]
        is_alone = len(process.parts) == 1 == len(set(whom)) and process.operation not in UNNOTICED
        return [name for name in whom[:1] if is_alone and name in names and name in self.remedies]

    def ends_all(self, name: str, members: Sequence[int], noticed: Dict[int, str]) -> bool:
        """Whether each other member of a root notices the end of one, or of another one that has noticed it."""
        ended, number = {name}, 0
        while len(ended) > number:
            number = len(ended)
            ended.update(self.answer.process(index).name for index, other in noticed.items() if other in ended)
        return len(ended) == len(members)

    def units_for(self, index: int) -> List[str]:
        """Returns the units that have all who may end the wait of one, or nothing if its own unit is among them, or no
        end of a unit ends the wait."""
        waits = self.answer.waits
        if STAYS_TAKEN.match(waits.processes[index].operation):
            return []
        others = [other for other in waits.without_hubs(waits.left_of(index)) if waits.kinds[other] != ENDED]
        units = list(dict.fromkeys(map(self.units.__getitem__, others)))
        return [] if "" in units or self.units[index] in units else units

    # One thing that is enough

    def enough_words(self, number: int) -> str:
        """Returns in words which one thing that is sent or released lets all of a root go on, by the wait of the first
        member of whom that is sure, or nothing."""
        members = self.answer.roots.roots[number][:MOST + 1]
        for index in members if len(members) <= MOST and not self.kind.whole else ():
            thing = self.thing_for(index)
            if thing and all(self.lets_go_on(some, members) for some in self.takers(index)):
                return f"Enough, if it can be done: {thing}"
        return ""

    def thing_for(self, index: int) -> str:
        """Returns what ends the wait of one at once, with where that is, or nothing."""
        process, what = self.answer.process(index), self.answer.what(index)
        hows = {wakers.how: wakers.names() for part in process.parts for wakers in part
                if wakers.strength is not Strength.AGAINST}
        operation, rest = process.operation, what.replace(process.operation, "", 1).strip()
        kind = operation.rpartition(".")[0].rpartition(".")[2]
        if len(process.parts) > 1 or not rest or process.remedy and not self.kind.again:
            return ""
        if "called" in hows:
            call = what if max(map(len, what.split())) < WIDE else operation
            return f"an answer to {call} of {short_name(process.name)}" if ANSWERS.search(operation) else ""
        if "owns" in hows:
            where = rest if rest.startswith("lock ") else f"{kind or 'lock'} {rest}"
            is_lock = LOCKS.search(operation) and len(hows["owns"]) == 1
            return f"a release of {where} by {short_name(hows['owns'][0])}" if is_lock else ""
        return next((f"{words} {kind} {rest}".replace("  ", " ") for pattern, words in ITEMS
                     if pattern.search(operation)), "")

    @cached_property
    def waiting(self) -> Dict[str, List[int]]:
        """Those who wait at the same, by what that is."""
        waiting: Dict[str, List[int]] = {}
        for index in range(self.answer.waits.number):
            waiting.setdefault(self.answer.what(index), []).append(index)
        return waiting

    def takers(self, index: int) -> List[List[int]]:
        """Returns who may get a thing first that one waits for: each who waits there for an item, or one after another
        all who wait for a lock."""
        there = self.waiting[self.answer.what(index)]
        hows = {wakers.how for part in self.answer.process(index).parts for wakers in part}
        return [[index]] if "called" in hows else [there] if "owns" in hows else [[other] for other in there]

    def lets_go_on(self, some: Iterable[int], members: Sequence[int]) -> bool:
        """Whether all members of a root surely go on once some do."""
        processes, names = self.answer.waits.processes, {self.answer.process(index).name for index in some}
        left = [index for index in members if processes[index].name not in names]
        while left:
            freed = [index for index in left if all(any(
                wakers.how in SURE and not names.isdisjoint(wakers.names()) for wakers in part)
                for part in processes[index].parts)]
            if not freed:
                return False
            names.update(processes[index].name for index in freed)
            left = [index for index in left if index not in freed]
        return True

    def least(self) -> List[Cure]:
        """Returns few cures that break all roots."""
        cures = [cure for cure in self.of if cure.is_all]
        alone = [cure for cure in self.of if not cure.is_all]
        left = {cure.roots[0] for cure in alone}
        roots_of: Dict[str, List[int]] = {}
        for cure in alone:
            for unit in cure.units:
                roots_of.setdefault(unit, []).append(cure.roots[0])
        for unit in fewest([cure.units for cure in alone]):
            roots = [number for number in roots_of[unit] if number in left]
            units = dict.fromkeys(other for number in roots for other in self.of[number].units)
            alike = [other for other in units if [number for number in roots_of[other] if number in left] == roots]
            cures.append(Cure(sorted(alike, key=self.rank), roots))
            left.difference_update(roots)
        return sorted(cures, key=lambda cure: cure.roots)


def pid_of(process: Process) -> str:
    return process.thread.partition("/")[0]


def fewest(sets: List[List[str]]) -> List[str]:
    """Returns few words that have one of each set: each next one is in most of those that are left."""
    places: Dict[str, List[int]] = {}
    for number, words in enumerate(sets):
        for word in words:
            places.setdefault(word, []).append(number)
    chosen: List[str] = []
    left = set(range(len(sets)))
    queue = [(-len(numbers), order, word) for order, (word, numbers) in enumerate(places.items())]
    heapify(queue)
    while left:
        known, order, word = heappop(queue)
        number = -len(left.intersection(places[word]))
        if number == known:
            chosen.append(word)
            left.difference_update(places[word])
        elif number:
            heappush(queue, (number, order, word))
    return chosen


def unit_words(this: Cures, unit: str) -> str:
    """Returns in words what is done with a unit: a command that ends it where there is one, else a restart. They are
    kept, as many roots may be broken by one unit."""
    if unit in this.words:
        return this.words[unit]
    command, called, below = this.remedies.get(unit), this.name_of_unit(unit), this.pids_below(unit)
    left = f" and {len(below) - PIDS:,} more" if below[PIDS:] else ""
    more = f", with {this.kind.has} (PID {', '.join(map(str, below[:PIDS]))}{left})" if below else ""
    again = f", which {this.kind.again} may start again" if this.kind.again else ""
    this.words[unit] = f"end {short_name(unit)}{again}: {shown(command)}" if command else f"restart {called}{more}"
    return this.words[unit]


def words_of(this: Cures, cure: Cure) -> str:
    """Returns in words what is to be restarted or ended for a cure: one step, and what would do as well."""
    if not cure.units:
        members = this.answer.roots.roots[cure.roots[0]]
        names = [short_name(this.answer.waits.processes[index].name) for index in members]
        return f"restart what has {', '.join(names[:SHOWN])}: the state doesn't say where"
    first, *others = cure.units
    if cure.is_all:
        return f"restart {' and '.join(map(this.name_of_unit, cure.units))}, as none of them alone is enough"
    told = others if len(others) == SHOWN else others[:SHOWN - 1]
    names = [short_name(unit) if unit in this.remedies else this.name_of_unit(unit) for unit in told]
    more = [f"one of {len(others) - len(told):,} more"] if len(others) > len(told) else []
    return unit_words(this, first) + (f"; if that doesn't help, {', or '.join([*names, *more])}" if names else "")
