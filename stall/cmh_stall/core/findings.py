"""What is known of a dump with both its answers, by index: the text, the JSON and the pictures are all made of this."""
from __future__ import annotations

from typing import Dict, FrozenSet, Iterable, Iterator, List, NamedTuple, Optional, Tuple

from .dump import Dump
from .files import shown
from .model import STATUSES, Headline, Sign, Strength
from .proposals import Line, Proposal, Words, lines_of, propose
from .reasons import Reason, Rests, counts_of
from .doubts import Doubt
from .rule import Decision
from .roots import Knots, Roots, count_waiters, edges_among, ends, without_hubs
from .sketch import ALL, ANY, ENDED, RUNS, UNKNOWN, Process
from .steps import way
from .stuck import Answer, Waits
from .words import first_words, with_address

# Verdicts, beside ENDED.
STUCK, LIKELY, UNDECIDED, NOT_STUCK = "stuck", "likely", "undecided", "not_stuck"
MINUTE = 60  # seconds
RUNNING, MESSAGE, COME = "runs", "message_in_transit", "all_have_come"  # why one goes on by itself


class Waiters(NamedTuple):
    """Who depends on an unknown one: how many, whether that is the whole number, and the nearest of them."""

    number: int
    is_whole: bool
    nearest: List[int]


class Verdicts:
    """Who is stuck, who is undecided, and who is neither, by both answers. `quiet` are idle ones that tell of no stall.
    """

    def __init__(self, waits: Waits, low: Answer, high: Answer) -> None:
        self.stuck = low.members()
        inside = set(self.stuck)
        self.quiet = {at for at in range(waits.number) if waits.processes[at].sign is Sign.RESTS and at not in inside}
        self.undecided = [at for at in high.members() if at not in inside and at not in self.quiet]
        self.well = [at for at in range(waits.number) if not high.inside[at] or at in self.quiet]


def is_limited_still(process: Process) -> bool:
    """Whether one is taken to continue as its wait has a limit, and stood at it in all states."""
    return process.sign in (Sign.SLEEPS, Sign.TICKS, Sign.POLLS) and bool(process.frames or process.operation)


class Findings(Verdicts):
    """The likely answer of a dump, which has what is certain too: the verdicts, the roots, and what the undecided ones
    hang on. `certain` are the verdicts that hang on no doubt, and `likely` has those who are likely to be stuck, and
    not certain to be."""

    def __init__(self, dump: Dump) -> None:
        self.original, self.dump = dump, dump.likely
        super().__init__(self.dump.waits, self.dump.low, self.dump.high)
        self.waits, self.low, self.high = self.dump.waits, self.dump.low, self.dump.high
        self.certain = self if self.dump is dump else Verdicts(dump.waits, dump.low, dump.high)
        self.headline = dump.waits.decision.headline
        self.likely = {*self.stuck}.difference(self.certain.stuck)
        self.open = set(self.undecided)
        self.ended = [at for at in range(self.waits.number) if self.waits.kinds[at] == ENDED]
        self.doubted = [set(doubt.waits) for doubt in dump.doubts]
        self.known_doubts: Dict[FrozenSet[int], List[Doubt]] = {}  # by the members of roots
        knots = Knots(self.waits, self.stuck, {*self.certain.stuck}) if self.certain.stuck else self.dump.knots
        self.roots = Roots(knots, lambda members: len(self.doubts_of(members)))
        self.rests = Rests(self.dump.sketch)
        self.left_over = self.waits.stuck_without(self.roots.root_of) if self.stuck else []

    # The whole

    def status(self) -> int:
        return STATUSES[self.headline]

    def reasons(self) -> List[Reason]:
        """Returns the reasons on which any process rests."""
        return [self.rests.reason(*row) for row in counts_of(self.waits.processes).items()]

    def runners(self) -> List[int]:
        """Returns those that aren't stuck and wait for nobody, idle ones too."""
        return [at for at in self.well if self.waits.kinds[at] == RUNS or at in self.quiet]

    # Doubts

    def is_certain(self, number: int) -> bool:
        """Whether a root hangs on no doubt."""
        return self.likely.isdisjoint(self.roots.roots[number])

    def doubts_of(self, members: Iterable[int]) -> List[Doubt]:
        """Returns the doubts on which it hangs that some are stuck, sought once for each root."""
        key = frozenset(members if self.original.doubts else ())
        if key not in self.known_doubts:
            likely = self.original.likely_answer().likely
            names = likely.with_hinges(self.waits.processes[index].name for index in key)
            self.known_doubts[key] = [doubt for doubt, waits in zip(self.original.doubts, self.doubted)
                                      if not waits.isdisjoint(names)]
        return self.known_doubts[key]

    # One process

    def process(self, at: int) -> Process:
        return self.waits.processes[at]

    def processes(self, some: List[int]) -> List[Process]:
        return [self.waits.processes[at] for at in some]

    def verdict(self, at: int) -> str:
        if at in self.roots.above:
            return LIKELY if at in self.likely else STUCK
        if self.waits.kinds[at] == ENDED:
            return ENDED
        return UNDECIDED if at in self.open else NOT_STUCK

    def place(self, at: int) -> str:
        """Returns what is known of its place: the note, or else its topmost frame with the operation."""
        process = self.waits.processes[at]
        return process.note or " ".join(filter(None, [*process.frames[:1], process.operation]))

    def what(self, at: int, has_address: bool = True) -> str:
        """Returns at what one waits."""
        process = self.waits.processes[at]
        what = shown(first_words(process.note or process.operation))
        return with_address(what, process.objects if has_address else ())

    def goes_on(self, at: int) -> Optional[str]:
        """Returns why one goes on by itself, if it does whatever unknown ones do."""
        if not self.waits.is_awake(at):
            return None
        return {ANY: MESSAGE, ALL: COME}.get(self.waits.kinds[at], RUNNING)

    def chain(self, at: int) -> List[int]:
        """Returns the way from one process to what its answer rests on: one of its root, an unknown one, or one who
        goes on by itself."""
        if at in self.roots.above:
            return self.roots.chain(at)
        if at in self.open:
            found = way(edges_among(self.waits, self.undecided), at,
                        {it for it in self.undecided if self.waits.kinds[it] == UNKNOWN})
            return without_hubs(self.waits, found)
        chain = [at]
        cause = None if self.waits.kinds[at] == ENDED else self.high.cause[at]
        while cause is not None:
            chain.append(cause)
            cause = self.high.cause[cause]
        return chain

    # Roots

    def cycle(self, number: int) -> List[int]:
        """Returns the members of a root in the order in which each waits for the next, if it is just one cycle of
        several: each waits for one member alone."""
        members, edges = self.roots.roots[number], self.roots.edges
        inside = set(members)
        is_cycle = len(members) > 1 and all(inside.intersection(self.waits.without_hubs(edges[at])) == {other}
                                            for at, other in zip(members, [*members[1:], members[0]]))
        return members if is_cycle else []

    def sites(self, members: List[int]) -> Tuple[List[str], bool]:
        """Returns the sites of some, and whether some have none."""
        found = dict.fromkeys(self.waits.processes[at].site for at in members)
        return [site for site in found if site is not None], None in found

    # Who is undecided, and who isn't stuck

    def unknown_ones(self, most: int) -> Iterator[Tuple[int, Waiters]]:
        """Yields the unknown ones that others hang on, with at most `most` of these. The first has most."""
        yield from self.with_waiters([at for at in self.undecided if self.waits.kinds[at] == UNKNOWN], most)

    def idle_ones(self, most: int) -> Iterator[Tuple[int, Waiters]]:
        """Yields those who have nothing to do and whose act undecided ones need, with at most `most` of these."""
        needed = {name for at in self.undecided for part in self.process(at).parts for wakers in part
                  if wakers.strength is Strength.NAMED for name in wakers.names()}
        starts = [at for at in sorted(self.quiet) if self.process(at).name in needed]
        yield from ((at, others) for at, others in self.with_waiters(starts, most) if others.number)

    def with_waiters(self, starts: List[int], most: int) -> Iterator[Tuple[int, Waiters]]:
        counts = count_waiters(self.waits, self.open, starts, most)
        for at in sorted(starts, key=lambda at: -counts[at][0]):
            yield at, Waiters(*counts[at])

    def proposals(self) -> List[Proposal]:
        """Returns the facts that would decide the undecided ones."""
        return propose(self.waits, {self.waits.processes[at].name for at in self.quiet})

    def ends(self) -> Dict[int, int]:
        """Returns for each that isn't stuck and waits, the one who may unblock it in the end."""
        found = ends(self.high)
        return {at: end for at, end in found.items() if at != end}

    def lines_on_limits(self) -> List[Line]:
        """Returns the lines of facts that would decide those that stood with a limit at the same place in all states,
        with these."""
        some = [it for it in self.processes(self.runners()) if is_limited_still(it)]
        return lines_of(some, Words(self.waits.processes)) if some else []


def is_hidden_by_sleepers(dump: Dump) -> bool:
    """Whether some would be likely to be stuck if those who sleep were seen to come back to their loops, as a look of a
    minute would show."""
    times = dump.sketch.times
    if dump.waits.decision.headline is not Headline.NOT_KNOWN or times and times[-1][0] - times[0][1] >= MINUTE:
        return False
    subjects = [subject._replace(sign=Sign.TICKS) if subject.sign is Sign.SLEEPS else subject
                for subject in dump.waits.subjects]
    return bool(Decision(subjects).likely)
