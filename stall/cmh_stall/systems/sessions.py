"""What the parsers of databases share: the sessions of a server wait for each other and for their clients, and limits
break waits off. What a limit is called stands among the processes, so that an answer can name it as a doubt."""
from __future__ import annotations

from dataclasses import dataclass, field
from typing import Any, Callable, Dict, Iterable, Iterator, List, NamedTuple, Optional, Sequence, Tuple, Type, TypeVar

from ..core.files import Refusal, shown
from ..core.model import Part, Sign, wakers
from ..core.sketch import LIMIT, OF_SERVER, Sketch, goes_on, premise
from ..core.times import in_words
from .base import misfits, row_in

Row = Dict[str, Any]
SLACK = 2.0  # seconds by which a wait may outlast its limit, until that is carried out
APART = 10.0  # seconds by which two clocks may differ in what passes between looks, as one of a busy machine
OWN_LIMITS = "session-limits"  # stands for limits that sessions have set for themselves


@dataclass(eq=False)
class ServerLook:
    """One look at a server: its rows by their kinds, and where its text was read."""

    path: str
    rows: Dict[str, List[Row]] = field(default_factory=dict)

    @property
    def head(self) -> Row:
        return self.rows["look"][0]

    def of(self, kind: str) -> List[Row]:
        return self.rows.get(kind, [])

    def takes(self, line: str) -> bool:
        """Whether it keeps a line that isn't the server's."""
        return False

    def add(self, kind: str, row: Row, where: str) -> None:
        self.rows.setdefault(kind, []).append(row)

    def check(self) -> None:
        """Raises Refusal if it isn't whole, or has a row twice."""

    def check_count(self, is_whole: bool) -> None:
        if not is_whole:
            raise Refusal(f"{shown(self.path)}: a look isn't whole: its count of rows doesn't fit")

    def check_once(self, keys: Dict[str, Tuple[str, ...]]) -> None:
        """Raises Refusal if two rows of a kind have the same keys."""
        for kind, words in keys.items():
            names = [tuple(row[word] for word in words) for row in self.of(kind)]
            if len(set(names)) != len(names):
                raise Refusal(f"{shown(self.path)}: a row of {kind} stands twice in a look")


AnyLook = TypeVar("AnyLook", bound=ServerLook)


class Lines(NamedTuple):
    """The lines of JSON that a recipe prints: what each begins with, what they are, the shape of each kind of row, the
    kind of which a row is kept that isn't as it should be, as 'odd', and the kind of the last row of a look."""

    mark: str
    expected: str
    shapes: Dict[str, Row]
    kept: str
    last: str

    def looks(self, text: str, path: str, look: Type[AnyLook]) -> List[AnyLook]:
        """Returns the looks of a state. Raises Refusal if it is none, or isn't whole."""
        looks: List[AnyLook] = []
        for number, line in enumerate(text.replace("\r\n", "\n").split("\n"), 1):
            if not line.strip() or looks and looks[-1].takes(line):
                continue
            where = f"{shown(path)}:{number}"
            kind, row = self.row(line, where)
            if kind == "look":
                looks.append(look(path))
            if not looks or kind != "look" and self.last in looks[-1].rows:
                raise Refusal(f"{where}: {self.expected}, and a look begins with its time")
            looks[-1].add(kind, row, where)
        if not looks:
            raise Refusal(f"{shown(path)}:1: {self.expected}")
        for one in looks:
            one.check()
        return looks

    def row(self, line: str, where: str) -> Tuple[str, Row]:
        """Returns the kind of a line and its row."""
        row = row_in(line, self.mark)
        kind = next((kind for kind in self.shapes if kind in row), "") if row is not None else ""
        if row is None or not kind:
            raise Refusal(f"{where}: {self.expected}, and this line isn't one, is cut off, or has a key twice")
        odd = next(misfits(row, self.shapes[kind]), "")
        if odd and (kind != self.kept or odd == f".{self.kept}"):
            raise Refusal(f"{where}: {self.expected}, and in this line {shown(odd[1:])} isn't as these have it")
        return kind, {**row, "odd": odd[1:]} if odd else row


class Lasting(NamedTuple):
    """What tells whether rows of two looks are of one session, or of one transaction: keys that are the `same` as long
    as it lives, those of what `begins` anew at a later time, those of what also `ends`, `numbers`, of which a new one
    is higher than all before, and those that stay until one of what begins has `changed`."""

    kind: str
    same: Tuple[str, ...] = ()
    begins: Tuple[str, ...] = ()
    ends: Tuple[str, ...] = ()
    numbers: Tuple[str, ...] = ()
    changed: Tuple[str, ...] = ()

    def contradictions(self, looks: Sequence[ServerLook], times: Sequence[float],
                       seconds: Callable[[str], float]) -> Iterator[Tuple[Row, Row, str]]:
        """Yields each two rows of looks that can't be of one, with the key that says so. `times` are those of the
        looks, and `seconds` reads one of a row."""
        for before, look, begun, end in zip(looks, looks[1:], times, times[1:]):
            rows = {row[self.kind]: row for row in before.of(self.kind)}
            least = {key: max((row.get(key) or 0 for row in rows.values()), default=0) for key in self.numbers}
            pairs = [(rows[row[self.kind]], row) for row in look.of(self.kind) if row[self.kind] in rows]
            keys = (*self.same, *self.begins, *self.ends, *self.numbers)
            yield from ((*pair, key) for pair in pairs for key in keys if pair[0].get(key) != pair[1].get(key)
                        and not self.may_be_new(key, pair[1].get(key), least.get(key, 0), begun, end, seconds))
            yield from ((*pair, key) for pair in pairs for key in self.changed if pair[0].get(key) != pair[1].get(key)
                        and all(pair[0].get(begun) == pair[1].get(begun) for begun in self.begins))

    def doubt_rows(self, looks: Sequence[ServerLook], times: Sequence[float], seconds: Callable[[str], float]) -> None:
        """Marks as odd what can't be of one session."""
        for before, row, key in self.contradictions(looks, times, seconds):
            before["odd"] = row["odd"] = key

    def may_be_new(self, key: str, value: Any, least: int, begun: float, end: float,
                   seconds: Callable[[str], float]) -> bool:
        """Whether a value of a look may have come since the one before."""
        if value is None:
            return key in (*self.ends, *self.numbers)
        if key in (*self.begins, *self.ends):
            return begun <= seconds(value) <= end + SLACK
        return key in self.numbers and value > least


def check_server(path: str, servers: Iterable[Tuple[Any, ...]]) -> None:
    """Raises Refusal if looks are of several servers, by what tells one from others."""
    if len(set(servers)) > 1:
        raise Refusal(f"{shown(path)}: its looks are of several servers, or of one that was begun anew: looks at one "
                      "are expected")


def check_times(path: str, times: Sequence[float], taken: Sequence[float]) -> None:
    """Raises Refusal unless looks are in the order of time, by the clock of the server and by that of who looked."""
    for time, later, before, after in zip(times, times[1:], taken, taken[1:]):
        if not (time < later and before < after and abs(later - time - after + before) < APART):
            raise Refusal(f"{shown(path)}: its looks aren't in the order of time, or two clocks contradict each other")


def names_in(looks: Sequence[ServerLook], kind: str, name: Callable[[Row], str]) -> Dict[int, str]:
    """Returns what each session is called in all looks: as in the first one that has its row as it should be."""
    rows = sorted((row for look in looks for row in look.of(kind)), key=lambda row: "odd" in row)
    return {row[kind]: name(row) for row in reversed(rows)}


def doubt_newcomers(looks: Sequence[AnyLook], kind: str, may_be_new: Callable[[Row, AnyLook], bool]) -> None:
    """Marks as odd the sessions that came between two looks and were there before, as their rows say; and with them
    those that aren't there any more, one of which each may be."""
    for before, look in zip(looks, looks[1:]):
        there, later = ({row[kind] for row in one.of(kind)} for one in (before, look))
        odd = [row for row in look.of(kind) if row[kind] not in there and not may_be_new(row, before)]
        gone = [row for row in before.of(kind) if row[kind] not in later] if odd else []
        for row in (*odd, *gone):
            row["odd"] = row.get("odd", kind)


class SessionLimits:
    """What breaks waits off by itself, by the names that it has among the processes: with when it comes, as of the last
    look. A wait has the same ones in all looks."""

    def __init__(self) -> None:
        self.names: Dict[Tuple[str, int], str] = {}  # by what a limit is called, and the session

    def name(self, what: str, session: int, left: float) -> str:
        """Returns the name of a limit that comes in some seconds, for a session."""
        return self.names.setdefault((what, session), f"{what} in {in_words(max(left, 0))}")

    def add_to(self, sketch: Sketch) -> None:
        """Adds those limits that stand among the wakers of somebody."""
        wanted = {name for process in sketch.processes for part in process.parts for group in part
                  for name in group.names()}
        names = dict.fromkeys(name for name in self.names.values() if name in wanted)
        sketch.processes += [goes_on(name, OF_SERVER, [premise(LIMIT)], Sign.SLEEPS, frames=[name]) for name in names]
        if OWN_LIMITS in wanted:
            sketch.processes.append(goes_on(OWN_LIMITS, OF_SERVER, [premise(OWN_LIMITS)], Sign.SLEEPS,
                                            frames=[OWN_LIMITS]))


def with_limits(parts: List[Part], limits: Part) -> List[Part]:
    """Returns the parts of a wait that limits break off too: those in force, and one that the session may have set for
    itself, as by SET lock_timeout."""
    return [(*part, *limits, wakers("own-limit", [OWN_LIMITS])) for part in parts]


def end_of_socket(address: Optional[str], port: Optional[int]) -> str:
    """Returns an end of a connection as the kernel writes it, or nothing where that isn't known."""
    if not address or not port or port < 0:
        return ""
    return f"[{address}]:{port}" if ":" in address else f"{address}:{port}"


def client_words(end: str) -> str:
    """Returns in words that a client isn't in the state, which has an end of a connection, and what shows it."""
    return f"its client{f' at {end}' if end else ''} wasn't looked at: use --with"


def connections_of(processes: Dict[str, List[str]]) -> Dict[str, Dict[str, List[str]]]:
    """Returns what a sketch has of connections: by the key of each, the session that serves it."""
    return {key: {"serves": [name]} for name, keys in processes.items() for key in keys}
