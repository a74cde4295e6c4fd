#!/usr/bin/env python3
"""A second implementation of cmh, to compare the program with.

usage: tests/reference.py WORDS.. < DUMP

It is written from docs/FORMATS.md and docs/MODEL.md alone, so that a mistake of the program isn't repeated here. It
finds all verdicts at once in the graph, and sends queries and replies for a trace alone. What clap writes, such as help
and why it refuses a word, isn't known here: `answer` gives status 2 for such words, and None for the text.
"""
from __future__ import annotations

import json
import math
import re
import sys
from collections import deque, namedtuple

LONGEST = 8_388_608
MOST_SITES = MOST_PROCESSES = MOST_IN_TRANSIT = 4_096
MOST_DEPENDENTS = MOST_NUMBERS = 65_536
MOST_CUTS = 512
MOST_WORKERS = 64
DEEPEST = 127
PAST_LARGEST = 2**64
FREE, REFUSED, MISUSED, DEADLOCKED = range(4)

NAME = re.compile(r"[A-Za-z0-9][A-Za-z0-9_.:/-]{0,63}")
DIGITS = re.compile(r"[0-9]+")
STRING = re.compile(r'"[^"\\]*(?:\\.[^"\\]*)*"', re.DOTALL)
# A pair of surrogates, a surrogate that is left alone, or any other escape.
ESCAPE = re.compile(
    r"\\u[dD][89abAB][0-9a-fA-F]{2}\\u[dD][c-fC-F][0-9a-fA-F]{2}|\\u([dD][89a-fA-F][0-9a-fA-F]{2})|\\.", re.DOTALL
)

# Processes are numbers from 0 in the order of the dump, and `dependents` has those numbers.
Graph = namedtuple("Graph", "names sites idle awake dependents")
Group = namedtuple("Group", "leader core reached")


class Refusal(Exception):
    """Why nothing is computed: a status and the text of a fault, or None for a text that clap writes."""


# The words of the command line.


def is_text(word):
    """Whether a word is UTF-8: Python reads any other byte of it as a surrogate."""
    return not any("\ud800" <= sign <= "\udfff" for sign in word)


def split_words(words, allowed):
    """Returns the value of each option, and the other words."""
    values, others, rest = {}, [], iter(words)
    for word in rest:
        option, sign, value = word.partition("=")
        if not word.startswith("-"):
            others.append(word)
            continue
        value = value if sign else next(rest, "-")
        if option not in allowed or option in values or not sign and value.startswith("-"):
            raise Refusal(MISUSED, None)
        values[option] = value
    return values, others


def check_workers(text):
    if not DIGITS.fullmatch(text) or not 1 <= int(text) <= MOST_WORKERS:
        raise Refusal(MISUSED, None)


def read_number(item):
    """Returns the value of an item, or None where it is no number or too large."""
    if not DIGITS.fullmatch(item):
        return None
    digits = item.lstrip("0") or "0"
    return int(digits) if len(digits) <= 20 and int(digits) < PAST_LARGEST else None


def read_list(what, text):
    """Returns the numbers of a comma-separated list."""
    items = text.split(",") if text else []
    numbers = [read_number(item) for item in items[:MOST_NUMBERS]]
    if None in numbers:
        raise Refusal(MISUSED, f"{what}: bad number {numbers.index(None)}")
    if len(items) > MOST_NUMBERS:
        raise Refusal(MISUSED, f"{what}: too many numbers")
    return numbers


# The JSON text.


def refuse_constant(text):
    """Refuses NaN and the infinities, which Python reads and JSON doesn't have."""
    raise ValueError(text)


def read_real(text):
    value = float(text)
    if math.isinf(value):
        raise ValueError("a number that is out of range")
    return value


def read_integer(text):
    """Reads a long integer as a real number, which no key wants but which has to be in range."""
    return int(text) if len(text) <= 20 else read_real(text)


def is_too_deep(text):
    """Whether arrays and objects nest too deep. Python's reader would end in a recursion error, at another depth."""
    depth = 0
    for sign in re.findall(r"[\[\]{}]", STRING.sub("", text)):
        depth += 1 if sign in "[{" else -1
        if depth > DEEPEST:
            return True
    return False


def has_lone_surrogate(text):
    return any(found[1] for found in ESCAPE.finditer(text))


def read_tree(data):
    if len(data) > LONGEST:
        raise Refusal(REFUSED, "dump: too long")
    try:
        text = data.decode("utf-8")
        if is_too_deep(text) or has_lone_surrogate(text):
            raise ValueError("a text that Python alone would read")
        return json.loads(text, parse_int=read_integer, parse_float=read_real, parse_constant=refuse_constant)
    except ValueError:
        raise Refusal(REFUSED, "dump: not JSON") from None


# The dump.


def is_name(value):
    return type(value) is str and NAME.fullmatch(value) is not None


def is_version(value, wanted):
    """Whether a value is this integer: neither true nor 1.0 is 1."""
    return type(value) is int and value == wanted


def is_process(value):
    required = {"name", "site", "state"}
    if type(value) is not dict or not required <= set(value) <= required | {"dependents"}:
        return False
    if not is_name(value["name"]) or not is_name(value["site"]) or value["state"] not in ("active", "idle"):
        return False
    dependents = value.get("dependents", [] if value["state"] == "active" else None)
    return type(dependents) is list and all(is_name(name) for name in dependents)


def is_pair_of_texts(value):
    return type(value) is list and len(value) == 2 and all(type(name) is str for name in value)


def repetitions(names):
    """Yields of each name whether it equals an earlier one."""
    seen = set()
    for name in names:
        yield name in seen
        seen.add(name)


def refuse(text, is_so):
    """Refuses the dump where this is so."""
    if is_so:
        raise Refusal(REFUSED, f"dump: {text}")


def refuse_first(text, findings):
    """Refuses the dump where one of the findings, in the order of their places, is so."""
    for place, is_so in enumerate(findings):
        refuse(f"{text} {place}", is_so)


def refuse_first_pair(text, rows):
    for place, findings in enumerate(rows):
        refuse_first(f"{text} {place}", findings)


def check_top(top):
    refuse("bad top", type(top) is not dict)
    arrays = {"sites", "processes"} | ({"in_transit"} if is_version(top.get("version"), 2) else set())
    refuse("bad top", set(top) != arrays | {"version"} or any(type(top[key]) is not list for key in arrays))
    refuse("bad version", not any(is_version(top["version"], wanted) for wanted in (1, 2)))


def check_sites(sites):
    refuse_first("bad site", (not is_name(site) for site in sites))
    refuse_first("repeated site", repetitions(sites))
    refuse("too many sites", len(sites) > MOST_SITES)


def check_processes(processes, sites):
    refuse("too many processes", len(processes) > MOST_PROCESSES)
    refuse_first("bad process", (not is_process(one) for one in processes))
    refuse_first("repeated process", repetitions(one["name"] for one in processes))
    refuse_first("unknown site", (one["site"] not in sites for one in processes))
    names = {one["name"] for one in processes}
    dependents = [one.get("dependents", []) for one in processes]
    refuse_first_pair("unknown dependent", ((name not in names for name in row) for row in dependents))
    refuse_first_pair("repeated dependent", (repetitions(row) for row in dependents))
    actives = (one["state"] == "active" for one in processes)
    refuse_first("active with dependents", (active and row for active, row in zip(actives, dependents)))
    refuse("too many dependencies", sum(map(len, dependents)) > MOST_DEPENDENTS)


def check_in_transit(messages, names):
    refuse("too many in transit", len(messages) > MOST_IN_TRANSIT)
    refuse_first("bad in transit", (not is_pair_of_texts(message) for message in messages))
    refuse_first("unknown in transit", (not names.issuperset(message) for message in messages))


def read_graph(data):
    top = read_tree(data)
    check_top(top)
    check_sites(top["sites"])
    check_processes(top["processes"], set(top["sites"]))
    places = {one["name"]: place for place, one in enumerate(top["processes"])}
    messages = top.get("in_transit", [])
    check_in_transit(messages, set(places))
    idle = [one["state"] == "idle" for one in top["processes"]]
    dependents = [[places[name] for name in one.get("dependents", [])] for one in top["processes"]]
    awake = [not blocked for blocked in idle]
    for sender, receiver in ((places[sender], places[receiver]) for sender, receiver in messages):
        awake[receiver] = awake[receiver] or sender in dependents[receiver]
    return Graph(list(places), [one["site"] for one in top["processes"]], idle, awake, dependents)


# Verdicts, paths and groups.


def reverse(edges):
    reversed_edges = [[] for _ in edges]
    for place, targets in enumerate(edges):
        for target in targets:
            reversed_edges[target].append(place)
    return reversed_edges


def distances(graph):
    """Returns of each process how far it is to an awake one, or None, by a breadth-first search against the edges."""
    waiting = reverse(graph.dependents)
    found = [0 if awake else None for awake in graph.awake]
    queue = deque(place for place, awake in enumerate(graph.awake) if awake)
    while queue:
        place = queue.popleft()
        fresh = [other for other in waiting[place] if found[other] is None]
        for other in fresh:
            found[other] = found[place] + 1
        queue.extend(fresh)
    return found


def next_steps(graph, distance):
    """Returns of each process the least of its dependents that are one nearer to an awake one, or None."""
    return [
        min((other for other in row if distance[place] and distance[other] == distance[place] - 1), default=None)
        for place, row in enumerate(graph.dependents)
    ]


def chosen_path(steps, place):
    """Yields the processes of a path. Of the shortest ones the first in order takes the least step each time."""
    while place is not None:
        yield place
        place = steps[place]


def leaving_order(edges, start, seen):
    """Yields the unseen places that this one leads to, in the order in which a depth-first search leaves them."""
    seen.add(start)
    open_calls = [(start, iter(edges[start]))]
    while open_calls:
        place, rest = open_calls[-1]
        target = next((target for target in rest if target not in seen), None)
        if target is None:
            yield open_calls.pop()[0]
        else:
            seen.add(target)
            open_calls.append((target, iter(edges[target])))


def components(edges, places):
    """Returns the strongly connected components (Kosaraju's algorithm), each before those that it leads to."""
    seen, taken, order, backward, found = set(), set(), [], reverse(edges), []
    for place in places:
        if place not in seen:
            order.extend(leaving_order(edges, place, seen))
    # A free process may wait for these, and is in none of the components.
    taken.update(place for place in range(len(edges)) if place not in seen)
    for place in reversed(order):
        if place not in taken:
            found.append(list(leaving_order(backward, place, taken)))
    return found


def bits(mask):
    while mask:
        lowest = mask & -mask
        yield lowest.bit_length() - 1
        mask ^= lowest


def groups(graph, deadlocked):
    """Returns the groups in the order of their leaders. A set of processes is a number with a bit for each of them."""
    reached, found = [0] * len(graph.names), []
    for members in reversed(components(graph.dependents, deadlocked)):
        core = sum(1 << place for place in members)
        whole = core
        for target in {target for place in members for target in graph.dependents[place]}:
            whole |= reached[target]
        for place in members:
            reached[place] = whole
        found.append(Group(min(members), core, whole))
    return sorted(found)


def group_line(graph, number, group):
    core = " ".join(graph.names[place] for place in bits(group.core))
    rest = " ".join(graph.names[place] for place in bits(group.reached & ~group.core)) or "-"
    sites = len({graph.sites[place] for place in bits(group.reached)})
    return f"group {number} | {core} | {rest} | sites {sites}"


def report(graph):
    """Returns the lines of the report, and how many processes are deadlocked."""
    distance = distances(graph)
    steps = next_steps(graph, distance)
    found = groups(graph, [place for place, length in enumerate(distance) if length is None])
    numbers = {place: number for number, group in enumerate(found, 1) for place in bits(group.core)}
    idle = sum(graph.idle)
    lines = [f"processes {len(graph.names)} active {len(graph.names) - idle} idle {idle} deadlocked {len(numbers)}"]
    for place in (place for place, blocked in enumerate(graph.idle) if blocked):
        if place in numbers:
            lines.append(f"deadlocked {graph.names[place]} group {numbers[place]}")
        else:
            path = " ".join(graph.names[other] for other in chosen_path(steps, place))
            lines.append(f"free {graph.names[place]} path {path}")
    lines.extend(group_line(graph, number, group) for number, group in enumerate(found, 1))
    return lines, len(numbers)


# The trace.


class Computation:
    """The computation of one initiator. No earlier one has been, so a process has taken part once it has an engager."""

    def __init__(self, graph, initiator):
        self.graph, self.initiator = graph, initiator
        self.engagers, self.awaited, self.undelivered = {initiator: None}, {}, deque()
        self.has_declared = False
        if not graph.awake[initiator]:
            self.ask(initiator)

    def ask(self, process):
        self.awaited[process] = len(self.graph.dependents[process])
        self.undelivered.extend(("query", process, other) for other in self.graph.dependents[process])
        self.close_if_answered(process)

    def close_if_answered(self, process):
        if self.awaited[process] == 0 and process == self.initiator:
            self.has_declared = True
        elif self.awaited[process] == 0:
            self.undelivered.append(("reply", process, self.engagers[process]))

    def receive(self, kind, sender, receiver):
        if self.graph.awake[receiver]:
            return
        if kind == "reply":
            self.awaited[receiver] -= 1
            self.close_if_answered(receiver)
        elif receiver in self.engagers:
            self.undelivered.append(("reply", receiver, sender))
        else:
            self.engagers[receiver] = sender
            self.ask(receiver)

    def deliver(self, choice):
        """Delivers the undelivered message at the chosen place, and returns its line."""
        place = choice % len(self.undelivered)
        kind, sender, receiver = self.undelivered[place]
        del self.undelivered[place]
        self.receive(kind, sender, receiver)
        return f"{kind} {self.graph.names[sender]} {self.graph.names[receiver]}"


def trace(graph, name, choices):
    if name not in graph.names:
        raise Refusal(MISUSED, "no such process")
    initiator = graph.names.index(name)
    if not graph.idle[initiator]:
        raise Refusal(MISUSED, "trace: not idle")
    computation, rest, lines = Computation(graph, initiator), iter(choices), []
    while computation.undelivered and not computation.has_declared:
        lines.append(computation.deliver(next(rest, 0)))
    return [*lines, f"{'declared' if computation.has_declared else 'at rest'} {name}"]


# The commands.


def analyse(words, dump):
    values, others = split_words(words, ["--workers", "--cuts", "--choices"])
    if others:
        raise Refusal(MISUSED, None)
    check_workers(values.get("--workers", "4"))
    cuts = read_list("cuts", values.get("--cuts", ""))
    read_list("choices", values.get("--choices", ""))
    if len(cuts) > MOST_CUTS:
        raise Refusal(MISUSED, "plan: too many cuts")
    lines, deadlocked = report(read_graph(dump))
    return DEADLOCKED if deadlocked else FREE, lines


def trace_one(words, dump):
    values, others = split_words(words, ["--choices"])
    if len(others) != 1:
        raise Refusal(MISUSED, None)
    choices = read_list("choices", values.get("--choices", ""))
    return FREE, trace(read_graph(dump), others[0], choices)


COMMANDS = {"analyse": analyse, "trace": trace_one}


def choose_command(words):
    if any(not is_text(word) for word in words):
        raise Refusal(MISUSED, "the words of the command line are no text")
    if not words or words[0] not in COMMANDS:
        raise Refusal(MISUSED, None)
    return COMMANDS[words[0]]


def answer(words: list[str], dump: bytes) -> tuple[int, bytes, bytes | None]:
    """Returns the status, standard output and standard error of cmh; None in the place of what clap writes."""
    try:
        status, lines = choose_command(words)(words[1:], dump)
    except Refusal as refusal:
        status, text = refusal.args
        return status, b"", None if text is None else f"cmh: {text}\n".encode()
    return status, "".join(f"{line}\n" for line in lines).encode(), b""


def main():
    status, out, err = answer(sys.argv[1:], sys.stdin.buffer.read())
    sys.stdout.buffer.write(out)
    sys.stderr.buffer.write(b"(what clap writes)\n" if err is None else err)
    return status


if __name__ == "__main__":
    sys.exit(main())
