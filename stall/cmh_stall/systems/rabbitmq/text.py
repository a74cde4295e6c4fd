"""The lists that rabbitmqctl prints of a broker, and what its recipe prints beside them, as text. What no broker takes
isn't as rabbitmqctl prints it: the state is refused."""
from __future__ import annotations

import contextlib
import json
import re
from typing import Any, Dict, Iterator, List, Tuple

from ...core.files import Refusal, shown
from ...core.sketch import quote, read_json
from .. import State
from ..base import COUNT, misfits
from .routes import EXCHANGE, KEY, table_of

Raw = Dict[str, Any]  # the lists of one time, by their names
NEEDED = ("list_connections", "list_channels", "list_consumers", "list_queues", "list_bindings")
HEADING = re.compile(r"^# (?:rabbitmqctl (\w+)|(clients|server|taken|tables)$).*\n", re.M)
# Rows of a name, a type and a value.
TABLE = [([str, re.compile("longstr"), str], [str, re.compile("bool"), bool],
          [str, re.compile("(un)?signedint|(unsigned)?(short|byte)|long"), int],
          [str, re.compile("table|array|float|double|decimal|timestamp|void|binary"), object])]
ARGUMENTS = (TABLE, re.compile(""))
NUMBER = (COUNT, re.compile(""))  # nothing where the queue is down
CHANNEL = re.compile(r"#PID<\d+\.\d+\.\d+>")
NUMBERS = re.compile(r"\d{1,9}")
FEW = 1 << 15  # as many processes any Erlang has before it gives a number again
STATISTICS = re.compile("none|coarse|fine")  # how much the broker counts
SHAPES = {
    "list_connections": [object],
    "list_channels": [{"pid": str, "connection": str, "messages_unacknowledged": COUNT, ...: object}],
    "list_consumers": [{"queue_name": str, "channel_pid": str, "ack_required": bool, "active?": bool, ...: object}],
    "list_queues": [{"name": str, "messages_ready": NUMBER, "messages_unacknowledged": NUMBER, "arguments": ARGUMENTS,
                     "policy?": str, ...: object}],
    "list_bindings": [{"source_name": str, "routing_key": str, "destination_name": str,
                       "destination_kind?": re.compile("queue|exchange"), ...: object}],
    "list_exchanges": [{"name": str, "type": str, "arguments?": ARGUMENTS, ...: object}],
    "list_policies": [{"name": str, "definition": (str, {str: object}), ...: object}],
    "eval": ([], {"value": {"statistics": STATISTICS,
                            "published": [{"channel": CHANNEL, "queue": str, "number": COUNT}],
                            "taken?": [{"channel": CHANNEL, "number": COUNT}]}, ...: object}),
    "server": ([], {"value": {"plugins": [str], "connections": [{"pid": str, "vhost": str, "timeout": int}],
                              "channels": [{"pid": str, "messages_unconfirmed": COUNT}]}, ...: object}),
    "taken": ([], {"began": float, "ended": float, "space": str}),
    "clients": [{"connection": str, "process": int, "end?": str, "is_deaf?": bool, "waiters?": [int], "as?": str,
                 "threads?": [{"tid": int, "state": str, "call?": str, "at?": str, "count?": int, "limit?": object}]}],
}
# What each row of a list has alone, also of those within another one.
KEYS: Dict[str, Tuple[str, ...]] = {
    "list_channels": ("pid",), "list_queues": ("name",), "list_exchanges": ("name",), "list_policies": ("name",),
    "clients": ("connection",), "server.connections": ("pid",), "server.channels": ("pid",)}


def lists_of(state: State) -> List[Raw]:
    """Returns the lists of each time. Raises Refusal if one isn't whole."""
    heads = list(HEADING.finditer(state.text))
    ends = [head.start() for head in heads[1:]] + [len(state.text)]
    lists = [(head[1] or head[2], "\n" * state.text.count("\n", 0, head.end()) + state.text[head.end():end])
             for head, end in zip(heads, ends)]  # (each in its own lines of the text)
    lists = [row for name, text in lists for row in (
        tables_of(text, state.path) if name == "tables" else [(name, text)])]
    starts = [number for number, (name, _) in enumerate(lists) if name == NEEDED[0]]
    if not starts:
        raise Refusal(f"{shown(state.path)}: no line begins with '# rabbitmqctl {NEEDED[0]}'")
    ends = [*starts[1:], len(lists)]
    return [raw_of(state.path, lists[start:end]) for start, end in zip(starts, ends)]


def tables_of(text: str, path: str) -> List[Tuple[str, str]]:
    """Returns the lists of what was asked at once, the connections first, as they begin a reading."""
    tree = read_json(text, path)
    tables = tree.get("value") if isinstance(tree, dict) else None
    if not isinstance(tables, dict) or NEEDED[0] not in tables:
        raise Refusal(f"{shown(path)}: what is below '# tables' isn't as rabbitmqctl prints it")
    return [(name, json.dumps(tables[name])) for name in SHAPES if name in tables]


def raw_of(path: str, lists: List[Tuple[str, str]]) -> Raw:
    where = shown(path)
    raw: Raw = {name: read_json(text, path) for name, text in lists}
    if len(raw) < len(lists):
        raise Refusal(f"{where}: a list stands twice")
    other = next((name for name in raw if name not in SHAPES), None)
    if other is not None:
        raise Refusal(f"{where}: a line begins with '# rabbitmqctl {other}', which isn't known, or is cut off")
    for part in (*NEEDED, *(["eval"] if "server" in raw else [])):
        if part not in raw:
            raise Refusal(f"{where}: no line begins with '# rabbitmqctl {part}'")
    for part, shape in SHAPES.items():
        odd = next(misfits(raw.setdefault(part, []), shape), None)
        if odd is not None:
            raise Refusal(f"{where}, {part}: {quote(odd[1:] or 'the list')} isn't as rabbitmqctl prints it; rows count "
                          "from 0. Take the state again, or leave that row out by hand")
    add_threads(raw["clients"], where)
    for row in raw["list_policies"]:
        row["definition"] = definition_of(row, f"{where}, list_policies: policy {shown(row['name'])}")
    odd = next(faults_of(raw), None)
    if odd is not None:
        raise Refusal(f"{where}, {odd}. Take the state again")
    return raw


def add_threads(rows: List[Dict[str, Any]], where: str) -> None:
    """Gives each connection what the threads of its process do, which stands at the first one: a list that these share.
    """
    first = {row["connection"]: row for row in rows if "threads" in row}
    for row in rows:
        other = first.get(row.get("as", row["connection"]))
        if other is None or other["process"] != row["process"]:
            raise Refusal(f"{where}, clients: what the client of {shown(row['connection'])} does isn't there. Take the "
                          "state again")
        row["threads"] = other["threads"]


def faults_of(raw: Raw) -> Iterator[str]:
    """Yields what no broker prints: rows of a list that haven't all its columns, a policy that isn't listed, and what
    the broker takes from nobody."""
    for part in SHAPES.keys() - {"list_connections"}:
        rows = raw[part] if part.startswith("list_") else []
        if len({frozenset(row) for row in rows}) > 1:
            yield f"{part}: a row lacks a column that another one has"
    for part, keys in KEYS.items():
        rows = rows_in(raw, part)
        if len({tuple(row[key] for key in keys) for row in rows}) < len(rows):
            yield f"{part}: a row stands twice"
    early = next((row for row in raw["list_channels"] if is_older(row["pid"], row["connection"])), None)
    if early is not None:
        yield f"list_channels: channel {shown(early['pid'])} is older than its connection, or of another broker"
    yield from faults_of_policies(raw)
    yield from faults_of_keys(raw)


def faults_of_policies(raw: Raw) -> Iterator[str]:
    """Yields which queues have a policy that isn't listed, or lack one that is for them."""
    policies = ["", *(row["name"] for row in raw["list_policies"])]
    for row in raw["list_queues"]:
        if row.get("policy", None if raw["list_policies"] else "") not in policies:
            yield f"list_policies: it lacks {quote(str(row.get('policy')))}, which queue {shown(row['name'])} has"
        missed = next((it for it in raw["list_policies"] if row.get("policy") == "" and is_for(it, row["name"])), None)
        if missed is not None:
            yield f"list_queues: queue {shown(row['name'])} lacks policy {shown(missed['name'])}, which is for its name"


def faults_of_keys(raw: Raw) -> Iterator[str]:
    """Yields bindings of the default exchange that it can't have, and queues with a key for nowhere."""
    for row in raw["list_bindings"]:
        name = str(row["destination_name"])
        if row["source_name"] == "" and (row["routing_key"] != name or row.get("destination_kind", "queue") != "queue"):
            yield f"list_bindings: the default exchange takes to {quote(name)} what isn't of its name"
    for row in raw["list_queues"]:
        arguments = table_of(row["arguments"])
        if KEY in arguments and EXCHANGE not in arguments:
            yield f"list_queues: queue {quote(str(row['name']))} has a key for dead messages, and no exchange for them"


def is_older(channel: str, connection: str) -> bool:
    """Whether a process of the broker began before another one, or runs in another one, by their numbers: these grow
    until all have been given."""
    numbers = [[int(number) for number in NUMBERS.findall(pid)] for pid in (channel, connection)]
    if not all(len(three) == 3 and three[1] < FEW and not three[2] for three in numbers):
        return False
    return numbers[0][0] != numbers[1][0] or numbers[0][1] < numbers[1][1]


def is_for(policy: Dict[str, Any], queue: str) -> bool:
    """Whether a policy is for queues of any kind with such a name, as far as its pattern is understood."""
    with contextlib.suppress(re.error):
        return policy.get("apply-to") in ("all", "queues") and re.search(str(policy.get("pattern")), queue) is not None
    return False


def rows_in(raw: Raw, part: str) -> List[Dict[str, Any]]:
    """Returns the rows of a list, or of one within another."""
    name, _, inner = part.partition(".")
    rows: List[Dict[str, Any]] = raw[name] if not inner else raw[name]["value"].get(inner, []) if raw[name] else []
    return rows


def definition_of(row: Dict[str, Any], where: str) -> Dict[str, Any]:
    """Returns what a policy sets. Raises Refusal if it isn't an object, or the text of one, or sets nothing, which the
    broker doesn't take."""
    definition: Any = row["definition"]
    tree = read_json(definition, where) if isinstance(definition, str) else definition
    if not isinstance(tree, dict) or not tree:
        raise Refusal(f"{where}: its definition is no object, or an empty one")
    return tree
