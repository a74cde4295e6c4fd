"""Who may end the wait of an asyncio task by cancelling it.

A task that is cancelled, by a limit or since another one of its group has failed, cancels in turn what it awaits. So
each such task counts among those that may end the wait. What `asyncio.wait` or `shield` awaits isn't cancelled with it,
and an outside `task.cancel()` stands in no state.

A group is that of a TaskGroup, or the tasks of a gather that ends with the first error: whoever awaits it goes on then,
and may cancel the others. All of a group share its list.
"""
from __future__ import annotations

from collections import defaultdict
from itertools import chain
from typing import Any, Callable, Dict, Iterable, List, Tuple

from ...core.model import Part, wakers
from .rows import PythonLook, PythonRow

AT_END = "asyncio.taskgroups.TaskGroup.__aexit__"  # where a task waits for its group


class Cancellers:
    """Who may cancel the tasks of a look: `groups` has, by key of a task, the names of all of each group that it is in,
    who do so once they fail, and `outer` the keys of those that do so by a limit or when they are cancelled themselves.
    """

    def __init__(self, look: PythonLook, names_of: Callable[[Iterable[Any]], List[str]]) -> None:
        self.look, self.names_of = look, names_of
        awaited = {key: awaited_by(row) for key, row in look.tasks.items()}
        self.targets: Dict[str, List[str]] = {key: targets_in(values) for key, values in awaited.items()}
        for key, sharing in sharing_futures(look, awaited).items():
            self.targets[key] += sharing
        self.groups: Dict[Any, List[List[str]]] = defaultdict(list)
        self.outer: Dict[str, Dict[str, None]] = defaultdict(dict)
        for parent, members in groups_of(look, "group").items():
            self.targets[parent] = [*self.targets.get(parent, ()), *members]
            is_within = parent in look.tasks and not stands_at_end(look.tasks[parent])
            self.add_group([*members, *([parent] if is_within else [])])
        for parent, members in groups_of(look, "gather").items():
            self.add_group(members, parent)
        self.spread()

    def add_group(self, members: List[Any], gathers: Any = None) -> None:
        """Lets each member be cancelled by another one that fails. Who gathers them goes on then, and may do so too."""
        names = self.names_of([*members, *([gathers] if gathers is not None else [])])
        for key in members if len(members) > 1 else ():
            self.groups[key].append(names)

    def spread(self) -> None:
        """Adds whoever may be cancelled to those that may cancel what it awaits."""
        ready = [row.key for row in self.look.tasks.values() if row.more["limit"] or self.groups.get(row.key)]
        seen = set(ready)
        while ready:
            key = ready.pop()
            self.outer.update({target: {**self.outer[target], key: None} for target in self.targets.get(key, ())})
            new = [target for target in self.targets.get(key, ()) if target not in seen]
            seen.update(new)
            ready += new

    def of(self, key: Any) -> Part:
        """Returns those who may cancel a task."""
        lists = [*self.groups.get(key, ()), self.names_of(self.outer.get(key, ()))]
        return tuple([wakers("cancels", names) for names in lists if names])


def groups_of(look: PythonLook, what: str) -> Dict[Any, List[Any]]:
    """Returns the tasks of each group that aren't done, by the task whose group it is."""
    groups: Dict[Any, Dict[str, None]] = defaultdict(dict)
    for row in look.tasks.values():
        if what == "gather":
            for members in gathers_in(row.more.get("waits")):
                groups[row.key].update(dict.fromkeys(members))
            continue
        parent = row.more.get("parent")
        if isinstance(parent, str):
            groups[parent][row.key] = None
        for each in row.frames if AT_END in row.stack.names else ():
            own = each.has.get("self") if each.at == AT_END else None
            if isinstance(own, dict):
                groups[row.key].update(dict.fromkeys(tasks_in({"all": own.get("all")})))
    return {parent: list(members) for parent, members in groups.items()}


def gathers_in(value: Any) -> List[List[str]]:
    """Returns the tasks of each gather in what a state describes that ends with the first error."""
    if not isinstance(value, dict) or not isinstance(value.get("all"), list):
        return []
    own = [tasks_in(value)] if value.get("raises") is not False else []
    return own + [members for each in value["all"] for members in gathers_in(each)]


def stands_at_end(row: PythonRow) -> bool:
    """Whether a task is at the end of its group, where it waits for all of it whatever comes."""
    return AT_END in row.stack.names


def targets_in(awaited: List[Any]) -> List[str]:
    """Returns the keys of the tasks that are cancelled with a task, since it awaits them."""
    return [key for value in awaited for key in tasks_in(value)]


def awaited_by(row: PythonRow) -> List[Any]:
    """Returns what a state describes that is cancelled with a task."""
    return [row.more.get("waits"), *kept_in(row, "asyncio.tasks.wait_for", "fut")]


def kept_in(row: PythonRow, name: str, variable: str) -> List[Any]:
    """Returns what a variable has in each frame of a name."""
    return [each.has.get(variable) for each in row.frames if each.at == name] if name in row.stack.names else []


def sharing_futures(look: PythonLook, awaited: Dict[str, List[Any]]) -> Dict[str, List[str]]:
    """Returns by each task the others that go on if a future is cancelled that it awaits, if there are any."""
    awaiting: Dict[str, Dict[str, None]] = defaultdict(dict)
    for key, row in look.tasks.items():
        values = [*awaited[key], *kept_in(row, "asyncio.tasks._wait", "fs")]
        for future in found_in(values, "asyncio.Future", ("all", "inner")):
            awaiting[future][key] = None
    sharing = dict.fromkeys(chain.from_iterable([keys for keys in awaiting.values() if len(keys) > 1]))
    return {key: [other for future in found_in(awaited[key], "asyncio.Future")
                  for other in awaiting[future] if other != key] for key in sharing}


def tasks_in(value: Any) -> List[str]:
    """Returns the keys of the tasks in what a state describes: a task, or a gather."""
    return found_in([value], "Task")


def found_in(values: List[Any], kind: str, within: Tuple[str, ...] = ("all",)) -> List[str]:
    """Returns the keys of those of a type in what a state describes, also within a gather or what else is named."""
    found: List[str] = []
    left: List[Any] = list(values)
    while left:
        each = left.pop()
        if type(each) is list:
            left += each
        if type(each) is not dict or each.get("done") is True:
            continue
        if each.get("type") == kind and isinstance(each.get("id"), str):
            found.append(each["id"])
        left += [each[name] for name in within if name in each]
    return found
