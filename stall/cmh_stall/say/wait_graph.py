"""The tree of an answer as a wait-for graph, by numbers. A list that several processes share is a node of its own,
behind those of the processes."""
from __future__ import annotations

from functools import cached_property
from typing import AbstractSet, Dict, Iterable, List, Optional, Sequence

from ..core.sketch import ALL, ANY, RUNS, UNKNOWN
from ..core.steps import START, Edges, steps_to, way
from .view import LIKELY, RUNNING, STUCK, Tree, View


class WaitGraph(View):
    """An answer with the nodes that each node waits for (`successors`), those of them who are likely to free it as the
    first (`near`, of which alone roots are made), and those who wait for it (`predecessors`)."""

    @property
    def number(self) -> int:
        return len(self.rows)

    @cached_property
    def lists(self) -> Dict[str, int]:
        """The nodes of lists, by their names."""
        used = {name for row in self.rows for name in (row["waits_for_list"], *row["one_of"])}
        return {name: node for node, name in enumerate(filter(used.__contains__, self.tree["lists"]), self.number)}

    @cached_property
    def successors(self) -> List[List[int]]:
        of_lists = (self.numbers(self.list_named(name)) for name in self.lists)
        return [*map(self.nodes_of, range(self.number)), *of_lists]

    @cached_property
    def near(self) -> List[List[int]]:
        return [*map(self.near_of, self.rows, self.successors), *self.successors[self.number:]]

    @cached_property
    def predecessors(self) -> List[List[int]]:
        waiters: List[List[int]] = [[] for _ in self.successors]
        for node, others in enumerate(self.successors):
            for other in others:
                waiters[other].append(node)
        return waiters

    def nodes_of(self, index: int) -> List[int]:
        row = self.rows[index]
        if row["waits_for_list"] is not None:
            return [self.lists[row["waits_for_list"]]]
        if row["kind"] == ALL:
            return [*self.numbers(row["waits_for"]), *map(self.lists.__getitem__, row["one_of"])]
        return self.numbers(self.whom(index, True)) if row["kind"] == ANY else []

    def near_of(self, row: Tree, successors: List[int]) -> List[int]:
        near = row["near"] if row["waits_for_list"] is not None else row["waits_for"] if row["kind"] == ANY else None
        return successors if near is None else self.numbers(near)

    def list_of(self, index: int) -> Optional[int]:
        """Returns the list that one waits for, if it waits for no one else."""
        name = self.rows[index]["waits_for_list"]
        return None if name is None else self.lists[name]

    def without_lists(self, nodes: Iterable[int]) -> List[int]:
        """Returns some nodes, with those of a list in its place."""
        return list(dict.fromkeys(other for node in nodes
                                  for other in (self.successors[node] if node >= self.number else [node])))

    def kind(self, index: int) -> str:
        """Returns how one waits. It runs if a message has ended a wait of which nothing else is known."""
        row = self.rows[index]
        return RUNS if row["goes_on"] == RUNNING else str(row["kind"])

    # The edges of roots

    def edges_among(self, processes: Sequence[int]) -> Edges:
        """Returns the edges from some to some, and through lists. A list that leads to none of them has no edge."""
        among = {*processes}
        lists = {node: [other for other in self.successors[node] if other in among]
                 for node in range(self.number, len(self.successors))}
        lists = {node: others for node, others in lists.items() if others}
        among.update(lists)
        return {**{node: [other for other in self.near[node] if other in among] for node in processes}, **lists}

    @cached_property
    def edges(self) -> Edges:
        """The edges among those who are stuck, of whom those who are it for certain need no other ones."""
        edges, sure = self.edges_among(self.with_verdict(STUCK, LIKELY)), {*self.with_verdict(STUCK)}
        is_mixed = len(sure) < self.tree["counts"][STUCK] + self.tree["counts"][LIKELY]
        return {node: self.sure_edges(others, edges, sure) if is_mixed and node in sure else others
                for node, others in edges.items()}

    def sure_edges(self, others: List[int], edges: Edges, sure: AbstractSet[int]) -> List[int]:
        """Returns the edges of one to sure ones. Through a list it may reach others too, if it waits for all."""
        if all(node in sure or node >= self.number and sure >= {*edges[node]} for node in others):
            return others
        return [node for node in self.without_lists(others) if node in sure]

    def shortest_cycle(self, root: int) -> List[int]:
        """Returns members of a root in the order in which each waits for the next, and the last for the first, of which
        there are as few as may be with its first member; or nothing, if that waits for no member."""
        first = self.roots[root][0]
        others = [node for node in self.edges[first] if node != first]
        if not others:
            return [first] * len(self.edges[first])
        between = way({**self.edges, START: others}, START, {first})[1:-1]
        members = [node for node in between if node < self.number]
        return [first, *(members or [node for node in self.edges[others[0]] if node != first][:1])]

    def next_steps(self) -> Dict[int, int]:
        """Returns for each the next one on its way to what its answer rests on: a root, an unknown one, or one that
        goes on by itself; but for those where a way ends."""
        steps = steps_to(self.edges, [index for index, row in enumerate(self.rows) if row["root"]])
        unknown = [index for index in self.undecided if self.kind(index) == UNKNOWN]
        steps.update(steps_to(self.edges_among(self.undecided), unknown))
        steps.update((index, self.index[row["freed_by"]]) for index, row in enumerate(self.rows)
                     if row["freed_by"] is not None)
        return {node: self.past_lists(steps, step) for node, step in steps.items() if node < self.number}

    def past_lists(self, steps: Dict[int, int], node: int) -> int:
        while node >= self.number:
            node = steps[node]
        return node
