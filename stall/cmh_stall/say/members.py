"""The lines of the members of a group on the first screen: at what each waits, for whom, and where it stands."""
from __future__ import annotations

from typing import Dict, List, Sequence, Tuple, Union

from .terminal import AsItIs
from .brief import OTHERS, Brief
from .cutting import cut, cut_words

MEMBERS = 4  # lines that are shown; the others are counted
SHORT = 26  # letters of those for whom one waits, if that is short
LEAST = 12  # letters of what one waits at
ANY_OTHER = f"any {OTHERS}"
FOR_WHICH, SOME_BEHIND = ": the state doesn't show which.", "ome may only wait behind."
Columns = Tuple[str, Union[int, str], str]  # at what one waits; for whom, or the only one; the frames


class Members(Brief):
    def member_lines(self, members: Sequence[int], is_wide: bool = True) -> List[str]:
        """Returns a line for each member, or if there is room two; those that wait alike share one. Where any other one
        may free some, that is said once."""
        groups = self.member_groups(members)
        if len(members) == 2 and len({(what, frames) for what, _, frames in groups}) == 1:
            groups = {(what, "each other", frames): [*members] for what, _, frames in groups}
        is_of_any = self.is_of_any([index for key, alike in groups.items() if key[1] == ANY_OTHER for index in alike])
        if is_of_any:
            groups = {(what, "" if whom == ANY_OTHER else whom, frames): alike
                      for (what, whom, frames), alike in groups.items()}
        lines = self.group_lines(groups, is_wide)
        are_all = all(whom == "" for _, whom, _ in groups)
        who = f"  {'Each' if are_all else 'The others'} can be freed only by another one of them"
        if self.tree["roots"][self.rows[members[0]]["root"] - 1]["maybe_behind"]:
            return [*lines, f"{who}; s{SOME_BEHIND}" if is_of_any else f"  S{SOME_BEHIND}"]
        return lines + ([who + FOR_WHICH] if is_of_any else [])

    def group_lines(self, groups: Dict[Columns, List[int]], is_wide: bool) -> List[str]:
        rows = list(groups.items())
        if rows[MEMBERS:]:  # (whose locks others want, isn't left out)
            rows.sort(key=lambda row: self.wanted.isdisjoint(self.rows[index]["name"] for index in row[1]))
        names = [self.names_of_alike(alike) for _, alike in rows[:MEMBERS]]
        wide = max(map(len, names))
        lines = [self.columns(f"  {name:<{wide}}  ", what, whom if isinstance(whom, str) else self.name(whom), frames,
                              "" if is_wide else self.whom_words(alike[0], SHORT))
                 for name, ((what, whom, frames), alike) in zip(names, rows)]
        left = sum(len(alike) for _, alike in rows[MEMBERS:])
        return lines + ([f"  and {left:,} more"] if left else [])

    def member_groups(self, members: Sequence[int]) -> Dict[Columns, List[int]]:
        """Returns members by what stands in their line: those who only wait for others last."""
        groups: Dict[Columns, List[int]] = {}
        for index in sorted(members, key=self.is_of_others):
            frames, whom = self.frames(index), self.one_or_words(index)
            # They stand at one line, each at an object of its own.
            is_alike = frames and isinstance(whom, str) and whom.endswith(OTHERS)
            groups.setdefault((self.what(index, not is_alike), whom, frames), []).append(index)
        return groups

    def is_of_any(self, waiting: Sequence[int]) -> bool:
        """Whether the state doesn't show who has what some wait for."""
        return any(self.rows[index]["may_have"] for index in waiting)

    def columns(self, name: str, what: str, whom: str, frames: str, brief: str = "") -> str:
        """Returns one line if it fits, or else two: the second has the frames, and also for whom one waits if the first
        has no room for that. With `brief`, for whom it waits in few words, there is one, with as much as fits."""
        arrow, room = f"{self.style.arrow} {whom}" if whom else "", self.width - len(name)
        what = cut_words(what, room)
        first, second = f"{what} {arrow}".strip(), frames
        if len(first) + len(frames) + 2 <= room or brief:
            return self.line_of(name, what, arrow if len(first) <= room else f"{self.style.arrow} {brief}", frames)
        if len(first) > room and what:
            first, second = what, f"{arrow}  {frames}".rstrip()
        while len(second) > room and second != arrow:
            second = second.rpartition(" < ")[0] or arrow
        lines = [f"{name}{first}", f"{'':<{len(name)}}{second}"]
        return AsItIs("\n".join(cut(line, self.width) for line in lines if line.strip()))

    def line_of(self, name: str, what: str, arrow: str, frames: str) -> str:
        """Returns one line, with as much of what one waits at and of its frames as fits beside for whom it waits."""
        room = self.width - len(name)
        most = room - len(arrow) - 1 if arrow else room
        what, innermost = cut_words(what, most) if most >= LEAST else "", frames.split(" < ")[0]
        first = f"{what} {arrow}".strip()
        shorter = (frames, innermost, innermost.rpartition(" (")[2].rstrip(")"))
        fitting = next((text for text in shorter if len(first) + len(text) + 2 <= room), "")
        return AsItIs(cut(f"{name}{first}  {fitting}".rstrip(), self.width))
