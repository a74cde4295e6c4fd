"""Tries a property with changes that chance draws: by `hypothesis` where that is there, else by a generator of our own.
A failure is told by the fewest changes that show it."""
from __future__ import annotations

import importlib
import importlib.util
import random
from typing import Any, Callable, List, NamedTuple, Sequence

hypothesis: Any = importlib.import_module("hypothesis") if importlib.util.find_spec("hypothesis") else None
GENERATOR = f"hypothesis {hypothesis.__version__}" if hypothesis else "a seeded generator, as hypothesis isn't there"
MOST = 3  # changes at once


class Change(NamedTuple):
    """One way to change a system, and the seed of the chance that chooses where."""

    way: Callable[..., Any]
    seed: int

    def chance(self) -> random.Random:
        return random.Random(self.seed)

    def __repr__(self) -> str:
        return f"{self.way.__name__} {self.seed}"


Check = Callable[[Any, Sequence[Change]], None]  # raises AssertionError where the property doesn't hold


def try_all(cases: Sequence[Any], ways: Sequence[Callable[..., Any]], check: Check, count: int, seed: int) -> None:
    """Tries the property of some cases as often as `count` says, each time with other changes."""
    (try_by_hypothesis if hypothesis else try_by_chance)(cases, ways, check, count, seed)


def try_by_hypothesis(cases: Sequence[Any], ways: Sequence[Callable[..., Any]], check: Check, count: int,
                      seed: int) -> None:
    choose = hypothesis.strategies
    changes = choose.lists(choose.builds(Change, choose.sampled_from(ways), choose.integers(0, 65_535)), min_size=1,
                           max_size=MOST)
    settings = hypothesis.settings(max_examples=count, database=None, deadline=None, print_blob=False,
                                   suppress_health_check=list(hypothesis.HealthCheck))

    def attempt(number: int, drawn: Sequence[Change]) -> None:
        check(cases[number], drawn)

    given = hypothesis.given(choose.integers(0, len(cases) - 1), changes)
    hypothesis.seed(seed)(settings(given(attempt)))()


def try_by_chance(cases: Sequence[Any], ways: Sequence[Callable[..., Any]], check: Check, count: int,
                  seed: int) -> None:
    for number in range(count):
        chance = random.Random(f"{seed} {number}")
        case = chance.choice(cases)
        drawn = [Change(chance.choice(ways), chance.randrange(65_536)) for _ in range(chance.randint(1, MOST))]
        if fails(check, case, drawn):
            check(case, fewest(check, case, drawn))


def fails(check: Check, case: Any, changes: Sequence[Change]) -> bool:
    try:
        check(case, changes)
    except AssertionError:
        return True
    return False


def fewest(check: Check, case: Any, changes: Sequence[Change]) -> List[Change]:
    """Returns those of some changes that are enough to fail."""
    left = list(changes)
    for change in changes:
        others = [other for other in left if other is not change]
        if others and fails(check, case, others):
            left = others
    return left
