"""What the steps of compiled code say: which of them make a call, which begin a block of `with`, what they name."""
from __future__ import annotations

import dis
import functools
import sys
import types

TYPE_CHECKING = False
if TYPE_CHECKING:
    from typing import Dict, FrozenSet, List, Optional, Set, Tuple
    from .objects import Code, Json, Step, Steps, Thing
    Blocks = Tuple[Optional[int], ...]  # the places of the steps that began them, from the outermost on

LOADS, ATTRIBUTES = ("LOAD_", "STORE_ATTR"), ("LOAD_ATTR", "LOAD_METHOD")  # how steps begin that name something
BLOCKS = ("SETUP_WITH", "SETUP_ASYNC_WITH", "SETUP_FINALLY")  # before Python 3.11
BEGIN = ("BEFORE_WITH", "SETUP_WITH", "BEFORE_ASYNC_WITH", "SETUP_ASYNC_WITH")
WITH = {dis.opmap[name] for name in BEGIN if name in dis.opmap}
SKIPPED = ("PUSH_NULL", "CACHE", "EXTENDED_ARG", "COPY_FREE_VARS", "RESUME")  # steps that load nothing
ENDS = ("JUMP_FORWARD", "RETURN_VALUE", "RETURN_CONST", "RAISE_VARARGS")  # steps after which the next isn't made
LEAVES = ("JUMP_ABSOLUTE", "RERAISE")  # and these


def is_call(name: str) -> bool:
    return name.startswith("CALL") or name in ("PRECALL", "BEFORE_WITH", "SETUP_WITH")


def pushed_by(step: Step) -> Optional[Tuple[int, int]]:
    """How many values stand on the stack for a call: for what is called, and for its arguments. None if not known."""
    name, count = step.opname, step.arg or 0
    if name in ("BEFORE_WITH", "SETUP_WITH"):
        return 1, 0
    if name == "CALL_FUNCTION":
        return 1, count
    if name == "CALL_FUNCTION_KW":
        return 1, count + 1
    if name in ("CALL_METHOD", "PRECALL", "CALL"):
        return 2, count
    if name == "CALL_FUNCTION_EX":
        return 1 + (sys.version_info >= (3, 11)), 1 + (count & 1)
    return (2, count + 1) if name == "CALL_KW" else None


def first_of(steps: Steps, end: int, need: int, are_arguments: bool = False) -> Optional[int]:
    """The place of the first of those steps that push `need` values just before `end`, or None. Arguments may be made
    in one of two ways, and what is called stands before both."""
    place = end - 1
    while place >= 0:
        step = steps[place]
        if step.opname in ENDS:  # of one of two ways to the same values
            place = branch_to(steps, place + 1)
            continue
        if isinstance(step.argval, int) and step.opcode in (*dis.hasjrel, *dis.hasjabs) and step.argval < step.offset:
            return None
        argument = step.arg if step.opcode >= dis.HAVE_ARGUMENT else None
        need -= dis.stack_effect(step.opcode, argument, jump=False)
        is_second = are_arguments and steps[place - 1].opname in ENDS and branch_to(steps, place) >= 0
        if need <= 0 and not is_second:
            return place if need == 0 and not is_one_way(steps, place, end) else None
        place -= 1
    return None


def is_one_way(steps: Steps, start: int, end: int) -> bool:
    """Whether some steps make a value in one of two ways, as behind an `else`: another way comes in between."""
    before = steps[start - 1]
    return before.opname == "JUMP_FORWARD" and steps[start].offset < before.argval <= steps[end].offset


def branch_to(steps: Steps, other: int) -> int:
    """The place of the step that goes to `other` or on, or -1."""
    for place in range(other - 1, -1, -1):
        step = steps[place]
        if step.opname not in ENDS and step.opcode in (*dis.hasjrel, *dis.hasjabs):
            if step.argval == steps[other].offset:
                return place
    return -1


def loads_in(steps: Steps) -> Steps:
    """The steps that load something, one for each name."""
    rows = [[step._replace(argval=name) for name in step.argval] if type(step.argval) is tuple else [step]
            for step in steps if step.opname not in SKIPPED]
    return [step for row in rows for step in row]


def is_subscript(steps: Steps) -> bool:
    return any(step.opname == "BINARY_SUBSCR" for step in steps)


def arguments_of(steps: Steps) -> Optional[List[Json]]:
    """The arguments of a call if all are constants, else None."""
    loads = [step for step in steps if step.opname not in ("PRECALL", "KW_NAMES", "CACHE", "EXTENDED_ARG")]
    if all(step.opname in ("LOAD_CONST", "LOAD_SMALL_INT") for step in loads):
        return [step.argval if isinstance(step.argval, (bool, int, float)) else None for step in loads]
    return None


def names_of(steps: Steps, constants: Tuple[Thing, ...]) -> Tuple[List[str], Steps]:
    """The names of the arguments that a call is given by name, and the steps for its arguments without these."""
    last = next((step for step in reversed(steps) if step.opname in ("KW_NAMES", "LOAD_CONST")), None)
    names: Thing = constants[last.arg or 0] if last is not None else None
    return (list(names), [step for step in steps if step is not last]) if type(names) is tuple else ([], steps)


def start_of_call(steps: Steps, place: int) -> Tuple[Optional[int], Optional[int]]:
    """The places of the first step for what a call calls, and of that for its arguments. None for one that isn't known.
    """
    pushed = pushed_by(steps[place])
    middle = place if pushed is None or pushed[1] == 0 else first_of(steps, place, pushed[1], True)
    return None if middle is None or pushed is None else first_of(steps, middle, pushed[0]), middle


def is_block(step: Step) -> bool:
    """Whether a step begins a block of `with`."""
    return pushed_by(step) == (1, 0) and "WITH" in step.opname


def handler_of(table: List[Thing], offset: int) -> Optional[int]:
    """Where an error at a step goes to, or None."""
    return next((entry.target for entry in table if entry.start <= offset < entry.end), None)


def blocks_by_table(code: Code, steps: Steps, here: int) -> List[int]:
    """The places of the steps that began the blocks of `with` around a step, from Python 3.11 on: an error in one goes
    to the block's own end, and one there to that of the block around it."""
    table = list(getattr(dis.Bytecode(code), "exception_entries"))
    places = {step.offset: place for place, step in enumerate(steps)}
    blocks: List[int] = []
    seen: Set[int] = set()
    target = handler_of(table, steps[here].offset)
    while target is not None and target not in seen:
        seen.add(target)
        place = places[target]
        if steps[place + 1].opname == "WITH_EXCEPT_START":
            start = places[min(entry.start for entry in table if entry.target == target)]
            blocks += [place for place in range(start - 1, -1, -1) if steps[place].opname.startswith("BEFORE_")][:1]
        target = handler_of(table, target)
    return blocks


def blocks_by_steps(steps: Steps, last: int) -> List[int]:
    """The same of Python 3.9 and 3.10, where steps begin blocks and end them: those that are open on a way there."""
    places = {step.offset: place for place, step in enumerate(steps)}
    left: List[Tuple[int, Blocks]] = [(0, ())]
    seen: Dict[int, Blocks] = {}
    while left:
        place, blocks = left.pop()
        if place in seen or place >= len(steps):
            continue
        seen[place] = blocks
        step = steps[place]
        is_jump = step.opcode in (*dis.hasjrel, *dis.hasjabs)
        if step.opname in BLOCKS:
            left.append((places[step.argval], (*blocks, None)))
            blocks = (*blocks, place)
        elif step.opname in ("POP_BLOCK", "POP_EXCEPT"):
            blocks = blocks[:-1]
        elif is_jump:
            left.append((places[step.argval], blocks))
        if step.opname not in (*ENDS, *LEAVES):
            left.append((place + 1, blocks))
    return [place for place in reversed(seen.get(last, ())) if place is not None and "WITH" in steps[place].opname]


@functools.lru_cache(maxsize=1000)
def blocks_at(code: Code, last: int) -> List[Tuple[Steps, FrozenSet[str]]]:
    """The steps that load what each block of `with` around a step has taken, from the innermost on, and the names that
    may stand for something else since: those that are stored at a later step, or in a function that the code makes. No
    steps stand for those that aren't known. Many threads stand at one place."""
    if sys.version_info < (3, 9) or WITH.isdisjoint(code.co_code[::2]):
        return []
    steps = list(dis.get_instructions(code))
    here = max((place for place, step in enumerate(steps) if step.offset <= last), default=None)
    if here is None:  # (in a call of Python code the last step may be within its own cache)
        return []
    places = blocks_by_table(code, steps, here) if sys.version_info >= (3, 11) else blocks_by_steps(steps, here)
    starts = [(first_of(steps, place, 1), place) for place in places if steps[place].opname in BEGIN]
    return [(steps[start:place] if start is not None and "ASYNC" not in steps[place].opname else [],
             stored_in(code, steps[place].offset)) for start, place in starts]


@functools.lru_cache(maxsize=10000)
def stored_in(code: Code, start: int = -1, is_elsewhere: bool = False) -> FrozenSet[str]:
    """The names that a code stores or deletes from a step on, and the functions in it. What it stores as variables of
    its own doesn't count for code elsewhere."""
    steps = [step for step in dis.get_instructions(code)
             if step.offset >= start and step.opname.startswith(("STORE_", "DELETE_"))]
    steps = [step for step in steps if not is_elsewhere or step.opname.endswith(("_ATTR", "_GLOBAL"))
             or step.opname.endswith("_DEREF") and step.argval in code.co_freevars]
    names = [name for step in steps for name in (step.argval if type(step.argval) is tuple else (step.argval,))]
    return frozenset(names).union(
        *(stored_in(inner, -1, is_elsewhere) for inner in code.co_consts if type(inner) is types.CodeType))


@functools.lru_cache(maxsize=1000)
def names_ahead(code: Code, last: int, kinds: Tuple[str, ...] = LOADS) -> FrozenSet[str]:
    """The names of the steps of some kinds of a code from one on, or from the first one that these go back to, and
    those of the functions that they make."""
    steps, start = list(dis.get_instructions(code)), last
    jumps = [(step.offset, step.argval) for step in steps if step.opcode in (*dis.hasjrel, *dis.hasjabs)]
    while any(jump >= start > target for jump, target in jumps):
        start = min(target for jump, target in jumps if jump >= start)
    ahead = [step for step in steps if step.offset >= start]
    loads = [step.argval for step in ahead if step.opname.startswith(kinds)]
    values = [name for value in loads for name in (value if type(value) is tuple else (value,))]
    inner = [names_ahead(step.argval, 0, kinds) for step in ahead if type(step.argval) is types.CodeType]
    return frozenset(value for value in values if type(value) is str).union(*inner)


@functools.lru_cache(maxsize=20000)
def is_in_loop(code: Code, last: int) -> bool:
    """Whether a code comes back to a step. One that doesn't may do next whatever it has been made for. An await that
    asks again and again is no such loop."""
    steps = list(dis.get_instructions(code))
    jumps = [step for before, step in zip(steps, steps[1:]) if step.opcode in (*dis.hasjrel, *dis.hasjabs)
             and not step.opname.endswith("_NO_INTERRUPT") and before.opname != "CLEANUP_THROW"]
    return any(step.offset >= last >= step.argval for step in jumps)


@functools.lru_cache(maxsize=20000)
def all_names(code: Code) -> FrozenSet[str]:
    """All names of a code, and texts that may be some, with those of the functions in it."""
    values = [name for value in code.co_consts for name in (value if type(value) is tuple else (value,))]
    names = [*code.co_names, *code.co_varnames, *code.co_freevars, *code.co_cellvars]
    inner = [all_names(value) for value in values if type(value) is types.CodeType]
    return frozenset([*names, *(value for value in values if type(value) is str)]).union(*inner)


@functools.lru_cache(maxsize=20000)
def shared_names(code: Code) -> FrozenSet[str]:
    """The names of globals and attributes in a code, and in the functions in it."""
    inner = [shared_names(value) for value in code.co_consts if type(value) is types.CodeType]
    return frozenset(code.co_names).union(*inner)
