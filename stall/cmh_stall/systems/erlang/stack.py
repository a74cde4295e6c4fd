"""The stacks of Erlang's processes, as the runtime prints them: the terms of each frame below the place in it."""
from __future__ import annotations

import re
from typing import List, Tuple

# Of a stack, its places, and the numbers of the terms that each of them has; and the beginning of a pid or a reference.
SLOT = re.compile(r"\n(?:y\((\d{1,6})\) |Program counter: |0x)")  # (to seek '^' takes twice as long)
QUOTED = re.compile(r'"(?:[^"\\\n]|\\.)*"|\'(?:[^\'\\\n]|\\.)*\'')
CUT_OFF = re.compile(r"<[\d.]*$", re.M)
# The frame that has the lock which a process wants, that of Mnesia with the number of a transaction which is begun
# again, and that of Elixir with the pid of whom it stops.
LOCKING = re.compile(r"Return addr \S+ \(global:set_lock/4 \+ \d+\)\n((?:y.*\n)*)")
RETRYING = re.compile(r"Return addr \S+ \(mnesia_tm:restart/\d+ \+ \d+\)\n((?:y.*\n)*)")
STOPPING = re.compile(r"\(proc_lib:stop/3 .*\n(?:y.*\n)*\n\S+ Return addr \S+ \('Elixir\.GenServer':stop/3 \+ \d+\)\n"
                      r"((?:y.*\n)*)")
# The frame in which a server has called a function of its own, and the message for which.
CALLBACK = re.compile(r"Return addr \S+ \((?:(gen_server:try_(?:terminate/3|handle_call/4)|gen_statem:terminate/7) |"
                      r"gen_server:try_dispatch/4 .*\n(?:y.*\n)*\n\S+ Return addr \S+ \(gen_server:handle_msg/6 .*\n"
                      r"((?:y.*\n)*))")
CALLBACKS = {"gen_server:try_terminate/3": ("terminate", "2"), "gen_statem:terminate/7": ("terminate", "3"),
             "gen_server:try_handle_call/4": ("handle_call", "3")}
REGISTER = re.compile(r"^y\(\d+\) +(.*)$", re.M)


def is_balanced(text: str) -> bool:
    """Whether each bracket of some terms has its other one. What stands in quotes may have any."""
    return is_paired(text) or is_paired(QUOTED.sub("", text))


def is_paired(text: str) -> bool:
    return text.count("{") == text.count("}") and text.count("[") == text.count("]")


def lost_of_stack(text: str) -> str:
    """Returns what shows that a stack isn't whole, or nothing: each place has its terms from y(0) up."""
    following = 0
    for number in SLOT.findall(f"\n{text}"):
        if number and int(number) != following:
            return f"its stack has y({number}) where y({following}) is expected"
        following = following + 1 if number else 0
    return "a term of its stack is cut off" if CUT_OFF.search(text) else ""


def terms_in(form: re.Pattern[str], frames_text: str) -> List[str]:
    """Returns the terms of a frame, which a form has as its first group, or none."""
    match = form.search(frames_text)
    return REGISTER.findall(match[1]) if match else []


def callback_of(frames_text: str) -> Tuple[str, ...]:
    """Returns the name and the arity of the function that a server has called, or nothing: what that calls as the last
    thing that it does has taken the place of it on the stack."""
    match = CALLBACK.search(frames_text)
    if match is None or match[1]:
        return CALLBACKS[match[1]] if match else ()
    return "handle_cast" if "{'$gen_cast'," in match[2] else "handle_info", "2"
