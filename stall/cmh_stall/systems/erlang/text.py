"""The text that `cmh_state_reader` prints of Erlang nodes: process_info of each process, and its stack with terms."""
from __future__ import annotations

import re
from functools import lru_cache
from sys import intern
from typing import Dict, Iterable, List, NamedTuple, Optional, Set, Tuple, Union

from ...core.files import Refusal, shown
from ...core.sketch import frame
from ..base import without_sleep
from .stack import LOCKING, REGISTER, RETRYING, STOPPING, callback_of, is_balanced, lost_of_stack, terms_in

A_PID = r"<\d{1,10}\.\d{1,10}\.\d{1,10}>"
HEAD = re.compile(rf"({A_PID}) (\S+)$", re.M)
# The wait of a call has the limit as the first term of its frame.
CALLS = r"gen_server:call/3|gen_statem:call_dirty/4|gen_event:call1/4|'Elixir\.GenServer':call/3|sys:send_system_msg/3"
LIMIT = re.compile(
    r"Program counter: \S+ \((?:gen:(?:receive|wait)_response/[23] \+ \d+\)\ny\(0\) +(?P<response>\w+)"
    r"|gen:do_call/4 .*\n(?:y.*\n)*\n(?:\S+ Return addr \S+ \(gen:do_for_proc/2 .*\n(?:y.*\n)*\n)?"
    rf"\S+ Return addr \S+ \((?:(?P<call>{CALLS}) \+ \d+\)\ny\(0\) +(?P<limit>\w+)"
    r"|(?P<event>gen_event:rpc/2) \+ \d+\)))\n")
UNREAD = re.compile(r"'\$gen_call',{[^{}]*?#Ref<\d+\.([\d.]+)>")
REQUEST = re.compile(rf"Return addr \S+ \((?:{CALLS}) \+ \d+\)\ny\(0\).*\ny\(1\) +(.*)\n(?:y\(2\) +(.*))?")
# Where a stack is, and the terms of it, but for addresses; and the function of the topmost place.
PLACES = re.compile(r"^(?:0x\w+ Return addr \S+ |: \S+ )?(\(.*|y\(.*)$", re.M)
TOP = re.compile(r": \S+ \((\S+) \+ \d+\)")
A_LIMIT = re.compile(r"infinity|\d+")
WITH_A_LIMIT = re.compile(r"\(gen_server:call/2 \+ \d+\)")  # of five seconds
LIMITED = re.compile(r"^y\(1\) +\d+$", re.M)  # of any other call, as gen:do_call has it
PID = re.compile(r"<\d+\.\d+\.\d+>")
STOPS = ("supervisor:", "proc_lib:sync_start", "DynamicSupervisor.")
ALL_CHILDREN = re.compile(r"\(supervisor:(terminate_children|terminate_dynamic_children|children_map)/\d+ \+ \d+\)"
                          r"|'Elixir\.DynamicSupervisor':")
# The request that a server is answering: the first term of this form in the frame that has called back.
SERVES = re.compile(r"Return addr \S+ \(gen_server:handle_(?:msg|call)/\d+ \+ \d+\)\n(?:y.*\n)*?"
                    r"y\(\d+\) +{<[\d.]+>,(?:\[alias\|)?#Ref<\d+\.([\d.]+)>\]?}\n")
SERVES_EVENT = re.compile(r"^y\(\d+\) +{call,{<[\d.]+>,(?:\[alias\|)?#Ref<\d+\.([\d.]+)>\]?}}$", re.M)
TRACE = re.compile(r'{(\w+|\'[^\']*\'),(\w+|\'[^\']*\'),(\d+),\[(?:{file,"([^"]*)"},{line,(\d+)})?')
REFERENCE = re.compile(r"#Ref<\d{1,10}\.(\d{1,10}(?:\.\d{1,10})*)>")
WATCHED = re.compile(r"{process,(<\S+?>|{.*?})}")
OF_SYSTEM = re.compile(r"gen(_server|_statem|_event|_tcp|_udp)?|global|erpc|inet6?(_tcp|_udp)?|mnesia(_[a-z]+)?|os|"
                       r"prim_inet|proc_lib|socket|supervisor|sys|timer|erlang|rpc|'Elixir\.("
                       r"Agent|DynamicSupervisor|Enum|GenServer|Process|Registry|Stream|Supervisor|Task)(\.\w+)*'")
# What calls functions of a server's own.
CALLBACKS = re.compile(r"gen_(server:(?!multi_call|call|cast|send|receive|wait)|statem:(?!call|cast)|"
                       r"event:(?!call|rpc|sync_notify|notify))|supervisor:")
LOOPS = re.compile(r"(gen_server:loop|gen_statem:loop_(receive|hibernate)|gen_event:fetch_msg|proc_lib:hibernate"
                   r"|proc_lib:wake_up|erlang:hibernate)/")
# The values that items may have, of which more is read than what is searched for in them.
TERMS, AN_ATOM = r"cut|\[.*\]", r"(?:\w[\w@.-]*|'[^'\n]*')"
A_CALL = rf"{{{AN_ATOM},{AN_ATOM},\d+,\[[^][]*\]}}"
WORDS = "bytes|exits|far|halts|leaves|replies|stops|tables|timers"



def terms_of(form: str) -> str:
    """Returns the form of terms that have one, with commas between them."""
    return rf"(?:{form})(?:,(?:{form}))*"


def list_of(form: str) -> str:
    """Returns the form of a list whose terms have one, or that is too long to be read."""
    return rf"cut|\[(?:{terms_of(form)})?\]"


FORMS = {key: re.compile(form) for key, form in {
    "closures": "cut|false|true", "timed": "false|true", "trap_exit": "false|true", "references": list_of(
        r"#Ref<[\d.]+>"), "may_end": list_of(A_PID), "code": rf"\[(?:{terms_of(WORDS)})?\]", "messages": TERMS,
    "monitors": list_of(rf"{{(?:process|port),(?:{A_PID}|#Port<[\d.]+>|{{{AN_ATOM},{AN_ATOM}}})}}"),
    "links": list_of(rf"{A_PID}|#Port<[\d.]+>"), "registered_name": rf"\[\]|{AN_ATOM}", "dictionary": TERMS,
    "initial_call": rf"{{{AN_ATOM},{AN_ATOM},\d+}}", "message_queue_len": r"\d+",
    "strategies": list_of("one_for_one|one_for_all|rest_for_one|simple_one_for_one"), "reductions": r"\d+",
    "status": "exiting|garbage_collecting|runnable|running|suspended|waiting",
    "current_stacktrace": rf"\[(?:{terms_of(A_CALL)})?\]"}.items()}
OF_ELIXIR = re.compile(r"'Elixir\.([\w.]+)'")
FUN = re.compile(r"'-(.*)/\d+-(fun-\d+)-'")
WORD = r"(\w+|'[^']*')"
OWN_START = re.compile(rf"{{'\$initial_call',{{{WORD},{WORD},(\d+)}}}}")  # of a server: its module
START = re.compile(rf"{{{WORD},{WORD},(\d+)}}")
ITEM = re.compile(r"\n{(\w+),(.*)}(?![^\n])")
OBJECT = re.compile(r"#Ref<.*?>")
ANY_PID = re.compile(r"<[\d.]+>")
ANY_WORD = re.compile(r"\w+")
CUT = "cut"  # in place of what is too long to be read
KEPT, SHORT = 65536, 60  # functions whose names are kept; of a value that many processes may share
Key = Union[str, Tuple[str, str]]  # of a process: its node and pid, or its name
Function = Tuple[str, str, str]  # its module, its name and its arity
UNKNOWN_START = "unknown", "unknown", "0"


class ErlangCall(NamedTuple):
    """A call in which a process waits: its function, its limit, the request, and whom it calls, as terms."""

    function: str
    limit: str
    request: str
    whom: str


class Receives(NamedTuple):
    """What is known of the receives in a function: their limits, where the one that it has keeps the reference of all
    messages that it takes, and of that `once`, if each wait has another one, and `down`, if a 'DOWN' alone ends the
    wait."""

    limits: List[str]
    register: str
    words: List[str]


class ErlangBlock:
    """What is printed of one process. A reference is printed with another first number on another node, so `tail`s are
    compared: the rest of it. `fault` says what of it isn't understood, and `label` is its name in the sketch. The text
    itself isn't kept, for a node has many processes."""

    def __init__(self, text: str, path: str) -> None:
        head = HEAD.match(text)
        if not head:
            raise Refusal(f"{shown(path)}: '=process {shown(text.split(chr(10))[0][:60])}' has no pid and node")
        self.label, self.pid, self.node = "", head[1], intern(head[2])
        self.items, self.fault = items_in(text)
        self.role = self.item("registered_name")
        self.messages = self.item("messages")
        self.monitored = watched_by(self.node, self.item("monitors"))
        self.function, self.stack, self.own = places_of(self.item("current_stacktrace"))
        self.items.pop("current_stacktrace", None)  # (which is long)
        frames_text = text.partition("Program counter")[2]
        self.counter = frames_text.partition("\n\n")[0]
        limit, self.has_limit = LIMIT.search(text), any(form.search(part) for form, part in (
            (WITH_A_LIMIT, text), (LIMITED, self.counter)))
        self.call = call_of(limit, text) if limit else None
        self.lock, self.retrying, self.stopping = (terms_in(form, frames_text)
                                                   for form in (LOCKING, RETRYING, STOPPING))
        waiting = self.counter + (limit[0] if limit else "")
        # The references of the call that it waits in, and their tails.
        self.references = list(dict.fromkeys(OBJECT.findall(waiting)))
        self.awaited = tuple(dict.fromkeys(REFERENCE.findall(waiting)))
        self.is_mail_cut, self.is_stack_cut = self.messages == CUT, self.items.get("backtrace") == CUT
        self.is_cut = self.is_mail_cut or self.is_stack_cut or CUT in map(self.items.get, (
            "references", "may_end", "closures"))
        reductions = self.items.get("reductions", "")
        self.count = reductions if FORMS["reductions"].fullmatch(reductions) else None
        self.start = self.start_of()
        self.callback = callback_of(frames_text) if self.start[1] == "init" and not self.own else ()
        self.requests = (*UNREAD.findall(self.messages), *self.served(text, frames_text))
        tails = REFERENCE.findall(text)
        self.tails = tuple(dict.fromkeys(tails))
        self.stopped = self.stopped_in(frames_text) if self.top().startswith(STOPS) else ()
        self.hibernates = not self.stack and "(unknown function)" in self.counter  # (which has no stack)
        self.place = hash((*self.stack, *PLACES.findall(frames_text)))
        self.fault = self.fault or self.lost(text, frames_text, len(tails))

    def lost(self, text: str, frames_text: str, references: int) -> str:
        """Returns what shows that a part of its text is missing, or nothing."""
        if not self.stack and not self.hibernates:
            return "its stack isn't in the text"
        # Texts written by hand may lack the status, with most of the stack.
        lost = lost_of_stack(frames_text) if self.extra("status") is not None else ""
        lost = lost or self.lost_between(frames_text) if self.extra("status") == "waiting" else lost
        if lost:
            return lost
        if self.call is not None and not A_LIMIT.fullmatch(self.call.limit):
            return "its limit isn't understood"
        if not is_balanced(text):
            return "a term of its text isn't whole: a bracket of it lacks the other one"
        return "a reference in its text isn't understood" if references < text.count("#Ref") else ""

    def lost_between(self, frames_text: str) -> str:
        """Returns what of the stack of one that waits contradicts the rest, or nothing. One in a loop has no terms."""
        top = TOP.match(frames_text)
        if top is None and not self.is_loop() and not self.hibernates and not self.is_stack_cut:
            return "the terms of its stack aren't in the text"
        if top is not None and self.stack and of_elixir(top[1]).replace(":", ".") != self.top_function():
            return "its stack and the terms of it are of two functions"
        return ""

    def top_function(self) -> str:
        return self.stack[0].partition(" (")[0].replace(":", ".")

    def contradicts(self, later: ErlangBlock) -> str:
        """Returns what shows that two texts of a process can't be of one, or nothing: whoever runs is counted, and
        began once."""
        counts = [int(block.count) for block in (self, later) if block.count is not None]
        if counts[1:] and counts[1] < counts[0]:
            return "its count of reductions is lower than before"
        if self.items.get("initial_call") != later.items.get("initial_call"):
            return "its looks differ in the function that it began in"
        is_same = counts[1:] and counts[0] == counts[1]
        return "its stack is another one, and it hasn't run since" if is_same and self.place != later.place else ""

    def item(self, key: str) -> str:
        match = self.items.get(key)
        if match is None:
            self.fault = self.fault or f"its text has no line '{{{key},..}}'"
        return match or ""

    def extra(self, key: str) -> Optional[str]:
        """An item that a text needn't have, or None."""
        return self.items.get(key)

    def start_of(self) -> Function:
        """The function that it began in, as its library says, of a server the module."""
        match = OWN_START.search(self.extra("dictionary") or "") or START.match(self.item("initial_call"))
        return function_of(*match.group(1, 2, 3)) if match else UNKNOWN_START

    def served(self, text: str, frames_text: str) -> Set[str]:
        """The request that its callback is at work on. One that it keeps for later is none of these."""
        if self.is_loop() or "(gen_server:try_dispatch/" in text:
            return set()
        match = SERVES.search(frames_text)
        if match is None and "(gen_statem:" in text:
            match = SERVES_EVENT.search(frames_text)
        return {match[1]} if match else set()

    def stopped_in(self, frames_text: str) -> Tuple[str, ...]:
        """The pids of those that it starts or stops."""
        return tuple(dict.fromkeys(PID.findall(frames_text if ALL_CHILDREN.search(frames_text) else self.counter)))

    def keys(self) -> List[Key]:
        """The keys by which others know it."""
        return [(self.node, self.pid), f"{{{self.role},'{self.node}'}}", f"{{{self.role},{self.node}}}"]

    def own_name(self) -> str:
        """Its name on its node."""
        module, function, _ = self.start
        if self.role not in ("[]", ""):
            return of_elixir(self.role)
        name = of_elixir(module) if function == "init" else FUN.sub(r"\1-\2", function)
        return f"{name}/{self.pid[1:-1]}"

    def frames(self) -> List[str]:
        return self.own or [function_name(self.start[0], *self.callback) if self.callback else
                            function_name(*self.start)]

    def top(self) -> str:
        """The function that it is in, as MODULE:NAME, in Elixir as MODULE.NAME, or nothing."""
        return self.stack[0].split("/")[0] if self.stack else ""

    def is_loop(self) -> bool:
        """Whether it is a server that waits for requests."""
        return bool(self.stack) and LOOPS.match(self.stack[0]) is not None

    def is_asleep(self) -> bool:
        """Whether it is a server that waits for a request, has none, isn't woken by a timer of its code, and isn't
        stopped by that either."""
        return self.is_loop() and {"timers", "leaves"}.isdisjoint(self.code()) and self.messages == "[]"

    def is_in_own_loop(self) -> bool:
        """Whether its wait is called by the function that it was started with, and by no callback of a server."""
        return len(self.own) <= 1 and not any(map(CALLBACKS.match, self.stack))

    def sleeps_in_own_loop(self) -> bool:
        """The same of one that sleeps, maybe by a function that does nothing else."""
        return len(without_sleep(self.own)) <= 1 and not any(map(CALLBACKS.match, self.stack))

    def is_in_library(self) -> bool:
        return OF_SYSTEM.fullmatch(self.function[0]) is not None

    def registers(self) -> List[str]:
        """The terms of the topmost frame."""
        return REGISTER.findall(self.counter)

    def is_answered(self, references: Iterable[str], before: str) -> bool:
        """Whether its mailbox has a message with one of some references."""
        return self.messages != "[]" and any(before.format(other) in self.messages for other in references)

    def has_request(self, tails: Set[str]) -> bool:
        """Whether one of these requests lies unread in its mailbox, or is what its callback is at work on."""
        return not tails.isdisjoint(self.requests)

    def need(self, keys: Set[str]) -> None:
        """Says of its text that it isn't understood if it lacks an item that texts of its state have."""
        if not keys <= self.items.keys():
            self.item(min(keys - self.items.keys()))

    def linked(self) -> List[str]:
        """The pids of those that take it along if they fail. One that traps exits outlives them."""
        return ANY_PID.findall(self.items.get("links", "")) if self.items.get("trap_exit") == "false" else []

    def may_end(self) -> List[str]:
        """The pids of those that its code may send an exit signal to, since it knows them."""
        return ANY_PID.findall(self.items.get("may_end", ""))

    def code(self) -> List[str]:
        """What the modules that it runs call: `bytes`, `exits`, `far`, `halts`, `leaves`, `replies`, `stops`, `tables`,
        `timers`."""
        return words_of(self.items.get("code", ""))

    def is_supervisor(self) -> bool:
        return self.start[0] == "supervisor"

    def restarts_one(self) -> bool:
        """Whether a supervisor is known to restart the child alone that has failed. An older text doesn't say so."""
        return self.extra("strategies") in ("[one_for_one]", "[simple_one_for_one]")

    def ancestors(self) -> List[str]:
        """The pids and names of the one that began it, of the one that began that, and so on."""
        began = re.search(r"{'\$ancestors',\[(.*?)\]}", self.extra("dictionary") or "")
        return began[1].split(",") if began else []


def items_in(text: str) -> Tuple[Dict[str, str], str]:
    """Returns what the text of a process says by its keys, and what of that isn't understood, or nothing."""
    items: Dict[str, str] = {}
    fault = ""
    for key, value in ITEM.findall(text):
        if key in items or key in FORMS and not FORMS[key].fullmatch(value):
            why = "twice" if key in items else "in a form that isn't understood"
            fault = fault or f"its text has '{{{key},..}}' {why}"
        items.setdefault(intern(key), intern(value) if len(value) < SHORT else value)
    return items, fault


def call_of(limit: re.Match[str], text: str) -> ErlangCall:
    """Returns the call of a process by what LIMIT has found. A call of an event manager has no limit."""
    function = (limit["call"] or limit["event"] or "gen_server:receive_response").split("/")[0].replace("call1", "call")
    request = REQUEST.search(text)
    words = [other or "" for other in request.groups()] if request else ["", ""]
    return shared_call(of_elixir(function).replace(":", "." if "Elixir" in function else ":"),
                       limit["limit"] or limit["response"] or "infinity", *words)


@lru_cache(maxsize=KEPT)
def shared_call(*words: str) -> ErlangCall:
    return ErlangCall(*words)


def of_elixir(text: str) -> str:
    """Returns a text with modules of Elixir as its programs name them: Shop.Server."""
    return OF_ELIXIR.sub(r"\1", text) if "'Elixir." in text else text


@lru_cache(maxsize=KEPT)
def words_of(text: str) -> List[str]:
    """Returns the words of a text. Processes of one module share these lists, which nobody changes."""
    return ANY_WORD.findall(text)


@lru_cache(maxsize=KEPT)
def function_of(module: str, name: str, arity: str) -> Function:
    """Returns a function as many processes share it."""
    return module, name, arity


@lru_cache(maxsize=KEPT)
def places_of(text: str) -> Tuple[Function, List[str], List[str]]:
    """Returns the function that is topmost in a trace, all its frames, and those of the job's own. Many processes stand
    at the same places, so they share these lists, which nobody changes."""
    trace = TRACE.findall(text)
    stack = [frame(function_name(*function), *([file, line] if line else [])) for *function, file, line in trace]
    own = [other for other, (module, *_) in zip(stack, trace) if not OF_SYSTEM.fullmatch(module)]
    return trace[0][:3] if trace else ("", "", ""), stack, own


@lru_cache(maxsize=KEPT)
def watched_by(node: str, monitors: str) -> Tuple[Key, ...]:
    """Returns the keys of those that a process of a node monitors. Those of a pool monitor the same."""
    return tuple(dict.fromkeys((node, key) if key[0] == "<" else key for key in WATCHED.findall(monitors)))


def function_name(module: str, name: str, arity: str) -> str:
    short = of_elixir(module)
    return f"{short}{':' if short == module else '.'}{of_elixir(name)}/{arity}"
