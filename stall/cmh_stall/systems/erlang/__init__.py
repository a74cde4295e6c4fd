"""Erlang and Elixir."""
from __future__ import annotations

from ..descriptor import Assumption, Descriptor, Option, Units

SYSTEM = Descriptor(
    name="erlang",
    called="Erlang, Elixir",
    target="NODE.. [MODULE..]",
    manual="""Ar NODE ...
All processes of modules that aren't of Erlang's or Elixir's own.""",
    states="what cmh_state_reader prints, twice",
    by="Erlang and Elixir nodes",
    shows="calls and their references, supervisors",
    lacks="the cookie",
    stops="no process is held, but each while its own stack is printed",
    needs={"erl": "erlang-nox", "erlc": "erlang-nox"},
    short="Erlang",
    is_counted=True,
    serves=True,
    options=(Option("cookie-file", "", "the file with the cookie of the nodes", "FILE"),),
    units=Units(node="node", again="its supervisor"),
    operations="""gen_server:call gen_statem:call gen_event:rpc GenServer.call Task.await Task.await_many receive
        erpc:call global:set_lock mnesia:transaction timer:sleep Process.sleep gen_tcp:accept gen_tcp:recv
        gen_udp:recv gen_server:loop proc_lib:stop supervisor:shutdown""",
    assumptions={
        "answers": Assumption(
            "a call is answered by a process that has its reference on its stack, in its state, its mailbox or its "
            "dictionary, and by no table", "one that keeps it in a table of another process"),
        "lets-go": Assumption(
            "a server in its loop that no longer has a call doesn't fail by itself, if its code begins no timers",
            "a message that is on its way to it"),
        "down": Assumption(
            "the 'DOWN' of a monitor comes once the process that is monitored has ended, and from nobody else",
            "code that sends such a message by hand"),
        "tasks": Assumption("a task answers once, when its function has returned", "code that answers for it"),
        "global-locks": Assumption(
            "a lock of global is free once each process that has it has given it back or ended, and not by a lost "
            "connection of nodes", "a connection that is lost"),
        "transactions": Assumption(
            "a lock of Mnesia is free once each transaction that has it has ended, and not by an end of Mnesia",
            "an end of Mnesia"),
        "restarts": Assumption(
            "a supervisor that restarts one child alone doesn't give up, as it does where children fail again and "
            "again", "children that fail again and again"),
        "child": Assumption(
            "a supervisor that starts or stops a child waits for that child alone", "a child of another one"),
        "endings": Assumption(
            "no timer answers a call, no script that sleeps goes on, and a process is ended only by who has a link to "
            "it (a registry of Elixir's doesn't fail), by what fails below its supervisor, and by code that ends others"
            " or has a supervisor do so, of the modules that somebody runs or that these call",
            "a shell, or another node that isn't read"),
    },
)
