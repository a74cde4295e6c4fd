%% A table of callers, whom another process answers in ten minutes.
-module(shelf).
-export([keep/1, clerk/0]).

keep(From) ->
    Clerk = spawn(shelf, clerk, []),
    receive after 100 -> ets:insert(shelf, {first, From}) end,
    Clerk.

clerk() ->
    ets:new(shelf, [named_table, public]),
    timer:sleep(600000),
    [{first, From}] = ets:lookup(shelf, first),
    gen_server:reply(From, ok).
