%% Processes of a module that need not be printed.
-module(visitor).
-export([visit/1, help/1]).

visit(Day) ->
    pool:take(),
    timer:sleep(300),
    Day =:= stuck andalso pool:take(),
    timer:sleep(60000).

help(From) ->
    timer:sleep(60000),
    gen_server:reply(From, ok).
