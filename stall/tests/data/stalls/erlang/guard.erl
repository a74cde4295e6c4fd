%% Kills one in a minute: a process that watches it, or a server that has it in its state.
-module(guard).
-behaviour(gen_server).
-export([watch/1, init/1, handle_call/3, handle_cast/2, handle_info/2]).

watch(Whom) ->
    receive stop -> ok after 60000 -> exit(Whom, kill) end.

init(Whom) -> {ok, Whom, 60000}.

handle_call(_, _, Whom) -> {reply, ok, Whom}.

handle_cast(_, Whom) -> {noreply, Whom}.

handle_info(timeout, Whom) ->
    exit(Whom, kill),
    {noreply, Whom}.
