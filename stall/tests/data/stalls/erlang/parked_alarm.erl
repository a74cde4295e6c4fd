%% A counter that a helper reminds of its callers.
-module(parked_alarm).
-behaviour(gen_server).
-export([init/1, handle_call/3, handle_cast/2, handle_info/2]).

init(_) -> {ok, none}.

handle_call({stamp, form}, From, none) ->
    alarm:later(self(), {again, From}),
    {noreply, none}.

handle_cast(_, none) -> {noreply, none}.

handle_info({again, From}, none) ->
    gen_server:reply(From, ok),
    {noreply, none}.
