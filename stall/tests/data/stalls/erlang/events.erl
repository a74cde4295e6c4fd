%% Counts events, and tells one of them to somebody.
-module(events).
-behaviour(gen_event).
-export([init/1, handle_event/2, handle_call/2]).

init({Whom, _}) -> {ok, {Whom, 0}};
init(Whom) -> {ok, {Whom, 0}}.

handle_event(_, {Whom, 600}) ->
    exit(Whom, kill),
    {ok, {Whom, 0}};
handle_event(_, {Whom, Count}) -> {ok, {Whom, Count + 1}}.

handle_call(_, State) -> {ok, State, State}.
