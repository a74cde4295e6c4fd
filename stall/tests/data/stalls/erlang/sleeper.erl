%% A server that hibernates, and answers nobody later.
-module(sleeper).
-behaviour(gen_server).
-export([init/1, handle_call/3, handle_cast/2]).

init(State) -> {ok, State, hibernate}.

handle_call(_, _, State) -> {reply, ok, State, hibernate}.

handle_cast(_, State) -> {noreply, State, hibernate}.
