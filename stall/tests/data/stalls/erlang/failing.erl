%% Orders that let a helper answer, and fail in ten minutes.
-module(failing).
-behaviour(gen_server).
-export([init/1, handle_call/3, handle_cast/2]).

init(State) -> {ok, State}.

handle_call(order, From, State) ->
    register(helper, spawn(passed, asks, [From])),
    erlang:send_after(600000, self(), fail),
    {noreply, State}.

handle_cast(_, State) -> {noreply, State}.
