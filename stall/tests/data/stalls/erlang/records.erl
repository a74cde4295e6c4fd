%% Orders that keep whom they have to answer in a table, and do so in ten minutes.
-module(records).
-behaviour(gen_server).
-export([init/1, handle_call/3, handle_cast/2, handle_info/2]).

init(State) ->
    ets:new(kept, [named_table, public]),
    {ok, State}.

handle_call(order, From, State) ->
    ets:insert(kept, {order, From}),
    erlang:send_after(600000, self(), answer),
    {noreply, State}.

handle_cast(_, State) -> {noreply, State}.

handle_info(answer, State) ->
    [{order, From}] = ets:lookup(kept, order),
    gen_server:reply(From, ok),
    {noreply, State}.
