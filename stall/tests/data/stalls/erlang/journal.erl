%% A ledger tells each booking to a journal, an event manager, and waits until all its handlers have seen it. One handler
%% asks the ledger for its name. On a good day that handler writes to a slow disk instead, for up to ten minutes.
-module(journal).
-behaviour(gen_server).
-export([open/1, init/1, handle_call/3, handle_cast/2, handle_call/2, handle_event/2, client/0]).

open(Day) ->
    {ok, Journal} = gen_event:start({local, journal}),
    ok = gen_event:add_handler(Journal, journal, {handler, Day}),
    {ok, _} = gen_server:start({local, ledger}, journal, ledger, []),
    register(client, spawn(journal, client, [])).

client() -> ok = gen_server:call(ledger, {book, 7}, infinity).

init(State) -> {ok, State}.

handle_call(name, _, ledger) -> {reply, "main", ledger};
handle_call({book, Number}, _, ledger) -> {reply, gen_event:sync_notify(journal, {booked, Number}), ledger}.

handle_cast(_, State) -> {noreply, State}.

%% Of the handler.
handle_event({booked, Number}, {handler, Day}) ->
    write(Day, Number),
    {ok, {handler, Day}}.

handle_call(_, State) -> {ok, none, State}.

write(journal, Number) -> {gen_server:call(ledger, name, infinity), Number};
write(journal_writes, _) -> receive written -> ok after 600000 -> lost end.
