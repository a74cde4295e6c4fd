%% A pool of two printers, for ann and for a visitor of another module. It monitors who has one, and keeps the callers
%% that come when none is free. Ann asks for a second one. In a `stuck` shop the visitor does too; else it brings its
%% own back in a minute.
-module(pool).
-behaviour(gen_server).
-export([open/1, init/1, handle_call/3, handle_cast/2, handle_info/2, ann/0, take/0]).

open(Day) ->
    {ok, _} = gen_server:start({local, pool}, pool, [printer_1, printer_2], []),
    register(ann, spawn(pool, ann, [])),
    register(visitor, spawn(visitor, visit, [Day])).

ann() ->
    take(),
    timer:sleep(300),
    take(),
    exit(printed).

take() -> gen_server:call(pool, take, infinity).

init(Printers) -> {ok, {Printers, #{}, []}}.

handle_call(take, {Client, _}, {[Printer | Free], Given, Kept}) ->
    {reply, Printer, {Free, Given#{monitor(process, Client) => Printer}, Kept}};
handle_call(take, From, {[], Given, Kept}) -> {noreply, {[], Given, Kept ++ [From]}}.

handle_cast(_, State) -> {noreply, State}.

handle_info({'DOWN', Monitor, process, _, _}, {Free, Given, [{Client, _} = From | Kept]}) ->
    {Printer, Others} = maps:take(Monitor, Given),
    gen_server:reply(From, Printer),
    {noreply, {Free, Others#{monitor(process, Client) => Printer}, Kept}};
handle_info({'DOWN', Monitor, process, _, _}, {Free, Given, []}) ->
    {Printer, Others} = maps:take(Monitor, Given),
    {noreply, {[Printer | Free], Others, []}}.
