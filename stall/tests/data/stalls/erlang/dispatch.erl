%% A dispatcher gives each order to a worker, and waits in a receive of its own until that one is done. A worker asks the
%% dispatcher for the settings while it works. On a good day it has them already, and computes for a long time.
-module(dispatch).
-behaviour(gen_server).
-export([open/1, init/1, handle_call/3, handle_cast/2, worker/1, client/0]).

open(Day) ->
    Workers = [spawn(dispatch, worker, [Day]) || _ <- [1, 2]],
    {ok, _} = gen_server:start({local, dispatcher}, dispatch, Workers, []),
    register(client, spawn(dispatch, client, [])).

client() -> gen_server:call(dispatcher, {order, 7}, infinity).

init(Workers) -> {ok, Workers}.

handle_call(settings, _, Workers) -> {reply, [], Workers};
handle_call({order, Number}, _, [Worker | Others]) ->
    Reference = make_ref(),
    Worker ! {work, self(), Reference, Number},
    receive {done, Reference, Result} -> {reply, Result, Others ++ [Worker]} end.

handle_cast(_, Workers) -> {noreply, Workers}.

worker(Day) ->
    receive {work, From, Reference, Number} ->
        work(Day, Number),
        From ! {done, Reference, Number}
    end,
    worker(Day).

work(dispatch, _) -> gen_server:call(dispatcher, settings, infinity);
work(dispatch_works, Number) -> timer:sleep(600000), Number.
