%% A dispatcher waits in a receive of its own for the message with one reference, from its worker or from a timer of its
%% own in ten minutes. The worker asks the dispatcher for the settings.
-module(timed).
-behaviour(gen_server).
-export([open/1, init/1, handle_call/3, handle_cast/2, worker/0, client/0]).

open(_) ->
    {ok, _} = gen_server:start({local, dispatcher}, timed, spawn(timed, worker, []), []),
    register(client, spawn(timed, client, [])).

client() -> gen_server:call(dispatcher, order, infinity).

init(Worker) -> {ok, Worker}.

handle_call(settings, _, Worker) -> {reply, [], Worker};
handle_call(order, _, Worker) ->
    Reference = make_ref(),
    Worker ! {work, self(), Reference},
    erlang:send_after(600000, self(), {late, Reference}),
    receive
        {done, Reference, Result} -> {reply, Result, Worker};
        {late, Reference} -> {reply, late, Worker}
    end.

handle_cast(_, Worker) -> {noreply, Worker}.

worker() ->
    receive {work, From, Reference} -> From ! {done, Reference, gen_server:call(dispatcher, settings, infinity)} end.
