%% A customer asks the counter, which puts the caller away and answers in ten minutes. Who asks is known meanwhile to
%% another program alone, to a timer that a helper has begun, or to nobody: then the counter has forgotten it, on one day
%% beside a port that has nothing to do with it.
-module(parked).
-behaviour(gen_server).
-export([open/1, init/1, handle_call/3, handle_cast/2, customer/0]).

open(Day) ->
    {ok, _} = gen_server:start({local, counter}, counter_of(Day), Day, []),
    register(customer, spawn(parked, customer, [])).

counter_of(parked_in_program) -> parked_bytes;
counter_of(parked_in_timer) -> parked_alarm;
counter_of(_) -> parked.

customer() -> ok = gen_server:call(counter, {stamp, form}, infinity).

init(parked_beside_port) -> {ok, open_port({spawn_executable, "/bin/sleep"}, [{args, ["600"]}])};
init(Day) -> {ok, Day}.

handle_call({stamp, form}, _, State) -> {noreply, State}.

handle_cast(_, State) -> {noreply, State}.
