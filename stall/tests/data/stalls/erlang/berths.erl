%% A harbour gives berths away, and keeps those who wait for one. Two have a berth each and want another one beside it,
%% and a shell tells the harbour of one more by a map.
-module(berths).
-behaviour(gen_server).
-export([open/1, dock/0]).
-export([init/1, handle_call/3, handle_cast/2, handle_info/2]).

open(told) ->
    group_leader(whereis(user), self()), % (the one who asks is on another node)
    {ok, _} = gen_server:start({local, harbour}, berths, [1, 2], []),
    register(barge, spawn(berths, dock, [])),
    timer:sleep(50),
    register(ferry, spawn(berths, dock, [])).

take() -> gen_server:call(harbour, take, infinity).

leave(Berth) -> gen_server:cast(harbour, {leave, Berth}).

dock() ->
    One = take(),
    timer:sleep(200),
    Other = take(),
    leave(Other),
    leave(One),
    dock().

init(Berths) -> {ok, {Berths, []}}.

handle_call(take, _, {[Berth | Free], Waiting}) -> {reply, Berth, {Free, Waiting}};
handle_call(take, From, {[], Waiting}) -> {noreply, {[], Waiting ++ [From]}}.

handle_cast({leave, Berth}, State) -> {noreply, given(Berth, State)}.

handle_info(#{built := Berth}, State) -> {noreply, given(Berth, State)}.

given(Berth, {Free, []}) -> {[Berth | Free], []};
given(Berth, {Free, [From | Waiting]}) ->
    gen_server:reply(From, Berth),
    {Free, Waiting}.
