%% A server of locks, which is asked for a lock and to take it back by tuples of one size. Two move what lies in two
%% boxes. They take these in turns, or one of them begins at the other end, and another day one works for ten minutes.
-module(moves).
-behaviour(gen_server).
-export([open/1, move/3, rest/1]).
-export([init/1, handle_call/3, handle_cast/2, handle_info/2]).

open(Case) ->
    group_leader(whereis(user), self()), % (the one who asks is on another node)
    {ok, _} = gen_server:start({local, locks}, moves, Case, []),
    register(east, spawn(moves, move, [Case, one, two])),
    register(west, spawn(moves, move, [Case, two, one])).

move(slow, two, _) -> with(two, fun() -> rest(600000) end);
move(Case, First, Second) ->
    with(First, fun() -> rest(200), with(Second, fun() -> moved end) end),
    move(Case, First, Second).

rest(Limit) -> receive never -> ok after Limit -> ok end.

with(Lock, Fun) ->
    ok = gen_server:call(locks, {lock, Lock}, infinity),
    Fun(),
    ok = gen_server:call(locks, {unlock, Lock}, infinity).

init(Case) -> {ok, {Case, #{}}}.

handle_call({lock, Lock}, {P, _} = From, {Case, Locks}) ->
    case Locks of
        #{Lock := {Owner, Queue}} -> {noreply, {Case, Locks#{Lock := {Owner, Queue ++ [From]}}}};
        _ -> {reply, ok, {Case, Locks#{Lock => {{P, monitor(process, P)}, []}}}}
    end;
handle_call({unlock, Lock}, _, {Case, Locks}) -> {reply, ok, {Case, freed(Lock, Locks)}}.

handle_cast(_, State) -> {noreply, State}.

handle_info({'DOWN', _, process, P, _}, {Case, Locks}) ->
    {noreply, {Case, lists:foldl(fun freed/2, Locks, [Lock || {Lock, {{Owner, _}, _}} <- maps:to_list(Locks),
                                                              Owner =:= P])}}.

freed(Lock, Locks) ->
    case Locks of
        #{Lock := {{_, Monitor}, []}} ->
            demonitor(Monitor, [flush]),
            maps:remove(Lock, Locks);
        #{Lock := {{_, Monitor}, [{P, _} = From | Queue]}} ->
            demonitor(Monitor, [flush]),
            gen_server:reply(From, ok),
            Locks#{Lock := {{P, monitor(process, P)}, Queue}}
    end.
