-module(two_locks).
-behaviour(gen_server).
-export([start/0, go/0, customer/2, take/1]).
-export([init/1, handle_call/3, handle_cast/2, handle_info/2]).
%% Two take two locks in a different order. One who breaks that frees both.
start() -> {ok, _} = gen_server:start({local, two_locks}, ?MODULE, [], []), ok.
go() -> start(), spawn(?MODULE, customer, [one, two]), spawn(?MODULE, customer, [two, one]), ok.
take(Name) -> gen_server:call(two_locks, {take, Name}, infinity).
customer(A, B) -> ok = take(A), timer:sleep(300), R = take(B), io:format("done ~p ~p~n", [A, R]).
init([]) -> {ok, #{owners => #{}, waiting => []}}.
handle_call({take, Name}, {P, _} = From, #{owners := Owners, waiting := Waiting} = S) ->
    case Owners of
        #{Name := _} -> {noreply, S#{waiting := Waiting ++ [{From, Name}]}};
        _ -> {reply, ok, S#{owners := Owners#{Name => {P, monitor(process, P)}}}}
    end.
handle_cast(break, S) -> broken(S);
handle_cast(_, S) -> {noreply, S}.
handle_info(break, S) -> broken(S);
handle_info({'DOWN', R, _, P, _}, #{owners := Owners, waiting := W} = S) ->
    Left = maps:filter(fun(_, {Q, T}) -> {Q, T} =/= {P, R} end, Owners),
    {noreply, given(S#{owners := Left, waiting := W})};
handle_info(_, S) -> {noreply, S}.
broken(#{waiting := W} = S) -> [gen_server:reply(From, {error, deadlock}) || {From, _} <- W], {noreply, S#{waiting := []}}.
given(#{owners := O, waiting := W} = S) ->
    case [It || {_, N} = It <- W, not is_map_key(N, O)] of
        [] -> S;
        [{{P, _} = From, N} = It | _] -> gen_server:reply(From, ok), given(S#{owners := O#{N => {P, monitor(process, P)}}, waiting := W -- [It]})
    end.
