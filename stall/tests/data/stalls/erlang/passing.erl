%% Healthy: as h_ring, on two nodes.
-module(passing). -behaviour(gen_server). -export([start/0, open/1, init/1, handle_call/3, handle_cast/2, handle_info/2]).
start() -> Other = list_to_atom("far@" ++ tl(string:find(atom_to_list(node()), "@"))),
  spawn(fun() -> pong = net_adm:ping(Other), spare:base(), {ok, A} = gen_server:start_link(?MODULE, [], []),
    B = rpc:call(Other, ?MODULE, open, [self()]), gen_server:cast(A, {ball, B, 0}), receive stop -> ok end end).
open(_) -> {ok, B} = gen_server:start(?MODULE, [], []), B.
init([]) -> erlang:send_after(1000, self(), stats), {ok, 0}.
handle_call(_, _, S) -> {reply, ok, S}.
handle_cast({ball, From, 500000000}, S) -> gen_server:cast(spare, give), gen_server:cast(From, {ball, self(), 0}), {noreply, S};
handle_cast({ball, From, N}, S) -> gen_server:cast(From, {ball, self(), N + 1}), {noreply, S}.
handle_info(stats, S) -> erlang:send_after(1000, self(), stats), {noreply, S + 1}.
