%% Healthy: a leader has a lock as long as it lives, and waits for requests. The others stand by.
-module(leader). -behaviour(gen_server). -export([start/0, standby/0, init/1, handle_call/3, handle_cast/2]).
start() -> spawn(fun() -> {ok, _} = lockd_sup:start_link(), {ok, _} = gen_server:start_link(?MODULE, [], []), [spawn(?MODULE, standby, []) || _ <- [1, 2]], receive stop -> ok end end).
standby() -> ok = lockd:acquire(leader), lead().
lead() -> receive {request, From} -> From ! done, lead() end.
init([]) -> ok = lockd:acquire(leader), {ok, 0}.
handle_call(count, _, S) -> {reply, S, S + 1}.
handle_cast(_, S) -> {noreply, S}.
