-module(late_watch). -export([start/0, watch/1, restart/0, boss/0, holder/0]).
%% A watchdog asks with a limit, and fails if that is late; who monitors it breaks the deadlock.
start() -> two_locks:go(), {ok, _} = slow_part:start_link(), spawn(?MODULE, holder, []), timer:sleep(400), slow_part:block(), spawn(?MODULE, restart, []), receive stop -> ok end.
holder() -> ok.
restart() -> {P, R} = spawn_monitor(?MODULE, watch, [0]), receive {'DOWN', R, _, P, _} -> two_locks ! break end.
watch(N) -> pong = gen_server:call(slow_part, ping, 15000), timer:sleep(100), watch(N + 1).
boss() -> ok.
