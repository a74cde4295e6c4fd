-module(main_ends). -export([start/0, main/0, init/1]). -behaviour(supervisor).
%% The main process sleeps as its last deed, and its supervisor ends with it, and so do its servers.
start() -> spawn(?MODULE, main, []).
main() -> {ok, _} = supervisor:start_link(?MODULE, []), spawn(two_locks, customer, [one, two]), spawn(two_locks, customer, [two, one]), spawn(fun() -> R = monitor(process, two_locks), receive {'DOWN', R, _, _, _} -> io:format("done done ~n") end end), timer:sleep(15000).
init([]) -> {ok, {#{strategy => one_for_one}, [#{id => two_locks, start => {gen_server, start_link, [{local, two_locks}, two_locks, [], []]}}]}}.
