-module(napper). -export([start/0, nap/0]).
start() -> spawn(fun() -> {ok, _} = spare:start_link(), spawn(?MODULE, nap, []), timer:sleep(200), [spawn(spare, hold, [N]) || N <- [1, 2]], receive stop -> ok end end).
nap() -> spare:take(), timer:sleep(60000).
