-module(poker). -export([start/0, tick/1]).
start() -> spawn(fun() -> spare:base(), spawn(?MODULE, tick, [0]), receive stop -> ok end end).
tick(N) -> timer:sleep(1000), ok = gen_server:call(spare, {poke, N}), tick(N + 1).
