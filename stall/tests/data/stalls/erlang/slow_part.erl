-module(slow_part). -export([start_link/0, block/0, init/1, handle_call/3, handle_cast/2, handle_info/2]). -behaviour(gen_server).
start_link() -> gen_server:start_link({local, ?MODULE}, ?MODULE, [], []).
block() -> gen_server:cast(?MODULE, block).
init([]) -> {ok, []}.
handle_call(ping, _, S) -> {reply, pong, S}.
handle_cast(block, S) -> timer:sleep(500), ok = two_locks:take(one), {noreply, S}.
handle_info(_, S) -> {noreply, S}.
