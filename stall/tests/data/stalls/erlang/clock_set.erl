-module(clock_set). -export([start/0, init/1, handle_call/3, handle_cast/2, handle_info/2]). -behaviour(gen_server).
%% The clock is a setting, so that tests may have another one.
start() -> two_locks:go(), application:set_env(kernel, clock, erlang), {ok, _} = gen_server:start({local, ?MODULE}, ?MODULE, [], []).
init([]) -> Clock = application:get_env(kernel, clock, erlang), Clock:send_after(15000, self(), check), {ok, []}.
handle_call(_, _, S) -> {reply, ok, S}.
handle_cast(_, S) -> {noreply, S}.
handle_info(check, S) -> two_locks ! break, {noreply, S}.
