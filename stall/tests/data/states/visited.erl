%% Processes that cmh_state_reader has to find, each registered under the way in which it can be found or under what is
%% odd about it, and one that it leaves out.
-module(visited).
-behaviour(gen_server).
-export([open/0, init/1, handle_call/2, handle_call/3, handle_cast/2, handle_event/2, stop/1]).

open() ->
    {ok, _} = gen_server:start({local, by_server}, visited, [], []),
    {ok, _} = gen_server:start({local, by_timer}, visited, timer, []),
    {ok, _} = gen_event:start({local, events}),
    ok = gen_event:add_handler(events, visited, []),
    register(by_start, spawn(visited, init, [waits])),
    start(by_frame, fun() -> receive never -> ok end end),
    start(by_monitor, fun() -> gen_server:call(by_server, keep, infinity) end),
    register(left_out, spawn(timer, sleep, [infinity])),
    Bytes = [$a, 160, 200, 233],
    start(odd_bytes, fun() -> keep(Bytes) end),
    start(odd_letters, fun() -> keep('\x{43b}') end),
    start(deep, fun() -> fall(2000) end),
    start(few_messages, fun() -> keep(none) end),
    start(large_messages, fun() -> keep(none) end),
    start(many_messages, fun() -> keep(none) end),
    [few_messages ! Number || Number <- lists:seq(1, 20000)],
    [large_messages ! lists:seq(1, 2000) || _ <- lists:seq(1, 1000)],
    [many_messages ! Number || Number <- lists:seq(1, 50000)],
    %% (what it waits for comes after something long)
    start(long_message, fun() -> keep(none) end),
    long_message ! {lists:seq(1, 100000), the_end}.

start(Name, Function) -> register(Name, spawn(Function)).

keep(Term) -> receive never -> Term end.

fall(0) -> receive never -> 0 end;
fall(Depth) -> 1 + fall(Depth - 1).

init(waits) -> timer:sleep(infinity);
init(timer) ->
    {ok, _} = timer:apply_interval(600000, erlang, garbage_collect, []), % (which ends with the process that begins it)
    {ok, erlang:start_timer(600000, self(), wake)};
init(State) -> {ok, State}.

%% Keeps its caller.
handle_call(keep, _From, State) -> {noreply, State}.

handle_cast(_, State) -> {noreply, State}.

%% As a handler of events, which may end others.
handle_event(Who, State) -> stop(Who), {ok, State}.

handle_call(_, State) -> {ok, none, State}.

stop(Who) -> exit(Who, kill).
