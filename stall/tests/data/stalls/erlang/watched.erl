%% Two servers call each other. Ten minutes later one of them is killed: by a handler of events that has begun a timer, or
%% by a function that the module timer calls again and again. Then the call of the other one ends.
-module(watched).
-export([open/1, init/1, handle_call/2, handle_call/3, handle_cast/2, handle_event/2, handle_info/2, check/0]).

open(By) ->
    {ok, _} = gen_server:start({local, left}, watched, right, []),
    {ok, _} = gen_server:start({local, right}, watched, left, []),
    watch(By),
    [gen_server:cast(Name, ask) || Name <- [left, right]].

watch(event) ->
    {ok, _} = gen_event:start({local, events}),
    ok = gen_event:add_handler(events, watched, watch);
watch(interval) ->
    %% (the timer ends with the process that begins it)
    spawn(fun() -> {ok, _} = timer:apply_interval(600000, watched, check, []), receive stop -> ok end end).

check() -> exit(whereis(left), kill).

init(watch) -> {ok, erlang:send_after(600000, self(), check)};
init(Other) -> {ok, Other}.

handle_cast(ask, Other) ->
    timer:sleep(200),
    {noreply, gen_server:call(Other, hello, infinity)}.

handle_call(hello, _, Other) -> {reply, Other, Other}.

handle_call(_, Timer) -> {ok, none, Timer}.

handle_event(_, Timer) -> {ok, Timer}.

handle_info(check, Timer) -> check(), {ok, Timer}.
