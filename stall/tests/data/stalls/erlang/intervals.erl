%% Two servers that call each other, beside timers that are repeated: one counts for `clock`, and by `kills` another one
%% that `sweeper` has begun ends one of the two after ten minutes.
-module(intervals).
-behaviour(gen_server).
-export([start/1, init/1, handle_call/3, handle_cast/2, handle_info/2, count/0, sweep/0]).

start(How) ->
    [gen_server:start({local, Name}, ?MODULE, Name, []) || Name <- [left, right, clock, sweeper]],
    gen_server:cast(clock, {each, send}),
    gen_server:cast(sweeper, {each, How}),
    gen_server:cast(left, {ask, right}),
    gen_server:cast(right, {ask, left}).

init(Name) -> {ok, Name}.

handle_call(_, _, Name) -> {reply, ok, Name}.

handle_cast({ask, Other}, Name) ->
    timer:sleep(200),
    ok = gen_server:call(Other, ask, infinity),
    {noreply, Name};
handle_cast({each, send}, Name) ->
    {ok, _} = timer:send_interval(600000, tick),
    {noreply, Name};
handle_cast({each, counts}, Name) ->
    {ok, _} = timer:apply_interval(600000, ?MODULE, count, []),
    {noreply, Name};
handle_cast({each, kills}, Name) ->
    {ok, _} = timer:apply_interval(600000, ?MODULE, sweep, []),
    {noreply, Name}.

handle_info(tick, Name) -> {noreply, Name}.

count() -> ok.

sweep() -> exit(whereis(left), kill).
