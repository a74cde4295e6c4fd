%% Two servers that wait for each other, beside others who only tick, or who end that in ten minutes.
-module(tickers).
-behaviour(gen_server).
-export([open/1, tick/1, tick_600/1, watch/1, stop_later/1, run_later/1]).
-export([init/1, handle_call/3, handle_cast/2, handle_info/2]).

open(Case) ->
    group_leader(whereis(user), self()), % (the one who asks is on another node)
    Caller = self(),
    spawn(fun() -> keep(Caller, Case) end),
    receive kept -> ok end.

keep(Caller, Case) ->
    {ok, _} = gen_server:start({local, shelf}, tickers, none, []),
    {ok, _} = gen_server:start({local, left}, tickers, Case, []),
    {ok, _} = gen_server:start({local, right}, tickers, none, []),
    Caller ! kept,
    left ! {begin_with, Case},
    timer:sleep(infinity).

init(Case) ->
    begin_beside(Case),
    {ok, #{kept => none}}.

begin_beside(ticker) -> spawn_link(tickers, tick, [0]);
begin_beside(ticker_fails) -> spawn_link(tickers, tick_600, [0]);
begin_beside(watch) -> spawn_link(tickers, watch, [0]);
begin_beside(watch_told) -> spawn(tickers, stop_later, [spawn_link(tickers, watch, [0])]);
begin_beside(shelf_told) -> spawn(tickers, run_later, [whereis(shelf)]);
begin_beside(events) -> begin_events(events, plain);
begin_beside(events_timed) -> begin_events(events_timed, plain);
begin_beside(events_log) ->
    error_logger:add_report_handler(events, whereis(right)),
    spawn_link(tickers, tick, [0]);
begin_beside(_) -> none.

begin_events(Handler, Args) ->
    {ok, Events} = gen_event:start_link(),
    ok = gen_event:add_handler(Events, Handler, Args).

handle_call({ask, Whom}, From, State) ->
    gen_server:call(shelf, {keep, fun() -> gen_server:reply(From, ok) end}),
    {reply, gen_server:call(Whom, back, infinity), State};
handle_call({keep, Fun}, _, State) -> {reply, ok, State#{kept := Fun}};
handle_call(back, _, State) -> {reply, gen_server:call(left, count, infinity), State};
handle_call(count, _, State) -> {reply, 0, State}.

handle_cast(_, State) -> {noreply, State}.

handle_info({begin_with, Case}, State) when Case =:= shelf; Case =:= shelf_told ->
    gen_server:call(right, {ask, left}, infinity),
    {noreply, State};
handle_info({begin_with, _}, State) ->
    gen_server:call(right, back, infinity),
    {noreply, State};
handle_info(run, #{kept := Fun} = State) ->
    Fun(),
    {noreply, State}.

tick(Number) ->
    logger:debug("tick ~b at ~p, ~b bytes", [Number, erlang:time(), erlang:memory(total)]),
    timer:sleep(1000),
    tick(Number + 1).

%% Fails in ten minutes.
tick_600(Number) ->
    true = Number < 600,
    timer:sleep(1000),
    tick_600(Number + 1).

watch(Number) ->
    receive
        {count, From} -> From ! {count, Number}, watch(Number);
        stop -> exit(stopped)
    after 1000 -> watch(Number + 1)
    end.

stop_later(Watch) ->
    timer:sleep(600000),
    Watch ! stop,
    stop_later(Watch).

run_later(Shelf) ->
    timer:sleep(600000),
    Shelf ! run,
    run_later(Shelf).
