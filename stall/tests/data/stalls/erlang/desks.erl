%% A server gives desks away, and keeps those who wait for one. Two have a desk each and want another one beside it, or
%% one that has the only desk waits for what a shell tells it, or there is no desk before a shell gives one. A watch
%% counts each second, and so does the server.
-module(desks).
-behaviour(gen_server).
-export([open/1, take/0, give/1, work/1, watch/1]).
-export([init/1, handle_call/3, handle_cast/2, handle_info/2]).

open(Case) ->
    group_leader(whereis(user), self()), % (the one who asks is on another node)
    {ok, _} = gen_server:start({local, desks}, desks, Case, []),
    register(watch, spawn(desks, watch, [0])),
    register(first, spawn(desks, work, [Case])),
    timer:sleep(50),
    register(second, spawn(desks, work, [case Case of session -> crossed; _ -> Case end])).

take() -> gen_server:call(desks, take, infinity).

give(Desk) -> gen_server:cast(desks, {give, Desk}).

work(crossed) ->
    One = take(),
    timer:sleep(200),
    Other = take(),
    give(Other),
    give(One),
    work(crossed);
work(session) ->
    Desk = take(),
    receive {write, _} -> ok end,
    give(Desk),
    work(session);
work(empty) ->
    give(take()),
    work(empty).

watch(Number) ->
    receive
        {count, From} -> From ! {count, Number}, watch(Number)
    after 1000 ->
        gen_server:call(desks, count),
        watch(Number + 1)
    end.

init(Case) ->
    erlang:send_after(1000, self(), tick),
    {ok, {case Case of crossed -> [1, 2]; session -> [1]; empty -> [] end, [], 0}}.

handle_call(take, _, {[Desk | Free], Waiting, Ticks}) -> {reply, Desk, {Free, Waiting, Ticks}};
handle_call(take, From, {[], Waiting, Ticks}) -> {noreply, {[], Waiting ++ [From], Ticks}};
handle_call(count, _, {_, Waiting, _} = State) -> {reply, length(Waiting), State}.

handle_cast({give, Desk}, {Free, [], Ticks}) -> {noreply, {[Desk | Free], [], Ticks}};
handle_cast({give, Desk}, {Free, [From | Waiting], Ticks}) ->
    gen_server:reply(From, Desk),
    {noreply, {Free, Waiting, Ticks}}.

handle_info(tick, {Free, Waiting, Ticks}) ->
    erlang:send_after(1000, self(), tick),
    {noreply, {Free, Waiting, Ticks + 1}}.
