%% Two servers that wait for each other. Beside them is one who goes on by itself, or who ends that, in ten minutes.
-module(beside).
-behaviour(gen_server).
-export([open/1, ask/0, run/1, rate/1, collect/1, look/2, show/2]).
-export([init/1, handle_call/3, handle_cast/2, handle_info/2]).

open(Case) ->
    group_leader(whereis(user), self()), % (the one who asks is on another node)
    Caller = self(),
    spawn(fun() -> keep(Caller, Case) end),
    receive kept -> ok end.

keep(Caller, Case) ->
    {ok, _} = gen_server:start({local, left}, beside, Case, []),
    {ok, _} = gen_server:start({local, right}, beside, none, []),
    begin_apart(Case),
    Caller ! kept,
    left ! begin_now,
    timer:sleep(infinity).

begin_apart(Case) when Case =:= own_timer; Case =:= port -> register(runner, spawn(beside, run, [Case]));
begin_apart(backend) ->
    {ok, _} = gen_server:start({local, gate}, beside, none, []),
    register(client, spawn(beside, ask, []));
begin_apart(_) -> none.

%% Who waits for a timer of its own, or for a program.
run(own_timer) ->
    erlang:send_after(600000, self(), again),
    ran = wait_again(),
    run(own_timer);
run(port) ->
    open_port({spawn, "sleep 600"}, [exit_status]),
    ran = wait_exit(),
    run(port).

wait_again() -> receive again -> ran end.

wait_exit() -> receive {_, {exit_status, _}} -> ran end.

ask() ->
    {error, down} = gen_server:call(gate, open, infinity),
    ask().

init(Case) ->
    begin_linked(Case),
    {ok, {0, none}}.

begin_linked(rate) -> spawn_link(beside, rate, [600]);
begin_linked(collect) -> spawn_link(beside, collect, [0]);
begin_linked(monitor) -> spawn_link(beside, look, [0, shelf_1]);
begin_linked(device) -> gen_server:start(beside, {device, spawn_link(beside, show, [0, none])}, []);
begin_linked({device, Device}) ->
    group_leader(Device, self()),
    erlang:send_after(1000, self(), print);
begin_linked(_) -> none.

handle_call(open, From, {Number, _}) ->
    self() ! connect,
    {noreply, {Number, From}};
handle_call(back, _, State) -> {reply, gen_server:call(left, count, infinity), State};
handle_call(count, _, State) -> {reply, 0, State}.

handle_cast(_, State) -> {noreply, State}.

handle_info(begin_now, State) ->
    gen_server:call(right, back, infinity),
    {noreply, State};
handle_info(print, State) ->
    io:format("printed~n"),
    erlang:send_after(1000, self(), print),
    {noreply, State};
%% It tries each second whether its backend is there, and gives up in ten minutes.
handle_info(connect, State) ->
    monitor(process, backend),
    {noreply, State};
handle_info({'DOWN', _, _, _, _}, {600, Client}) ->
    gen_server:reply(Client, {error, down}),
    {noreply, {0, none}};
handle_info({'DOWN', _, _, _, _}, {Number, Client}) ->
    erlang:send_after(1000, self(), connect),
    {noreply, {Number + 1, Client}}.

%% These fail in ten minutes: by a division, as they are told that memory is free, and that somebody isn't there.
rate(Left) ->
    logger:debug("~b for each", [1000000 div Left]),
    timer:sleep(1000),
    rate(Left - 1).

collect(Number) ->
    erlang:garbage_collect(self(), [{async, Number}]),
    receive {garbage_collect, 600, _} -> exit(collected) after 1000 -> collect(Number + 1) end.

look(Number, Whom) ->
    Monitor = monitor(process, Whom),
    receive
        {'DOWN', Monitor, _, _, _} when Number > 599 -> exit(missing)
    after 1000 ->
        demonitor(Monitor),
        look(Number + 1, Whom)
    end.

%% Shows what others print, and fails in ten minutes.
show(600, _) -> exit(full);
show(Number, _) ->
    receive {io_request, From, As, Text} ->
        From ! {io_reply, As, ok},
        show(Number + 1, Text)
    end.
