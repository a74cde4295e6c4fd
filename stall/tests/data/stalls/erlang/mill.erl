%% A pipeline of plain processes with back pressure: each stage sends to the next one as far as that has asked for more.
-module(mill).
-export([start/1, source/2, stage/3, sink/3, meter/1]).

start(Mode) ->
    spawn(fun() ->
        register(mill, self()),
        Sink = spawn_link(?MODULE, sink, [Mode, self(), 0]),
        Wash = spawn_link(?MODULE, stage, [wash, Sink, 2]),
        Sort = spawn_link(?MODULE, stage, [sort, Wash, 2]),
        Sink ! {rework_to, Sort},
        Source = spawn_link(?MODULE, source, [Sort, 1]),
        Meter = spawn(?MODULE, meter, [[Source, Sort, Wash, Sink]]),
        register(meter, Meter),
        wait_for(Sink)
    end).

wait_for(Sink) ->
    Ref = monitor(process, Sink),
    receive {'DOWN', Ref, process, _, Why} -> exit(Why) end.

source(Next, N) ->
    push(Next, {item, N}),
    source(Next, N + 1).

%% Hands an item on, and waits until it is taken.
push(Next, Item) ->
    Ref = make_ref(),
    Next ! {push, self(), Ref, Item},
    receive {taken, Ref} -> ok end.

stage(Name, Next, Work) ->
    receive
        {push, From, Ref, Item} ->
            From ! {taken, Ref},
            timer:sleep(Work),
            push(Next, {Name, Item})
    end,
    stage(Name, Next, Work).

%% Each tenth item is bad, and goes back to be sorted anew.
sink(Mode, Parent, Count) ->
    receive {rework_to, Sort} -> sink(Mode, Parent, Count, Sort) end.

sink(Mode, Parent, Count, Sort) ->
    receive
        {push, From, Ref, Item} ->
            From ! {taken, Ref},
            done(Mode, Count, Item, Sort),
            sink(Mode, Parent, Count + 1, Sort)
    end.

done(stuck, Count, Item, Sort) when Count rem 10 =:= 9 -> push(Sort, {again, Item});
done(healthy, 29, _, _) -> timer:sleep(60000);
done(_, _, _, _) -> ok.

meter(Pids) ->
    Lengths = [process_info(Pid, message_queue_len) || Pid <- Pids],
    logger:debug("mill ~p", [Lengths]),
    erlang:send_after(1000, self(), again),
    receive again -> meter(Pids) end.
