%% A manager closes a room, by a stop, by a cast or by a message, and waits for its end or its answer. A visitor sends it
%% casts meanwhile.
-module(rooms).
-behaviour(gen_server).
-export([open/4, client/1, visit/0, init/1, handle_call/3, handle_cast/2, handle_info/2, terminate/2]).

%% How is stop, cast or message. A room archives its scores by the manager as it ends, or is slow. The other one waits for
%% visitors, or calls the manager. The manager watches some of them all the time.
open(How, Kind, Other, Watched) ->
    {ok, _} = gen_server:start({local, manager}, rooms, manager, []),
    {ok, Room} = gen_server:start({local, room}, rooms, Kind, []),
    {ok, _} = gen_server:start({local, other}, rooms, Other, []),
    ok = gen_server:call(manager, {watch, Watched}),
    register(client, spawn(rooms, client, [{close, How, Room}])),
    register(visitor, spawn(rooms, visit, [])),
    timer:sleep(500),
    gen_server:cast(other, work),
    ok.

client(Request) -> {done, _} = gen_server:call(manager, Request, infinity).

visit() ->
    timer:sleep(700),
    gen_server:cast(manager, visit),
    visit().

init(Kind) ->
    process_flag(trap_exit, true),
    {ok, Kind}.

handle_call({watch, Names}, _From, manager) ->
    [monitor(process, Name) || Name <- Names],
    {reply, ok, manager};
handle_call({close, How, Room}, _From, manager) ->
    ok = close(How, Room),
    {reply, {done, Room}, manager};
handle_call(archive, _From, manager) ->
    {reply, ok, manager}.

close(stop, Room) -> gen_server:stop(Room);
close(cast, Room) -> end_of(Room);
close(message, Room) -> answer_of(Room).

end_of(Room) ->
    Reference = monitor(process, Room),
    gen_server:cast(Room, stop),
    receive {'DOWN', Reference, process, _, _} -> ok end.

answer_of(Room) ->
    Reference = monitor(process, Room),
    Room ! {close, self(), Reference},
    receive
        {Reference, closed} -> demonitor(Reference, [flush]), ok;
        {'DOWN', Reference, process, _, _} -> ok
    end.

handle_cast(stop, Kind) -> {stop, normal, Kind};
handle_cast(work, calls) ->
    ok = gen_server:call(manager, archive, infinity),
    {noreply, calls};
handle_cast(_, State) -> {noreply, State}.

handle_info({close, Whom, Reference}, Kind) ->
    terminate(normal, Kind),
    Whom ! {Reference, closed},
    {noreply, Kind}.

terminate(_, asks) -> gen_server:call(manager, archive, infinity);
terminate(_, slow) -> timer:sleep(60000);
terminate(_, _) -> ok.
