%% Servers that keep their callers, and answer them later. A pool has two rooms, and monitors who has one and who waits:
%% each party wants a second room. A server of keys has for each who has it, and who waits for it. A cache fetches what
%% it lacks by a process of its own, for all who ask. Others ask with a limit, again and again.
-module(keeper).
-behaviour(gen_server).
-export([open/1, loop/1, init/1, handle_call/3, handle_cast/2, handle_info/2]).

%% Kind is stuck, or slow: then a party stays for two minutes, and so do who has the key of the attic and the library.
open(Kind) ->
    [{ok, _} = gen_server:start({local, Name}, ?MODULE, Name, []) || Name <- [pool, keys, cache]],
    {ok, _} = gen_server:start({local, library}, ?MODULE, {library, Kind}, []),
    [register(Name, spawn(?MODULE, loop, [{What, Kind}]))
     || {Name, What} <- [{party_1, party}, {party_2, party}, {party_3, party}, {ann, {keys, attic, cellar}},
                         {bob, {keys, cellar, attic}}, {reader, reader}, {guest, guest}, {gardener, {keys, shed}}]],
    timer:sleep(300),
    register(heir, spawn(?MODULE, loop, [{{keys, shed}, Kind}])),
    ok.

loop({What, Kind}) ->
    do(What, Kind),
    loop({What, Kind}).

do(party, Kind) ->
    One = ask(pool, enter),
    timer:sleep(100),
    [timer:sleep(120000) || Kind =:= slow],
    Other = ask(pool, enter),
    [ok = ask(pool, {leave, Room}) || Room <- [One, Other]];
do({keys, What}, _) ->
    ok = ask(keys, {take, What}),
    timer:sleep(120000),
    ok = ask(keys, {give, What});
do({keys, One, Other}, Kind) ->
    ok = ask(keys, {take, One}),
    [timer:sleep(120000) || {Kind, One} =:= {slow, attic}],
    timer:sleep(100),
    ok = ask(keys, {take, Other}),
    [ok = ask(keys, {give, Key}) || Key <- [One, Other]];
do(reader, _) -> {page, _} = ask(cache, {get, intro});
do(guest, _) ->
    catch gen_server:call(pool, enter, 400),
    timer:sleep(100).

ask(Whom, What) -> gen_server:call(Whom, What, infinity).

init(pool) -> {ok, {pool, [red, blue], queue:new(), #{}}};
init(keys) -> {ok, {keys, #{}}};
init(cache) -> {ok, {cache, #{}, #{}}};
init(Other) -> {ok, Other}.

handle_call(enter, {Pid, _} = From, {pool, Free, Waiting, Having}) ->
    Monitor = monitor(process, Pid),
    case Free of
        [] -> {noreply, {pool, [], queue:in({From, Monitor}, Waiting), Having}};
        [Room | More] -> {reply, Room, {pool, More, Waiting, Having#{Room => Monitor}}}
    end;
handle_call({leave, Room}, _From, State) -> {reply, ok, left(Room, State)};
handle_call({take, Key}, {Pid, _} = From, {keys, Having}) ->
    case Having of
        #{Key := {Who, Waiting}} -> {noreply, {keys, Having#{Key := {Who, Waiting ++ [From]}}}};
        #{} -> {reply, ok, {keys, Having#{Key => {Pid, []}}}}
    end;
handle_call({give, Key}, _From, {keys, Having}) ->
    case Having of
        #{Key := {_, []}} -> {reply, ok, {keys, maps:remove(Key, Having)}};
        #{Key := {_, [{Pid, _} = From | More]}} ->
            gen_server:reply(From, ok),
            {reply, ok, {keys, Having#{Key := {Pid, More}}}}
    end;
handle_call({get, What}, From, {cache, Waiting, Fetching}) when is_map_key(What, Waiting) ->
    {noreply, {cache, Waiting#{What := [From | map_get(What, Waiting)]}, Fetching}};
handle_call({get, What}, From, {cache, Waiting, Fetching}) ->
    {_, Monitor} = spawn_monitor(fun() -> exit(ask(library, {read, What})) end),
    {noreply, {cache, Waiting#{What => [From]}, Fetching#{Monitor => What}}};
handle_call({read, What}, _From, {library, stuck}) ->
    {reply, ask(cache, {get, What}), {library, stuck}};
handle_call({read, What}, _From, {library, slow}) ->
    timer:sleep(120000),
    {reply, {page, What}, {library, slow}}.

left(Room, {pool, Free, Waiting, Having}) ->
    demonitor(map_get(Room, Having), [flush]),
    case queue:out(Waiting) of
        {empty, _} -> {pool, [Room | Free], Waiting, maps:remove(Room, Having)};
        {{value, {From, Monitor}}, More} ->
            gen_server:reply(From, Room),
            {pool, Free, More, Having#{Room := Monitor}}
    end.

handle_cast(_Request, State) -> {noreply, State}.

handle_info({'DOWN', Monitor, _, _, Page}, {cache, Waiting, Fetching}) ->
    {What, Left} = maps:take(Monitor, Fetching),
    [gen_server:reply(From, Page) || From <- map_get(What, Waiting)],
    {noreply, {cache, maps:remove(What, Waiting), Left}};
handle_info(_Message, State) -> {noreply, State}.
