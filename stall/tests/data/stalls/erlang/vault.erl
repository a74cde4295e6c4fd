%% Boxes in Mnesia. A porter locks a box, and asks the auditor while it has the lock. The auditor looks into the box in a
%% transaction of its own, which is older or younger. A visitor opens that box too, and a cleaner another one.
-module(vault).
-behaviour(gen_server).
-export([open/1, loop/1, init/1, handle_call/3, handle_cast/2, handle_info/2]).
-record(box, {key, things}).

open(Kind) ->
    ok = mnesia:start(),
    {atomic, ok} = mnesia:create_table(box, [{attributes, record_info(fields, box)}]),
    [ok = mnesia:dirty_write(#box{key = Key, things = []}) || Key <- [1, 2]],
    {ok, Auditor} = gen_server:start({local, auditor}, ?MODULE, Kind, []),
    [Auditor ! look || lists:member(Kind, [older, older_slow])],
    timer:sleep(200),
    [begin register(Name, spawn(?MODULE, loop, [{Name, Kind}])), timer:sleep(100) end
     || Name <- [porter, visitor, cleaner]],
    ok.

loop(What) ->
    {atomic, ok} = mnesia:transaction(fun() -> do(What) end),
    timer:sleep(500),
    loop(What).

do({porter, older_slow}) ->
    [_] = mnesia:read(box, 1, write),
    timer:sleep(120000);
do({porter, _}) ->
    [Box] = mnesia:read(box, 1, write),
    ok = gen_server:call(auditor, {check, Box}, infinity),
    mnesia:write(Box);
do({visitor, _}) ->
    [_] = mnesia:read(box, 1),
    ok;
do({cleaner, _}) ->
    mnesia:write(#box{key = 2, things = []}).

init(Kind) -> {ok, Kind}.

handle_call({check, _}, _From, younger_slow) ->
    timer:sleep(120000),
    {reply, ok, younger_slow};
handle_call({check, _}, _From, Kind) ->
    {atomic, [_]} = mnesia:transaction(fun() -> mnesia:read(box, 1) end),
    {reply, ok, Kind}.

handle_cast(_Request, Kind) -> {noreply, Kind}.

handle_info(look, Kind) ->
    {atomic, [_]} = mnesia:transaction(fun() ->
        timer:sleep(1000),
        mnesia:read(box, 1)
    end),
    {noreply, Kind}.
