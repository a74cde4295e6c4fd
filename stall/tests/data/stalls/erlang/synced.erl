%% A journal answers who writes to it once a helper says that all is on the disk. The helper forgets that word, or takes
%% ten minutes for it.
-module(synced).
-behaviour(gen_server).
-export([open/1, write/0, sync/3]).
-export([init/1, handle_call/3, handle_cast/2, handle_info/2]).

open(Case) ->
    group_leader(whereis(user), self()), % (the one who asks is on another node)
    {ok, _} = gen_server:start({local, journal}, synced, Case, []),
    [register(Name, spawn(synced, write, [])) || Name <- [ledger, orders]].

write() ->
    ok = gen_server:call(journal, write, infinity),
    timer:sleep(50),
    write().

init(Case) -> {ok, {spawn_link(synced, sync, [self(), Case, 0]), []}}.

handle_call(write, From, {Helper, Waiting}) ->
    [Helper ! sync || Waiting =:= []],
    {noreply, {Helper, [From | Waiting]}}.

handle_cast(_, State) -> {noreply, State}.

handle_info(synced, {Helper, Waiting}) ->
    [gen_server:reply(From, ok) || From <- Waiting],
    {noreply, {Helper, []}}.

sync(Journal, Case, Count) ->
    receive sync -> ok end,
    [timer:sleep(600000) || Count =:= 5, Case =:= slow],
    [Journal ! synced || Count =/= 5 orelse Case =:= slow],
    sync(Journal, Case, Count + 1).
