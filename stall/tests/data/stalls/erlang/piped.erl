%% A server has a helper run a program, and answers all callers once that is done. The helper fails before it tells that,
%% or the program takes long.
-module(piped).
-behaviour(gen_server).
-export([open/1, ask/0, run/2]).
-export([init/1, handle_call/3, handle_cast/2, handle_info/2]).

open(Case) ->
    group_leader(whereis(user), self()), % (the one who asks is on another node)
    {ok, _} = gen_server:start({local, runs}, piped, Case, []),
    [register(Name, spawn(piped, ask, [])) || Name <- [build, deploy]].

ask() ->
    ok = gen_server:call(runs, run, infinity),
    ask().

init(Case) -> {ok, {Case, []}}.

handle_call(run, From, {Case, []}) ->
    spawn(piped, run, [self(), Case]),
    {noreply, {Case, [From]}};
handle_call(run, From, {Case, Waiting}) -> {noreply, {Case, [From | Waiting]}}.

handle_cast(_, State) -> {noreply, State}.

handle_info(done, {Case, Waiting}) ->
    [gen_server:reply(From, ok) || From <- Waiting],
    {noreply, {Case, []}}.

run(_, lost) -> exit(no_program);
run(Server, slow) ->
    Port = open_port({spawn, "cat"}, [exit_status]), % (ends with its node)
    receive {Port, {exit_status, _}} -> Server ! done end.
