%% A server begins a process for each request that it hasn't answered yet, and keeps those who wait for that. The parts
%% of a proof need each other, or one waits for what a shell tells it.
-module(proofs).
-behaviour(gen_server).
-export([open/1, prove/1, ask/1, approve/1]).
-export([init/1, handle_call/3, handle_cast/2, handle_info/2]).

open(Case) ->
    group_leader(whereis(user), self()), % (the one who asks is on another node)
    {ok, _} = gen_server:start({local, proofs}, proofs, [], []),
    register(reader, spawn(proofs, ask, [Case])).

ask(Case) ->
    proved = prove(Case),
    ask(Case).

prove(Part) -> gen_server:call(proofs, {prove, Part}, infinity).

approve(Who) -> Who ! approved.

init([]) -> {ok, #{}}.

handle_call({prove, Part}, From, Waiting) ->
    Server = self(),
    is_map_key(Part, Waiting) orelse spawn(fun() -> need(Part), Server ! {proved, Part} end),
    {noreply, Waiting#{Part => [From | maps:get(Part, Waiting, [])]}}.

handle_cast(_, Waiting) -> {noreply, Waiting}.

handle_info({proved, Part}, Waiting) ->
    lists:foreach(fun(From) -> gen_server:reply(From, proved) end, maps:get(Part, Waiting)),
    {noreply, maps:remove(Part, Waiting)}.

need(crossed) -> prove(lemma);
need(lemma) -> prove(crossed);
need(approved) -> receive approved -> proved end.
