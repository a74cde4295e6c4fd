%% Two servers on two nodes ask each other, by their pids.
-module(far).
-behaviour(gen_server).
-export([open/1, client/2, nap/0, init/1, handle_call/3, handle_cast/2]).

%% crossed: each asks the other one. slow: the second one is slow. linked: the first one is linked to a process of the
%% other node, which fails in a minute and takes it along.
open(Kind) ->
    pong = net_adm:ping('back@shop-2'),
    {ok, First} = gen_server:start({local, first}, far, none, []),
    {ok, Second} = rpc:call('back@shop-2', gen_server, start, [{local, second}, far, First, []]),
    register(client, spawn(far, client, [First, {ask, Second, Kind}])),
    ok.

client(Server, Request) -> {done, _} = gen_server:call(Server, Request, infinity).

nap() ->
    timer:sleep(60000),
    exit(failed).

init(Other) -> {ok, Other}.

handle_call({ask, Second, Kind}, _From, none) ->
    Kind =:= linked andalso spawn_link('back@shop-2', far, nap, []),
    Answer = gen_server:call(Second, {answer, Kind}, infinity),
    {reply, {done, Answer}, none};
handle_call({answer, slow}, _From, First) ->
    timer:sleep(60000),
    {reply, late, First};
handle_call({answer, _}, _From, First) ->
    Answer = gen_server:call(First, {ask, self(), again}, infinity),
    {reply, {done, Answer}, First}.

handle_cast(_, Other) -> {noreply, Other}.
