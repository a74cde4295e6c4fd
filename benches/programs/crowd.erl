%% A ledger, which NUMBER clients have called. It sleeps, or it has called an audit that has called it.
-module(crowd).
-behaviour(gen_server).
-export([open/2, init/1, handle_call/3, handle_cast/2, post/1]).

open(How, Number) ->
    [{ok, _} = gen_server:start({local, Name}, crowd, Name, []) || Name <- [ledger, audit]],
    [spawn(gen_server, call, [Name, {How, self()}, infinity]) || Name <- [ledger, audit]],
    Busy = [receive {busy, Server} -> Server end || _ <- [ledger, audit]],
    [Server ! go_on || Server <- Busy],
    [spawn(crowd, post, [Id]) || Id <- lists:seq(1, Number)],
    ok.

post(Id) -> gen_server:call(ledger, {post, Id}, infinity).

init(Name) -> {ok, Name}.

handle_cast(_, Name) -> {noreply, Name}.

handle_call({post, Id}, _, Name) -> {reply, Id, Name};
handle_call({How, Opener}, _, Name) ->
    Opener ! {busy, self()},
    receive go_on -> ok end,
    {reply, work(How, Name), Name}.

work(stuck, ledger) -> gen_server:call(audit, {post, 0}, infinity);
work(stuck, audit) -> gen_server:call(ledger, {post, 0}, infinity);
work(slow, ledger) -> timer:sleep(3600000);
work(slow, audit) -> ok.
