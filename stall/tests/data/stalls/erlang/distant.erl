%% Two servers of one node call each other. A process of another node kills one of them in a minute, by its pid.
-module(distant).
-export([open/0, kill/1]).

open() ->
    pong = net_adm:ping('back@shop-2'),
    {ok, First} = gen_server:start(far, none, []),
    {ok, Second} = gen_server:start(far, First, []),
    register(client, spawn(far, client, [First, {ask, Second, crossed}])),
    spawn('back@shop-2', distant, kill, [First]),
    ok.

kill(Whom) ->
    timer:sleep(60000),
    exit(Whom, kill).
