%% The shop of shop.py on an Erlang node, whose clerk and packer ask the server by a connection each. A server has the
%% cart, and calls who wants to work with it.
-module(shop).
-export([open/5, init/1, handle_call/3, handle_cast/2]).

-define(TAKE, "update stock set number = number - 1 where article = 4711").
-define(BRING, "update stock set number = number + 1 where article = 4711").

open(How, Host, Port, User, Database) ->
    {ok, _} = gen_server:start({local, cart}, ?MODULE, none, []),
    Server = {Host, Port, User, Database},
    register(clerk, spawn(fun() -> sell(How, connect("clerk", Server)) end)),
    timer:sleep(1000),
    Packer = connect("packer", Server),
    register(packer, spawn(fun() -> receive begin_now -> pack(Packer) end end)),
    ok = gen_tcp:controlling_process(Packer, whereis(packer)),
    packer ! begin_now.

sell(How, Clerk) ->
    ask(Clerk, "begin"),
    ask(Clerk, ?TAKE),
    timer:sleep(3000),
    How =:= slow andalso ask(Clerk, "select pg_sleep(900)"), % (a report that takes its time)
    ok = gen_server:call(cart, {count, fun() -> ok end}, infinity),
    ask(Clerk, "commit").

%% It brings what has come back while the cart waits for it.
pack(Packer) ->
    ask(Packer, "begin"),
    ok = gen_server:call(cart, {count, fun() -> ask(Packer, ?BRING) end}, infinity),
    ask(Packer, "commit").

init(State) -> {ok, State}.

handle_call({count, Work}, _, State) -> Work(), {reply, ok, State}.

handle_cast(_, State) -> {noreply, State}.

connect(Name, {Host, Port, User, Database}) ->
    {ok, Socket} = gen_tcp:connect(Host, Port, [binary, {active, false}]),
    Words = ["user", 0, User, 0, "database", 0, Database, 0, "application_name", 0, Name, 0, 0],
    send(Socket, <<>>, [<<196608:32>>, Words]),
    ready(Socket),
    Socket.

ask(Socket, Query) ->
    send(Socket, <<"Q">>, [Query, 0]),
    ready(Socket).

send(Socket, Kind, Body) -> ok = gen_tcp:send(Socket, [Kind, <<(iolist_size(Body) + 4):32>>, Body]).

%% Reads what the server sends, until it is ready for the next query.
ready(Socket) ->
    {ok, <<Kind, Size:32>>} = gen_tcp:recv(Socket, 5),
    Size > 4 andalso gen_tcp:recv(Socket, Size - 4),
    Kind =:= $Z orelse ready(Socket).
