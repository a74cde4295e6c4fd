%% A ledger and the branch of a bank on another node, which settle transfers by erpc and rpc. Beside them are a heartbeat,
%% one that asks the ledger with a limit, an acceptor, one that listens to UDP, and clients.
-module(bank).
-behaviour(gen_server).
-export([open/1, loop/1, settle/2, balance/1, init/1, handle_call/3, handle_cast/2]).
-define(HERE, 'front@shop-1').
-define(THERE, 'back@shop-1').

%% Kind is stuck, or slow: then the branch takes two minutes.
open(Kind) ->
    {ok, _} = gen_server:start({local, ledger}, ?MODULE, ledger, []),
    {ok, _} = erpc:call(?THERE, gen_server, start, [{local, branch}, ?MODULE, branch, []]),
    [register(Name, spawn(?MODULE, loop, [Name])) || Name <- [beat, poller, acceptor, listener]],
    register(teller, spawn(?MODULE, loop, [{teller, Kind}])),
    timer:sleep(300),
    register(guest, spawn(?MODULE, loop, [guest])),
    ok.

loop(acceptor) ->
    {ok, Listening} = gen_tcp:listen(0, [{ip, {127, 0, 0, 1}}]),
    {ok, _} = gen_tcp:accept(Listening),
    loop(acceptor);
loop(listener) ->
    {ok, Socket} = gen_udp:open(0, [{ip, {127, 0, 0, 1}}, {active, false}]),
    {ok, _} = gen_udp:recv(Socket, 0),
    loop(listener);
loop(What) ->
    do(What),
    loop(What).

do(beat) -> timer:sleep(300);
do(poller) -> catch gen_server:call(ledger, ping, 400);
do({teller, Kind}) -> {settled, _} = gen_server:call(ledger, {transfer, Kind}, infinity);
do(guest) -> {ok, _} = rpc:call(?THERE, ?MODULE, balance, [7]).

balance(Account) -> {ok, gen_server:call(branch, {balance, Account}, infinity)}.

settle(Sum, Kind) -> {settled, gen_server:call(branch, {settle, Sum, Kind}, infinity)}.

init(Name) -> {ok, Name}.

handle_call({transfer, Kind}, _From, ledger) ->
    {reply, erpc:call(?THERE, ?MODULE, settle, [30, Kind]), ledger};
handle_call({settle, Sum, stuck}, _From, branch) ->
    {reply, rpc:call(?HERE, gen_server, call, [ledger, {book, Sum}, infinity]), branch};
handle_call({settle, _Sum, slow}, _From, branch) ->
    timer:sleep(120000),
    {reply, ok, branch};
handle_call(_Request, _From, Name) ->
    {reply, ok, Name}.

handle_cast(_Request, Name) -> {noreply, Name}.
