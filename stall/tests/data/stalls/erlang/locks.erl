%% Transfers between accounts take the locks of both, one after the other.
-module(locks).
-export([open/1, transfer/2, shared/2, visit/1, hold/3, want/2, start/3]).

%% crossed: two orders. slow: one of them checks for a minute under its lock. shared: two have the lock of `one` together,
%% and one of them wants that of `two`. apart: two nodes, in two orders. elsewhere: the lock of another node alone is
%% wanted, where one is slow, and one of this node that has the same name is that of somebody who waits.
open(Kind) when Kind =:= crossed; Kind =:= slow ->
    start(teller_1, transfer, [{one, two}, Kind]),
    start(teller_2, transfer, [{two, one}, crossed]),
    timer:sleep(1000),
    start(statement, transfer, [{one, three}, crossed]),
    start(cash_point, visit, [one]),
    ok;
open(shared) ->
    start(teller_1, shared, [{one, two}, crossed]),
    start(clerk, shared, [{one, three}, slow]),
    start(teller_2, transfer, [{two, one}, crossed]),
    ok;
open(apart) ->
    pong = net_adm:ping('back@shop-2'),
    start(teller_1, transfer, [{one, two}, crossed]),
    ok = rpc:call('back@shop-2', locks, start, [teller_2, transfer, [{two, one}, crossed]]),
    ok;
open(elsewhere) ->
    pong = net_adm:ping('back@shop-2'),
    ok = rpc:call('back@shop-2', locks, start, [clerk, hold, [one, ['back@shop-2'], none]]),
    timer:sleep(500),
    start(teller, want, [one, ['back@shop-2']]),
    start(keeper, hold, [one, [node()], teller]),
    ok.

start(Name, Function, Arguments) ->
    register(Name, spawn(locks, Function, Arguments)),
    ok.

transfer({From, To}, Kind) -> both({From, self()}, {To, self()}, Kind).

shared({From, To}, Kind) -> both({From, together}, {To, self()}, Kind).

both(From, To, Kind) ->
    global:trans(From, fun() -> check(Kind), global:trans(To, fun() -> moved end), checked end).

check(crossed) -> timer:sleep(500);
check(slow) -> timer:sleep(60000).

%% Tries for some seconds, and then something else.
visit(What) ->
    global:trans({What, self()}, fun() -> ok end, [node()], 2),
    timer:sleep(100),
    visit(What).

%% Has a lock for a minute, or as long as somebody runs.
hold(What, Nodes, Whom) ->
    global:trans({What, self()}, fun() -> wait(Whom), held end, Nodes).

wait(none) -> timer:sleep(60000);
wait(Whom) ->
    Reference = monitor(process, Whom),
    receive {'DOWN', Reference, _, _, _} -> ended end.

want(What, Nodes) -> global:trans({What, self()}, fun() -> had end, Nodes).
