%% Two nodes' worth of a shop on one: `orders` and `stock` call each other without a limit. A watchdog server looks at
%% them after a minute and, if they don't answer, has the node restart itself (init:restart), as the runbook says.
%% argv: healthy | stuck (it only writes to the log)
-module(shop4).
-behaviour(gen_server).
-export([main/1, init/1, handle_call/3, handle_cast/2, handle_info/2, start_server/1, client/1]).

main(Kind) ->
    {ok, _} = supervisor:start_link({local, shop}, ?MODULE, sup),
    {ok, _} = gen_server:start({local, watchdog}, ?MODULE, {watchdog, Kind}, []),
    spawn(?MODULE, client, [1]),
    receive after infinity -> ok end.

start_server(Id) -> gen_server:start_link({local, Id}, ?MODULE, {Id, []}, []).

init(sup) -> {ok, {#{strategy => one_for_one}, [#{id => I, start => {?MODULE, start_server, [I]}} || I <- [stock, orders]]}};
init({watchdog, _} = S) -> {ok, S, 60000};
init(S) -> {ok, S}.

handle_call(order, _From, {orders, _} = S) ->
    case os:getenv("SHOP_AGAIN") of
        false -> {reply, gen_server:call(stock, reserve, infinity), S};
        _ -> {reply, ok, S}
    end;
handle_call(reserve, _From, {stock, _} = S) -> {reply, gen_server:call(orders, lines, infinity), S};
handle_call(_, _From, S) -> {reply, ok, S}.

handle_cast(_, S) -> {noreply, S}.

handle_info(timeout, {watchdog, Kind} = S) ->
    case catch gen_server:call(orders, ping, 1000) of
        ok -> ok;
        _ -> recover(Kind)
    end,
    {noreply, S, 60000};
handle_info(_, S) -> {noreply, S}.

recover(stuck) -> io:format("orders doesn't answer~n");
recover(healthy) ->
    io:format("orders doesn't answer: restarting the node~n"),
    os:putenv("SHOP_AGAIN", "yes"),
    init:restart().

client(N) ->
    R = (catch gen_server:call(orders, order, infinity)),
    io:format("client ~p: ~P~n", [N, R, 6]),
    timer:sleep(5000),
    client(N + 1).
