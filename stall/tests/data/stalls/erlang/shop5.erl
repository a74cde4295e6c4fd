%% `orders` and `stock` call each other without a limit. A watchdog server looks at them once a minute and asks the
%% module shop5_ops to deal with those that don't answer. argv: healthy (shop5_ops kills it) | stuck (it only logs)
-module(shop5).
-behaviour(gen_server).
-export([main/1, init/1, handle_call/3, handle_cast/2, handle_info/2, start_server/1, client/1]).

main(Kind) ->
    {ok, _} = supervisor:start_link({local, shop}, ?MODULE, sup),
    {ok, _} = shop5_watchdog:start(Kind),
    spawn(?MODULE, client, [1]),
    receive after infinity -> ok end.

start_server(Id) -> gen_server:start_link({local, Id}, ?MODULE, {Id, []}, []).

init(sup) -> {ok, {#{strategy => one_for_one, intensity => 5, period => 10}, [#{id => I, start => {?MODULE, start_server, [I]}} || I <- [stock, orders]]}};
init(S) -> {ok, S}.

handle_call({order, 1}, _From, {orders, _} = S) -> {reply, gen_server:call(stock, reserve, infinity), S};
handle_call(reserve, _From, {stock, _} = S) -> {reply, gen_server:call(orders, lines, infinity), S};
handle_call(_, _From, S) -> {reply, ok, S}.

handle_cast(_, S) -> {noreply, S}.
handle_info(_, S) -> {noreply, S}.

client(N) ->
    R = (catch gen_server:call(orders, {order, N}, infinity)),
    io:format("client ~p: ~P~n", [N, R, 6]),
    receive after 5000 -> client(N + 1) end.
