-module(shop5_watchdog).
-behaviour(gen_server).
-export([start/1, init/1, handle_call/3, handle_cast/2, handle_info/2]).

start(Kind) -> gen_server:start({local, watchdog}, ?MODULE, Kind, []).

init(Kind) -> {ok, Kind, 60000}.

handle_info(timeout, Kind) ->
    case catch gen_server:call(orders, ping, 1000) of
        ok -> ok;
        _ -> shop5_ops:hung(Kind, orders)
    end,
    {noreply, Kind, 60000};
handle_info(_, Kind) -> {noreply, Kind, 60000}.
handle_call(_, _From, Kind) -> {reply, ok, Kind, 60000}.
handle_cast(_, Kind) -> {noreply, Kind, 60000}.
