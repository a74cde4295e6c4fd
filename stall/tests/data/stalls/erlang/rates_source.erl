%% Where rates come from. A cross rate is made of two others.
-module(rates_source).
-behaviour(gen_server).
-export([start_link/1, fetch/1]).
-export([init/1, handle_call/3, handle_cast/2]).

start_link(Mode) -> gen_server:start_link({local, ?MODULE}, ?MODULE, Mode, []).
fetch(Pair) -> gen_server:call(?MODULE, {fetch, Pair}, infinity).

init(Mode) -> {ok, Mode}.

handle_call({fetch, eur_usd}, _From, stuck) -> {reply, 1.1 * rates:rate(eur_gbp), stuck};
handle_call({fetch, eur_gbp}, _From, stuck) -> {reply, 0.9, stuck};
handle_call({fetch, _}, _From, healthy) -> timer:sleep(60000), {reply, 0.9, healthy}.

handle_cast(_, State) -> {noreply, State}.
