%% A cache of exchange rates. Several who ask for one rate share one fetch.
-module(rates).
-behaviour(gen_server).
-export([start/1, start_link/1, rate/1, client/1, warmer/1]).
-export([init/1, handle_call/3, handle_cast/2, handle_info/2]).

start(Mode) ->
    spawn(fun() ->
        {ok, _} = rates_source:start_link(Mode),
        {ok, _} = start_link([]),
        [spawn(?MODULE, client, [Pair]) || Pair <- [eur_usd, eur_usd, eur_gbp]],
        spawn_link(?MODULE, warmer, [[]]),
        receive shutdown -> ok end
    end).

client(Pair) ->
    _ = rate(Pair),
    timer:sleep(5000),
    client(Pair).

%% Drops what is old.
warmer(Old) ->
    gen_server:cast(?MODULE, {expire, Old}),
    timer:sleep(2000),
    warmer([]).

start_link(Args) -> gen_server:start_link({local, ?MODULE}, ?MODULE, Args, []).
rate(Pair) -> gen_server:call(?MODULE, {rate, Pair}, infinity).

init([]) -> {ok, #{rates => #{usd => 1.0}, fetching => #{}}}.

handle_call({rate, Pair}, From, #{rates := Rates, fetching := Fetching} = State) ->
    case {Rates, Fetching} of
        {#{Pair := Rate}, _} -> {reply, Rate, State};
        {_, #{Pair := {Worker, Callers}}} ->
            {noreply, State#{fetching := Fetching#{Pair := {Worker, [From | Callers]}}}};
        _ ->
            {Worker, _} = spawn_monitor(fun() -> exit({rate, Pair, rates_source:fetch(Pair)}) end),
            {noreply, State#{fetching := Fetching#{Pair => {Worker, [From]}}}}
    end.

handle_cast({expire, Old}, #{rates := Rates} = State) -> {noreply, State#{rates := maps:without(Old, Rates)}}.

handle_info({'DOWN', _, process, _, {rate, Pair, Rate}}, #{rates := Rates, fetching := Fetching} = State) ->
    {{_, Callers}, Rest} = maps:take(Pair, Fetching),
    [gen_server:reply(From, Rate) || From <- Callers],
    {noreply, State#{rates := Rates#{Pair => Rate}, fetching := Rest}};
handle_info({'DOWN', _, process, Pid, Reason}, #{fetching := Fetching} = State) ->
    Failed = maps:filter(fun(_, {Worker, _}) -> Worker =:= Pid end, Fetching),
    [gen_server:reply(From, {error, Reason}) || {_, Callers} <- maps:values(Failed), From <- Callers],
    {noreply, State#{fetching := maps:without(maps:keys(Failed), Fetching)}}.
