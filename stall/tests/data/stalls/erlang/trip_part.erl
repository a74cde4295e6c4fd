%% A part of a trip: it holds a place until the booking commits.
-module(trip_part).
-behaviour(gen_server).
-export([hold/2]).
-export([init/1, handle_call/3, handle_cast/2]).

hold(Args, Parent) ->
    {ok, _} = gen_server:start_link({local, element(1, Args)}, ?MODULE, Args, []),
    Parent ! {ready, self()},
    receive stop -> ok end.

init({Kind, Mode}) -> {ok, #{kind => Kind, mode => Mode, partner => none}}.

handle_cast({partner, Partner}, State) -> {noreply, State#{partner := Partner}};
handle_cast({prepare, From, Name}, #{mode := stuck, partner := Partner} = State) ->
    %% Dates have to fit those of the partner.
    timer:sleep(100),
    {ok, _} = gen_server:call(Partner, dates, infinity),
    From ! {ack, Name},
    {noreply, State};
handle_cast({prepare, From, Name}, #{mode := healthy} = State) ->
    timer:sleep(60000),
    From ! {ack, Name},
    {noreply, State};
handle_cast({commit, From, Name}, State) ->
    From ! {done, Name},
    {noreply, State}.

handle_call(dates, _From, #{kind := Kind} = State) -> {reply, {ok, {Kind, dates}}, State}.
