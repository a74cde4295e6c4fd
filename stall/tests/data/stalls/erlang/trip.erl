%% Books a trip on two nodes: a flight and a hotel each prepare and acknowledge, and then commit.
-module(trip).
-behaviour(gen_statem).
-export([start/1, start_booking/2, traveller/1, stats/1]).
-export([init/1, callback_mode/0, prepare/3, commit/3]).

start(Mode) ->
    [Self | _] = [node()],
    Other = list_to_atom("stays@" ++ tl(string:find(atom_to_list(Self), "@"))),
    spawn(fun() ->
        pong = net_adm:ping(Other),
        register(trips, self()),
        {ok, Flight} = gen_server:start_link({local, flights}, trip_part, {flight, Mode}, []),
        Hotel = spawn(Other, trip_part, hold, [{hotel, Mode}, self()]),
        receive {ready, Hotel} -> ok end,
        gen_server:cast(Flight, {partner, {hotel, Other}}),
        gen_server:cast({hotel, Other}, {partner, {flights, Self}}),
        spawn(?MODULE, stats, [0]),
        timer:sleep(200),
        spawn(?MODULE, traveller, [[Flight, {hotel, Other}]]),
        receive stop -> ok end
    end).

traveller(Parts) ->
    {ok, Pid} = start_booking(self(), Parts),
    Result = gen_statem:call(Pid, result, infinity),
    io:format("~p~n", [Result]).

stats(N) ->
    receive after 1000 -> logger:debug("~p trips", [N]) end,
    stats(N + 1).

start_booking(For, Parts) -> gen_statem:start_link(?MODULE, {For, Parts}, []).

callback_mode() -> state_functions.

init({For, Parts}) ->
    [gen_server:cast(Part, {prepare, self(), Part}) || Part <- Parts],
    {ok, prepare, #{for => For, parts => Parts, missing => Parts, asked => none}}.

prepare({call, From}, result, Data) -> {keep_state, Data#{asked := From}};
prepare(info, {ack, Part}, #{missing := Missing} = Data) ->
    case Missing -- [Part] of
        [] ->
            [gen_server:cast(It, {commit, self(), It}) || It <- maps:get(parts, Data)],
            {next_state, commit, Data#{missing := maps:get(parts, Data)}};
        Left -> {keep_state, Data#{missing := Left}}
    end.

commit({call, From}, result, Data) -> {keep_state, Data#{asked := From}};
commit(info, {done, Part}, #{missing := Missing, asked := From} = Data) ->
    case Missing -- [Part] of
        [] -> {stop_and_reply, normal, [{reply, From, booked}]};
        Left -> {keep_state, Data#{missing := Left}}
    end.
