%% Two federated brokers forward messages to each other. A link may only send as many messages as the other side has
%% given credit for, and gives credit itself as it stores messages. (As credit_flow of RabbitMQ, with a loop.)
-module(fed).
-behaviour(gen_server).
-export([open/1, start_link_process/3, publisher/2, subscriber/1, janitor/1, operator/0, watch/0, probe/1]).
-export([init/1, handle_call/3, handle_cast/2]).

-define(EAST, 'east@fed-1').
-define(WEST, 'west@fed-2').
-define(CREDIT, 4).

open(busy) ->
    open(stuck),
    spawn(?EAST, fed, probe, [whereis(link_east)]),
    ok;
open(Kind) ->
    pong = net_adm:ping(?WEST),
    East = spawn(?EAST, fed, start_link_process, [link_east, Kind, 4]),
    West = spawn(?WEST, fed, start_link_process, [link_west, Kind, case Kind of stuck -> 4; healthy -> 0 end]),
    East ! {peer, West},
    West ! {peer, East},
    {ok, _} = rpc:call(?EAST, gen_server, start, [{local, mgmt}, fed, East, []]),
    {ok, _} = rpc:call(?WEST, gen_server, start, [{local, mgmt}, fed, West, []]),
    spawn(?EAST, fed, publisher, [East, 20]),
    spawn(?WEST, fed, subscriber, [West]),
    spawn(?WEST, fed, janitor, [0]),
    timer:sleep(1500),
    spawn(?EAST, fed, operator, []),
    spawn(?EAST, fed, watch, []),
    ok.

%% A link. It has Backlog messages for its peer when it begins.
start_link_process(Name, Kind, Backlog) ->
    register(Name, self()),
    receive {peer, Peer} -> ok end,
    timer:sleep(500),
    Left = forward(Peer, lists:seq(1, Backlog + 4 * (min(Backlog, 1))), ?CREDIT),
    loop(#{kind => Kind, peer => Peer, credit => Left, stored => 0, subscriber => none}).

%% Sends each message once there is credit for it.
forward(_Peer, [], Credit) -> Credit;
forward(Peer, Messages, 0) ->
    receive {bump_credit, Peer, More} -> forward(Peer, Messages, More) end;
forward(Peer, [Message | Messages], Credit) ->
    Peer ! {message, self(), Message},
    forward(Peer, Messages, Credit - 1).

loop(#{kind := Kind, peer := Peer, stored := Stored} = State) ->
    receive
        {message, From, Message} ->
            store(Kind, Message),
            From ! {bump_credit, self(), 1},
            Credit = case From of
                Peer -> deliver(State, Message), maps:get(credit, State);
                _ -> forward(Peer, [Message], maps:get(credit, State))
            end,
            loop(State#{stored := Stored + 1, credit := Credit});
        {bump_credit, Peer, More} -> loop(State#{credit := maps:get(credit, State) + More});
        {subscribe, Pid} -> loop(State#{subscriber := Pid});
        {status, From, Reference} ->
            From ! {Reference, {stored, Stored}},
            loop(State)
    end.

deliver(#{subscriber := none}, _) -> ok;
deliver(#{subscriber := Pid}, Message) -> Pid ! {deliver, self(), Message}, ok.

%% On disk. A slow disk takes its time.
store(stuck, _) -> ok;
store(healthy, _) -> timer:sleep(40000).

%% Publishes to a link, and heeds its credit too.
publisher(Link, Number) ->
    timer:sleep(800),
    forward(Link, lists:seq(101, 100 + Number), 1).

subscriber(Link) ->
    Link ! {subscribe, self()},
    subscribed(Link).
subscribed(Link) ->
    receive {deliver, Link, _Message} -> subscribed(Link) end.

%% Removes old segments, each second.
janitor(Rounds) ->
    receive stop -> ok after 1000 -> janitor(Rounds + 1) end.

%% Management: asks the link for its state.
init(Link) -> {ok, Link}.

handle_call(status, _From, Link) ->
    Reference = erlang:monitor(process, Link),
    Link ! {status, self(), Reference},
    receive
        {Reference, Status} -> erlang:demonitor(Reference, [flush]), {reply, Status, Link};
        {'DOWN', Reference, process, _, _} -> {reply, down, Link}
    end.

handle_cast(_, Link) -> {noreply, Link}.

operator() -> {stored, _} = gen_server:call({mgmt, ?EAST}, status, infinity).

%% A check that gives up after two seconds, and begins again.
watch() ->
    try gen_server:call({mgmt, ?EAST}, status, 2000) catch exit:_ -> red end,
    timer:sleep(3000),
    watch().

%% A probe asks the link itself each second, and doesn't wait long. (Only if `busy`: a stall that is being looked at.)
probe(Link) ->
    Reference = make_ref(),
    Link ! {status, self(), Reference},
    receive {Reference, _} -> green after 500 -> red end,
    timer:sleep(500),
    probe(Link).
