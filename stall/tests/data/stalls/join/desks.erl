%% Services of a broker on one node, each with a connection. {Name, waits, Next} asks Next within its work and waits for
%% the reply, {Name, sleeps, Next} asks and then takes its time. Each has work at once.
-module(desks).
-export([main/2]).
-include_lib("amqp_client/include/amqp_client.hrl").

main(Port, Rows) ->
    {ok, _} = application:ensure_all_started(amqp_client),
    Channels = [{Name, start(Port, Name, How, Next)} || {Name, How, Next} <- Rows],
    timer:sleep(1000),
    [amqp_channel:cast(Channel, #'basic.publish'{routing_key = list_to_binary(Name)}, #amqp_msg{payload = <<"7">>})
     || {Name, Channel} <- Channels],
    io:put_chars("ready\n").

start(Port, Name, How, Next) ->
    Queue = list_to_binary(Name),
    {ok, Connection} = amqp_connection:start(#amqp_params_network{host = "127.0.0.1", port = Port,
        client_properties = [{<<"connection_name">>, longstr, <<Queue/binary, "@host">>}]}),
    {ok, Channel} = amqp_connection:open_channel(Connection),
    amqp_channel:call(Channel, #'basic.qos'{prefetch_count = 1}),
    [#'queue.declare_ok'{} = amqp_channel:call(Channel, #'queue.declare'{queue = Each})
     || Each <- [Queue, list_to_binary(Next)]],
    Own = self(),
    Pid = spawn(fun() ->
        Client = amqp_rpc_client:start_link(Connection, list_to_binary(Next)),
        #'basic.consume_ok'{} = amqp_channel:subscribe(Channel, #'basic.consume'{queue = Queue}, self()),
        Own ! {self(), ready},
        serve(Channel, Client, How)
    end),
    register(list_to_atom(Name), Pid),
    receive {Pid, ready} -> Channel end.

serve(Channel, Client, How) ->
    receive
        {#'basic.deliver'{delivery_tag = Tag}, #amqp_msg{props = More}} ->
            handle(Channel, Client, How, More),
            amqp_channel:cast(Channel, #'basic.ack'{delivery_tag = Tag});
        _ -> ok
    end,
    serve(Channel, Client, How).

handle(Channel, Client, How, #'P_basic'{reply_to = To, correlation_id = Id}) ->
    case How of
        waits -> gen_server:call(Client, {call, <<"7">>}, infinity);
        sleeps -> spawn(fun() -> gen_server:call(Client, {call, <<"7">>}, infinity) end), timer:sleep(600000)
    end,
    case To of
        undefined -> ok;
        _ -> amqp_channel:cast(Channel, #'basic.publish'{routing_key = To},
                               #amqp_msg{props = #'P_basic'{correlation_id = Id}, payload = <<"7">>})
    end.
