%% A till whose server asks the books, a program of another language, over TCP. The books ask it for a price before they
%% answer, which only that server knows. It may begin to ask later, and take its time for a price, in milliseconds.
-module(till).
-export([main/2, main/4, init/1, handle_call/3, handle_cast/2]).

main(Port, Books) -> main(Port, Books, 0, 0).

main(Port, Books, Later, Time) ->
    {ok, _} = gen_server:start({local, stock}, ?MODULE, Books, []),
    {ok, Listener} = gen_tcp:listen(Port, [{ip, {127, 0, 0, 1}}, {reuseaddr, true} | options()]),
    register(seller, spawn(fun() -> timer:sleep(Later), gen_server:call(stock, sell, infinity) end)),
    accept(Listener, Time).

options() -> [binary, {active, false}, {packet, line}].

accept(Listener, Time) ->
    {ok, Caller} = gen_tcp:accept(Listener),
    Server = spawn(fun() -> receive begin_now -> serve(Caller, Time) end end),
    ok = gen_tcp:controlling_process(Caller, Server),
    Server ! begin_now,
    accept(Listener, Time).

serve(Caller, Time) ->
    {ok, _} = gen_tcp:recv(Caller, 0),
    timer:sleep(Time),
    Price = gen_server:call(stock, price, infinity),
    ok = gen_tcp:send(Caller, [integer_to_list(Price), "\n"]),
    serve(Caller, Time).

init(Books) -> {ok, Books}.

handle_call(price, _, Books) -> {reply, 7, Books};
handle_call(sell, _, Books) ->
    {ok, Socket} = gen_tcp:connect({127, 0, 0, 1}, Books, options()),
    ok = gen_tcp:send(Socket, "book\n"),
    {ok, Line} = gen_tcp:recv(Socket, 0),
    {reply, Line, Books}.

handle_cast(_, Books) -> {noreply, Books}.
