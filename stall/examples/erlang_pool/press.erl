%% A print shop. Its printers are given out by a pool; to print, a printer asks for the price, and to measure
%% for that, the pricing wants a printer of the same pool. A session is started while the registry asks the
%% supervisor of the sessions for its children.
-module(press).
-behaviour(gen_server).
-export([open/1, init/1, handle_call/3, handle_cast/2, handle_info/2]).
-export([client/2, login/1, courier/2, start_session/1]).

%% Opens the shop. On a `slow` day the pool has a printer more, and a session waits for its licence.
open(Day) ->
    Printers = [printer_1, printer_2 | [printer_3 || Day =:= slow]],
    [{ok, _} = gen_server:start({local, Name}, press, Name, []) || Name <- [pricing, registry | Printers]],
    {ok, _} = gen_server:start({local, pool}, press, {pool, Printers}, []),
    {ok, Sessions} = supervisor:start_link({local, sessions}, press, {sessions, Day}),
    unlink(Sessions),
    [First, _] = [spawn(press, client, [Job, Day]) || Job <- [poster, flyer]],
    timer:sleep(500),
    Login = spawn(press, login, [ada]),
    spawn(press, courier, [First, Login]),
    ok.

init({pool, Printers}) -> {ok, {pool, Printers, #{}, queue:new()}};
init({sessions, Day}) ->
    Session = #{id => session, start => {press, start_session, [Day]}, restart => temporary},
    {ok, {#{strategy => simple_one_for_one}, [Session]}};
init({session, stuck}) -> ok = gen_server:call(registry, {entered, self()}, infinity), {ok, session};
init({session, slow}) -> receive {licence, _} -> {ok, session} after 60000 -> {ok, session} end;
init(Name) -> {ok, Name}.

start_session(Day) -> gen_server:start_link(press, {session, Day}, [{timeout, infinity}]).

%% The pool keeps a caller that comes when no printer is free, and answers later.
handle_call(take, {Client, _}, {pool, [Printer | Free], Given, Kept}) ->
    {reply, Printer, {pool, Free, Given#{erlang:monitor(process, Client) => Printer}, Kept}};
handle_call(take, From, {pool, [], Given, Kept}) -> {noreply, {pool, [], Given, queue:in(From, Kept)}};
handle_call({print, Job}, _, Printer) -> {reply, {printed, Job, price(Job)}, Printer};
handle_call(measure, _, Printer) -> timer:sleep(120000), {reply, 7, Printer};
handle_call({price, _}, _, pricing) -> {reply, with_printer(fun measure/1), pricing};
handle_call({entered, _}, _, registry) ->
    {reply, {ok, length(supervisor:which_children(sessions))}, registry}.

handle_cast(_, State) -> {noreply, State}.

%% A printer whose client has ended goes to the next caller that was kept.
handle_info({'DOWN', Reference, process, _, _}, {pool, Free, Given, Kept}) ->
    {Printer, Others} = maps:take(Reference, Given),
    case queue:out(Kept) of
        {{value, {Client, _} = From}, Left} ->
            gen_server:reply(From, Printer),
            {noreply, {pool, Free, Others#{erlang:monitor(process, Client) => Printer}, Left}};
        {empty, _} -> {noreply, {pool, [Printer | Free], Others, Kept}}
    end;
handle_info(_, State) -> {noreply, State}.

price(Job) -> gen_server:call(pricing, {price, Job}, infinity).
measure(Printer) -> gen_server:call(Printer, measure, infinity).

%% Runs a function with a printer of the pool.
with_printer(Function) ->
    Printer = gen_server:call(pool, take, infinity),
    Function(Printer).

client(Job, Day) ->
    Day =:= slow andalso timer:sleep(100),
    with_printer(fun(Printer) -> gen_server:call(Printer, {print, Job}, infinity) end).

login(_Name) -> supervisor:start_child(sessions, []).

%% Waits for the first customer, or for the login process, whichever sends first.
courier(Client, Login) ->
    receive
        {Client, Parcel} -> {Client, Parcel};
        {Login, Parcel} -> {Login, Parcel}
    end.
