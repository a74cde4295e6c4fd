%% A gen_server that echoes what it is called with, and its clients: on another node, at a steady rate.
-module(service).
-behaviour(gen_server).
-export([start/0, init/1, handle_call/3, handle_cast/2, call_it/1]).

-define(CLIENTS, 10).
-define(PATIENCE, 30000).

start() ->
    {ok, _} = gen_server:start({local, service}, ?MODULE, [], []),
    io:format("ready 0 ~s~n", [os:getpid()]).

init([]) -> {ok, none}.
handle_call(Word, _, State) -> {reply, Word, State}.
handle_cast(_, State) -> {noreply, State}.

%% Logs each call: when it began, the seconds that it took, and whether it was answered. Ends once its input does.
call_it([Node, Rate, Path]) ->
    {ok, Log} = file:open(Path, [append, raw]),
    Own = self(),
    Interval = ?CLIENTS * 1000 div list_to_integer(Rate),
    Clients = [spawn_monitor(fun() -> call(list_to_atom(Node), Interval, now_ms(), Own) end)
               || _ <- lists:seq(1, ?CLIENTS)],
    spawn(fun() -> eof = io:get_line(""), [Pid ! stop || {Pid, _} <- Clients] end),
    write(Log, length(Clients)),
    halt(0).

write(_, 0) -> ok;
write(Log, Left) ->
    receive
        {'DOWN', _, _, _, _} -> write(Log, Left - 1);
        Line -> ok = file:write(Log, Line), write(Log, Left)
    end.

call(Node, Interval, At, Log) ->
    receive stop -> ok
    after max(0, At - now_ms()) ->
        Word = make_ref(),
        Began = os:system_time(microsecond) / 1.0e6,
        First = erlang:monotonic_time(microsecond),
        Said = (catch gen_server:call({service, Node}, Word, ?PATIENCE)),
        Took = (erlang:monotonic_time(microsecond) - First) / 1.0e6,
        Answered = case Said of Word -> 1; _ -> 0 end,
        Log ! io_lib:format("~.6f ~.6f ~b~n", [Began, Took, Answered]),
        call(Node, Interval, max(At + Interval, now_ms()), Log)
    end.

now_ms() -> erlang:monotonic_time(millisecond).
