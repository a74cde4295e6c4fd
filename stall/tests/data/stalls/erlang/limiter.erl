%% At most three requests at a time may be at work on the backend. A request takes a token and gives it back.
-module(limiter).
-behaviour(gen_server).
-export([start/1, start_link/1, with_token/1, request/3, page/2, heartbeat/1]).
-export([init/1, handle_call/3, handle_cast/2, handle_info/2]).

start(Mode) ->
    {ok, _} = application:ensure_all_started(kernel),
    spawn(fun() ->
        process_flag(trap_exit, true),
        {ok, _} = start_link(3),
        spawn_link(?MODULE, heartbeat, [0]),
        [spawn_link(?MODULE, request, [Mode, Number, self()]) || Number <- lists:seq(1, 4)],
        collect(4)
    end).

collect(0) -> done;
collect(Left) ->
    receive
        {finished, _Number, _Body} -> collect(Left - 1);
        {'EXIT', _Pid, normal} -> collect(Left)
    end.

%% A page has parts, each of which is fetched as a request of its own.
request(Mode, Number, Parent) ->
    Body = with_token(fun() -> timer:sleep(200), page(Mode, Number) end),
    Parent ! {finished, Number, Body}.

page(stuck, Number) -> [Number, with_token(fun() -> part end)];
page(healthy, Number) -> timer:sleep(60000), [Number, part].

with_token(Fun) ->
    {ok, Token} = gen_server:call(?MODULE, take, infinity),
    try Fun() after gen_server:cast(?MODULE, {give, Token}) end.

start_link(Tokens) -> gen_server:start_link({local, ?MODULE}, ?MODULE, Tokens, []).

init(Tokens) ->
    erlang:send_after(2000, self(), report),
    {ok, #{free => Tokens, taken => #{}, queue => []}}.

handle_call(take, From, #{free := 0, queue := Queue} = State) -> {noreply, State#{queue := Queue ++ [From]}};
handle_call(take, {Pid, _}, State) -> {Token, New} = grant(Pid, State), {reply, {ok, Token}, New}.

grant(Pid, #{free := Free, taken := Taken} = State) ->
    Token = monitor(process, Pid),
    {Token, State#{free := Free - 1, taken := Taken#{Token => Pid}}}.

handle_cast({give, Token}, State) ->
    demonitor(Token, [flush]),
    {noreply, freed(Token, State)}.

handle_info({'DOWN', Token, process, _, _}, State) -> {noreply, freed(Token, State)};
handle_info(report, #{queue := Queue} = State) ->
    logger:debug("~p wait", [length(Queue)]),
    erlang:send_after(2000, self(), report),
    {noreply, State}.

freed(Token, #{free := Free, taken := Taken, queue := Queue} = State) ->
    New = State#{free := Free + 1, taken := maps:remove(Token, Taken)},
    case Queue of
        [] -> New;
        [{Pid, _} = From | Rest] ->
            {Other, Granted} = grant(Pid, New#{queue := Rest}),
            gen_server:reply(From, {ok, Other}),
            Granted
    end.

heartbeat(Beats) ->
    timer:sleep(1000),
    logger:debug("beat ~p", [Beats]),
    heartbeat(Beats + 1).
