%% A lock server. A transfer between two accounts takes the locks of both.
-module(lockd).
-behaviour(gen_server).
-export([start/1, start_link/0, acquire/1, release/1]).
-export([init/1, handle_call/3, handle_cast/2, handle_info/2]).
-export([transfer_loop/3, metrics_init/0]).

start(Mode) ->
    spawn(fun() ->
        register(bank_main, self()),
        {ok, _} = lockd_sup:start_link(),
        timer:sleep(200),
        case Mode of
            stuck ->
                spawn(?MODULE, transfer_loop, [alice, bob, 100]),
                spawn(?MODULE, transfer_loop, [bob, alice, 100]);
            healthy ->
                spawn(?MODULE, transfer_loop, [alice, bob, 60000]),
                spawn(?MODULE, transfer_loop, [alice, bob, 60000])
        end,
        timer:sleep(300),
        spawn(fun() -> audit([alice, bob]) end),
        receive stop -> ok end
    end).

audit(Accounts) ->
    [acquire(Account) || Account <- Accounts],
    [release(Account) || Account <- Accounts],
    timer:sleep(1000),
    audit(Accounts).

transfer_loop(From, To, Work) ->
    ok = acquire(From),
    timer:sleep(Work),
    ok = acquire(To),
    timer:sleep(10),
    release(To),
    release(From),
    transfer_loop(From, To, Work).

start_link() -> gen_server:start_link({local, ?MODULE}, ?MODULE, [], []).
acquire(Name) -> gen_server:call(?MODULE, {acquire, Name}, infinity).
release(Name) -> gen_server:cast(?MODULE, {release, Name, self()}).

-record(lock, {owner, monitor, waiting = queue:new()}).

init([]) -> {ok, #{}}.

handle_call({acquire, Name}, {Pid, _} = From, Locks) ->
    case Locks of
        #{Name := Lock} ->
            {noreply, Locks#{Name := Lock#lock{waiting = queue:in(From, Lock#lock.waiting)}}};
        _ ->
            {reply, ok, Locks#{Name => #lock{owner = Pid, monitor = monitor(process, Pid)}}}
    end;
handle_call(stats, _From, Locks) ->
    {reply, [{Name, queue:len(Lock#lock.waiting)} || {Name, Lock} <- maps:to_list(Locks)], Locks}.

handle_cast({release, Name, Pid}, Locks) ->
    case Locks of
        #{Name := #lock{owner = Pid} = Lock} -> {noreply, next(Name, Lock, Locks)};
        _ -> {noreply, Locks}
    end.

handle_info({'DOWN', _, process, Pid, _}, Locks) ->
    Held = [{Name, Lock} || {Name, #lock{owner = Owner} = Lock} <- maps:to_list(Locks), Owner =:= Pid],
    {noreply, lists:foldl(fun({Name, Lock}, Some) -> next(Name, Lock, Some) end, Locks, Held)}.

next(Name, Lock, Locks) ->
    demonitor(Lock#lock.monitor, [flush]),
    case queue:out(Lock#lock.waiting) of
        {empty, _} -> maps:remove(Name, Locks);
        {{value, {Pid, _} = From}, Rest} ->
            gen_server:reply(From, ok),
            Locks#{Name := #lock{owner = Pid, monitor = monitor(process, Pid), waiting = Rest}}
    end.

metrics_init() ->
    erlang:send_after(1000, self(), tick),
    metrics(0).

metrics(Count) ->
    receive tick -> ok end,
    Stats = gen_server:call(?MODULE, stats),
    logger:debug("locks ~p ~p", [Count, Stats]),
    erlang:send_after(1000, self(), tick),
    metrics(Count + 1).
