%% Two books call each other, and a clerk waits for each. On some days one that sleeps beside them ends that in ten minutes:
%% it kills the ledger by its name, has the supervisor end it by its id, or fails below the supervisor, which then ends
%% all. On others it only sleeps, or the supervisor restarts it alone.
-module(pair).
-behaviour(gen_server).
-export([open/1, init/1, handle_call/3, handle_cast/2, start/2, begin_sleeper/1, sleeper/0, clerk/1]).

open(Day) ->
    {ok, Books} = supervisor:start_link({local, books}, pair, {books, Day}),
    unlink(Books),
    [register(Name, spawn(pair, clerk, [Book])) || {Name, Book} <- [{ann, ledger}, {ben, journal}]].

clerk(Book) -> gen_server:call(Book, book, infinity).

init({books, Day}) ->
    {ok, {{strategy_of(Day), 1, 5}, [child(ledger, start, [ledger, journal]), child(journal, start, [journal, ledger]),
                                     child(sleeper, begin_sleeper, [Day])]}};
init(Other) -> {ok, Other}.

strategy_of(taken_along) -> one_for_all;
strategy_of(_) -> one_for_one.

child(Name, Function, Arguments) -> {Name, {pair, Function, Arguments}, permanent, brutal_kill, worker, [pair]}.

start(Name, Other) -> gen_server:start_link({local, Name}, pair, Other, []).

begin_sleeper(killed_by_name) -> begin_link(killer);
begin_sleeper(ended_by_id) -> begin_link(ender);
begin_sleeper(_) -> begin_link(pair).

begin_link(Module) ->
    Sleeper = spawn_link(Module, sleeper, []),
    register(sleeper, Sleeper),
    {ok, Sleeper}.

sleeper() ->
    timer:sleep(600000),
    exit(over).

handle_call(book, _, Other) ->
    timer:sleep(300),
    {reply, gen_server:call(Other, note, infinity), Other};
handle_call(note, _, Other) -> {reply, ok, Other}.

handle_cast(_, Other) -> {noreply, Other}.
