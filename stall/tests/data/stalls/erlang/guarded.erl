%% Alice asks bob, who asks her back within the same callback. On some days another one ends that in a minute: a ledger
%% that keeps her and answers, a timer, a cache that fails and takes her along, a guard that kills her. On others it looks
%% alike, and nobody does.
-module(guarded).
-behaviour(gen_server).
-export([open/1, init/1, handle_call/3, handle_cast/2, handle_info/2, customer/0, watch/1, stopper/0]).

open(Day) ->
    [{ok, _} = gen_server:start({local, Name}, guarded, {Name, Day}, []) || Name <- [ledger, alice, bob]],
    begin_guard(Day, whereis(alice)),
    register(customer, spawn(guarded, customer, [])),
    begin_stopper(Day).

begin_stopper(asked_to_stop) -> timer:sleep(300), register(stopper, spawn(guarded, stopper, []));
begin_stopper(_) -> none.

stopper() -> {stopped, gen_server:stop(bob)}.

begin_guard(guard, Alice) -> register(guard, spawn(guard, watch, [Alice]));
begin_guard(no_guard, Alice) -> register(guard, spawn(guarded, watch, [Alice]));
begin_guard(manager, Alice) -> gen_server:start({local, guard}, guard, Alice, []);
begin_guard(no_manager, Alice) -> gen_server:start({local, guard}, guarded, {guard, Alice}, []);
begin_guard(asleep, _) -> gen_server:start({local, guard}, sleeper, none, []);
begin_guard(_, _) -> none.

watch(Alice) ->
    receive stop -> Alice ! stop after 60000 -> watch(Alice) end.

customer() -> gen_server:call(alice, ask, infinity).

init({alice, Day}) when Day =:= linked_to_idle; Day =:= linked_to_idle_trapping ->
    process_flag(trap_exit, Day =:= linked_to_idle_trapping),
    {ok, Cache} = gen_server:start_link({local, cache}, guarded, {cache, Day}, []),
    {ok, {alice, Cache}};
init({cache, _} = State) ->
    erlang:send_after(60000, self(), fail),
    {ok, State};
init(State) -> {ok, State}.

handle_call(ask, _, {alice, _} = State) -> {reply, gen_server:call(bob, ask, infinity), State};
handle_call(ask, From, {bob, Day} = State) ->
    tell(Day, From),
    {reply, gen_server:call(alice, ask, infinity), State};
handle_call({keep, From}, _, {ledger, kept_asleep}) ->
    erlang:send_after(60000, self(), answer),
    {reply, ok, {ledger, kept_asleep, From}, hibernate};
handle_call({keep, From}, _, {ledger, Day}) ->
    erlang:send_after(60000, self(), answer),
    {reply, ok, {ledger, Day, From}}.

tell(Day, From) when Day =:= kept_asleep; Day =:= kept_in_state -> gen_server:call(ledger, {keep, From}, infinity);
tell(kept_nowhere, {Alice, _}) -> gen_server:call(ledger, {keep, Alice}, infinity);
tell(kept_by_timer, From) -> timer:apply_after(60000, gen_server, reply, [From, late]);
tell(other_timer, From) -> timer:apply_interval(60000, erlang, is_tuple, [From]);
tell(_, _) -> none.

handle_cast(_, State) -> {noreply, State}.

handle_info(fail, {cache, _}) -> exit(failed);
handle_info(answer, {ledger, _, {_, _} = From} = State) ->
    gen_server:reply(From, late),
    {noreply, State};
handle_info(_, State) -> {noreply, State}.
