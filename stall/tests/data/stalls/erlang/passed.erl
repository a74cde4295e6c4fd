%% A customer asks the desk, which asks the orders. These let go of that call at once, and a helper answers it, sooner or
%% later or never. On some days another module is the orders: one with timers and tables.
-module(passed).
-behaviour(gen_server).
-export([open/1, init/1, handle_call/3, handle_cast/2, customer/0, slow/1, asks/1, waits_for_it/1, later/2]).

open(Day) ->
    {ok, _} = gen_server:start({local, desk}, passed, desk, []),
    {ok, _} = gen_server:start({local, orders}, orders_of(Day), {orders, Day}, []),
    register(customer, spawn(passed, customer, [])).

orders_of(passed_but_fails) -> failing;
orders_of(passed_by_table) -> records;
orders_of(_) -> passed.

customer() -> ok = gen_server:call(desk, buy, infinity).

init(State) -> {ok, State}.

handle_call(buy, _, desk) -> {reply, gen_server:call(orders, order, infinity), desk};
handle_call(confirm, _, desk) -> {reply, confirmed, desk};
handle_call(order, From, {orders, Day} = State) ->
    pass(Day, From),
    {noreply, State}.

handle_cast(_, State) -> {noreply, State}.

%% The helper answers in a minute; or it asks the desk first; or nobody answers, as the orders have forgotten to; or a
%% helper on another node has it.
pass(passed_to_slow, From) -> register(helper, spawn(passed, slow, [From]));
pass(passed_to_stuck, From) -> register(helper, spawn(passed, asks, [From]));
pass(passed_to_limited, From) -> register(helper, spawn(passed, waits_for_it, [From]));
pass(passed_to_none, _) -> none;
pass(passed_to_table, From) -> shelf:keep(From);
pass(passed_to_node, From) -> spawn('back@shop-1', passed, slow, [From]);
pass(passed_to_node_stuck, From) -> spawn('back@shop-1', passed, asks, [From]);
%% The orders ask the desk within the same callback. Another one has a fun, and calls it in a minute.
pass(passed_in_fun, From) -> begin_later(fun() -> gen_server:reply(From, ok) end);
pass(passed_no_fun, {Desk, _}) -> begin_later(told:word(Desk)).

begin_later(Fun) ->
    register(helper, spawn(passed, later, [Fun, self()])),
    confirmed = gen_server:call(desk, confirm, infinity).

slow(From) ->
    timer:sleep(600000),
    gen_server:reply(From, ok).

asks(From) ->
    confirmed = gen_server:call({desk, 'front@shop-1'}, confirm, infinity),
    gen_server:reply(From, ok).

waits_for_it(From) ->
    receive go_on -> none after 600000 -> none end,
    gen_server:reply(From, ok).

later(Fun, _) ->
    timer:sleep(600000),
    Fun().

