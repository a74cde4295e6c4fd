%% A customer asks the desk, which asks the orders, and these ask the desk to confirm within the same callback.
-module(calls).
-behaviour(gen_server).
-export([open/1, init/1, handle_call/3, handle_cast/2, help/1, customer/0]).

open(Day) ->
    [{ok, _} = gen_server:start({local, Name}, calls, {Name, Day}, []) || Name <- [desk, orders, billing]],
    spawn(calls, customer, []).

customer() -> ok = gen_server:call(desk, buy, infinity).

init(State) -> {ok, State}.

handle_call(buy, _, {desk, Day} = State) ->
    Answer = gen_server:call(orders, order, infinity),
    {reply, go_on(Day, Answer), State};
handle_call(order, From, {orders, Day} = State) ->
    Asked = answer(Day, From),
    confirmed = gen_server:call(desk, confirm, infinity),
    case Asked of
        later -> {reply, ok, State};
        _ -> {noreply, State}
    end;
handle_call(confirm, _, {desk, _} = State) -> {reply, confirmed, State};
handle_call(bill, _, {billing, _} = State) -> timer:sleep(60000), {reply, ok, State}.

handle_cast(_, State) -> {noreply, State}.

%% A helper answers the desk in a minute, of this module or of another, or it is answered at once, or only once it has
%% confirmed.
answer(handed_to_helper, From) -> spawn(calls, help, [From]);
answer(handed_to_visitor, From) -> spawn(visitor, help, [From]);
answer(handed_to_nobody, _) -> later;
answer(_, From) -> gen_server:reply(From, ok).

help(From) ->
    timer:sleep(60000),
    gen_server:reply(From, ok).

%% What the desk asks for before it can confirm.
go_on(answered_early, Answer) -> ok = gen_server:call(billing, bill, infinity), Answer;
go_on(answered_early_asks_again, Answer) -> ok = gen_server:call(orders, order, infinity), Answer;
go_on(_, Answer) -> Answer.
