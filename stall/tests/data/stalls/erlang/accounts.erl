%% Two accounts of a bank send money to each other at the same time. Each one books only once the other one has answered.
%% On a good day the second one has its transfer checked first by a clerk, who has a minute for that.
-module(accounts).
-behaviour(gen_server).
-export([open/1, init/1, handle_call/3, handle_cast/2, customer/2, clerk/0, auditor/0]).

open(Day) ->
    [{ok, _} = gen_server:start({local, Name}, accounts, {Name, Day, 100}, []) || Name <- [alice, bob]],
    register(clerk, spawn(accounts, clerk, [])),
    spawn(accounts, customer, [alice, bob]),
    spawn(accounts, customer, [bob, alice]),
    timer:sleep(500),
    register(auditor, spawn(accounts, auditor, [])).

customer(From, To) -> gen_server:call(From, {send, 10, To}, infinity).

%% Asks both accounts at once, and sums up whatever comes.
auditor() ->
    One = gen_server:send_request(alice, balance),
    Two = gen_server:send_request(bob, balance),
    {sum, gen_server:receive_response(One, infinity), gen_server:receive_response(Two, infinity)}.

init(State) -> {ok, State}.

handle_call(balance, _, {_, _, Sum} = State) -> {reply, Sum, State};
handle_call({book, Sum}, _, {Name, Day, Before}) -> {reply, booked, {Name, Day, Before + Sum}};
handle_call({send, Sum, To}, From, {Name, Day, Before}) ->
    timer:sleep(200),
    check(Name, Day, From),
    booked = gen_server:call(To, {book, Sum}, infinity),
    {reply, sent, {Name, Day, Before - Sum}}.

handle_cast(_, State) -> {noreply, State}.

check(bob, accounts_checked, _) ->
    clerk ! {check, self()},
    receive checked -> ok after 600000 -> refused end;
check(_, _, _) -> ok.

clerk() ->
    receive {check, Account} -> timer:sleep(600000), Account ! checked end,
    clerk().
