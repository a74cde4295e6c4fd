%% Two ask each other, each by a message with a reference of its own. Another day they note that in a table too, and one
%% who reads it answers in ten minutes.
-module(letters).
-export([open/1, left/1, right/1, answer/1]).

open(Case) ->
    group_leader(whereis(user), self()), % (the one who asks is on another node)
    Caller = self(),
    register(board, spawn(fun() -> keep(Caller) end)),
    receive kept -> ok end,
    register(right, spawn(letters, right, [Case])),
    register(left, spawn(letters, left, [Case])),
    [register(answers, spawn(letters, answer, [600000])) || Case =:= noted].

keep(Caller) ->
    ets:new(asked, [named_table, public]),
    Caller ! kept,
    receive never -> ok end.

left(Case) ->
    timer:sleep(100),
    Sum = case Case of noted -> ask_noted(right); _ -> ask(right) end,
    {left, Sum}.

right(Case) ->
    timer:sleep(100),
    Sum = case Case of noted -> ask_noted(left); _ -> ask(left) end,
    {right, Sum}.

ask(Whom) ->
    Reference = make_ref(),
    Whom ! {ask, self(), Reference},
    receive {Reference, Answer} -> Answer end.

ask_noted(Whom) ->
    Reference = make_ref(),
    ets:insert(asked, {Reference, self()}),
    Whom ! {ask, self(), Reference},
    receive {Reference, Answer} -> Answer end.

answer(Limit) ->
    timer:sleep(Limit),
    [P ! {Reference, none} || {Reference, P} <- ets:tab2list(asked)],
    answer(Limit).
