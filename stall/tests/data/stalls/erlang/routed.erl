%% Two ask each other, the left one by a router. This keeps a fun for each question, and answers by that in ten minutes.
-module(routed).
-export([open/1, left/0, right/0, route/2]).

open(_) ->
    group_leader(whereis(user), self()), % (the one who asks is on another node)
    register(router, spawn(routed, route, [right, []])),
    register(right, spawn(routed, right, [])),
    register(left, spawn(routed, left, [])).

left() ->
    timer:sleep(100),
    {left, ask(router)}.

right() ->
    timer:sleep(100),
    {right, ask(left)}.

ask(Whom) ->
    Reference = make_ref(),
    Whom ! {ask, self(), Reference},
    receive {Reference, Answer} -> Answer end.

route(Whom, Late) ->
    receive
        {ask, P, Reference} = Question ->
            Whom ! Question,
            route(Whom, [{600, fun() -> P ! {Reference, late} end} | Late])
    after 1000 ->
        [Answer() || {0, Answer} <- Late],
        route(Whom, [{Left - 1, Answer} || {Left, Answer} <- Late, Left > 0])
    end.
