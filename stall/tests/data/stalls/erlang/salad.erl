%% A cook waits for a helper, who waits for the cook.
-module(salad).
-export([open/1, cook/0, helper/1]).

open(_) -> register(cook, spawn(salad, cook, [])).

cook() ->
    Helper = spawn(salad, helper, [self()]),
    receive done -> Helper ! salt end,
    {cooked, Helper}.

helper(Cook) -> receive salt -> Cook ! done end.
