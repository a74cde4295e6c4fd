%% A cook waits for the eggs, which a timer says are done in ten minutes. A helper waits for the cook, who knows its pid.
-module(eggs).
-export([open/1, cook/0, helper/1]).

open(_) -> register(cook, spawn(eggs, cook, [])).

cook() ->
    Helper = spawn(eggs, helper, [self()]),
    erlang:send_after(600000, self(), done),
    receive done -> Helper ! salt end,
    {cooked, Helper}.

helper(Cook) -> receive salt -> Cook ! thanks end.
