%% Two sleep until the other one has set its flag, or take turns by one flag.
-module(naps).
-export([open/1, keep/2, nap/2, turn/2]).

open(Day) ->
    Walk = case Day of naps -> nap; naps_in_turns -> turn end,
    spawn(naps, keep, [self(), Walk]),
    receive kept -> ok end.

keep(Caller, Walk) ->
    ets:new(flags, [named_table, public]),
    ets:insert(flags, {turn, one}),
    [register(Own, spawn(naps, Walk, [Own, Other])) || {Own, Other} <- [{one, two}, {two, one}]],
    Caller ! kept,
    receive never -> ok end.

nap(Own, Other) ->
    case ets:member(flags, Other) of
        true -> ets:insert(flags, {Own, set});
        false -> timer:sleep(100), nap(Own, Other)
    end.

turn(Own, Other) ->
    case ets:lookup(flags, turn) of
        [{turn, Own}] -> ets:insert(flags, {turn, Other});
        _ -> timer:sleep(100)
    end,
    turn(Own, Other).
