%% Ends its manager in ten minutes, and so who is linked to that.
-module(events_timed).
-behaviour(gen_event).
-export([init/1, handle_event/2, handle_call/2, handle_info/2]).

init(State) ->
    erlang:send_after(600000, self(), stop),
    {ok, State}.

handle_event(_, State) -> {ok, State}.

handle_call(_, State) -> {ok, State, State}.

handle_info(stop, _) -> exit(self(), kill).
