%% A helper that begins timers for others.
-module(alarm).
-export([later/2]).

later(Whom, What) -> erlang:send_after(600000, Whom, What).
