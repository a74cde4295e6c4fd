%% One that kills the ledger by its name, in ten minutes.
-module(killer).
-export([sleeper/0]).

sleeper() ->
    timer:sleep(600000),
    exit(whereis(ledger), kill),
    sleeper().
