%% One that has the supervisor end the ledger and start it again, in ten minutes.
-module(ender).
-export([sleeper/0]).

sleeper() ->
    timer:sleep(600000),
    ok = supervisor:terminate_child(books, ledger),
    {ok, _} = supervisor:restart_child(books, ledger),
    sleeper().
