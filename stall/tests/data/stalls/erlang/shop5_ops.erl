-module(shop5_ops).
-export([hung/2]).

hung(healthy, Name) ->
    io:format("~p hangs: it is killed~n", [Name]),
    exit(whereis(Name), kill);
hung(stuck, Name) -> io:format("~p hangs~n", [Name]).
