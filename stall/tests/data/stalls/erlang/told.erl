%% A fun with a term of its own, of a module that answers nobody.
-module(told).
-export([word/1]).

word(Whom) -> fun() -> io:format("~p~n", [Whom]) end.
