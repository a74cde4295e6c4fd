%% A reader gets chunks, all of them with the one reference of its request, and says that it has got one with the one of
%% the writer. After the third it doesn't.
-module(chunks).
-export([open/1, read/1, write/0]).

open(Last) ->
    register(writer, spawn(chunks, write, [])),
    register(reader, spawn(chunks, read, [Last])),
    ok.

read(Last) ->
    Reference = make_ref(),
    writer ! {self(), Reference},
    receive {begun, Other} -> fetch(writer, Other, Reference, Last) end.

fetch(_, _, _, 0) -> done;
fetch(Writer, Other, Reference, Left) ->
    [Writer ! {Other, next} || Left > 1],
    receive {Reference, _Chunk} -> fetch(Writer, Other, Reference, Left - 1) end.

write() ->
    Reference = make_ref(),
    receive {Reader, Other} -> Reader ! {begun, Reference}, hand(Reader, Other, Reference, 0) end.

hand(Reader, Other, Reference, Number) ->
    [Reader ! {Other, Number} || Number > 0],
    receive {Reference, next} -> hand(Reader, Other, Reference, Number + 1) end.
