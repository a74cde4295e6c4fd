-module(any_loop). -export([loop/0]).
loop() -> receive Message -> handle(Message), loop() end.
handle(go) -> spare ! give;
handle(_) -> ok.
