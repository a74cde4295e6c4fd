-module(waker). -export([start/0]).
start() -> spawn(fun() -> spare:base(), later:later(60000), any_loop:loop() end).
