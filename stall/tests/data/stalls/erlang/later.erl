-module(later). -export([later/1]).
later(T) -> erlang:send_after(T, self(), go).
