%% A counter that gives its callers to another program, and answers once they come back.
-module(parked_bytes).
-behaviour(gen_server).
-export([init/1, handle_call/3, handle_cast/2, handle_info/2]).

init(_) -> {ok, open_port({spawn_executable, "/bin/sh"}, [{packet, 2}, binary, {args, ["-c", "sleep 600; cat"]}])}.

handle_call({stamp, form}, From, Program) ->
    port_command(Program, term_to_binary(From)),
    {noreply, Program}.

handle_cast(_, Program) -> {noreply, Program}.

handle_info({Program, {data, Bytes}}, Program) ->
    gen_server:reply(binary_to_term(Bytes), ok),
    {noreply, Program}.
