%% A telephone exchange of processes with names, which send each other messages of their own. A switch asks billing for
%% credit, billing asks the rater for a tariff, and the rater asks the switch for a route. Beside them are a log, one that
%% counts, one that sweeps now and then, one that reports, and the lines.
-module(exchange).
-export([open/1, run/1]).

%% Kind is stuck, or slow: then the rater takes two minutes for the route.
open(Kind) ->
    [register(Name, spawn(?MODULE, run, [What]))
     || {Name, What} <- [{switch, {switch, []}}, {billing, {billing, #{}}}, {rater, {rater, Kind}}, {log, {log, 0}},
                         {counter, {counter, 0}}, {sweeper, sweeper}, {reporter, reporter},
                         {line_1, {line, 1}}, {line_2, {line, 2}}]],
    ok.

run({switch, Calls}) -> switch(Calls);
run({billing, Accounts}) -> billing(Accounts);
run({rater, Kind}) -> rater(Kind);
run({log, Number}) -> log(Number);
run({counter, Number}) -> counter(Number);
run(sweeper) -> sweeper();
run(reporter) -> reporter();
run({line, Number}) -> line(Number).

line(Number) ->
    switch ! {dial, self(), Number},
    receive {connected, Call} -> log ! {call, Call} end,
    timer:sleep(200),
    line(Number).

switch(Calls) ->
    receive
        {dial, Line, Number} ->
            ok = credit(Number),
            Line ! {connected, Number},
            counter ! call,
            switch([Number | Calls]);
        {route, Rater, Number} ->
            Rater ! {route, Number, trunk},
            switch(Calls)
    end.

credit(Number) ->
    billing ! {credit, self(), Number},
    receive {credit, Number, Answer} -> Answer end.

billing(Accounts) ->
    receive
        {credit, Switch, Number} ->
            Tariff = tariff(Number),
            Switch ! {credit, Number, ok},
            billing(Accounts#{Number => Tariff})
    end.

tariff(Number) ->
    rater ! {tariff, self(), Number},
    receive {tariff, Number, Tariff} -> Tariff end.

rater(Kind) ->
    receive
        {tariff, Billing, Number} ->
            Billing ! {tariff, Number, route(Kind, Number)},
            rater(Kind)
    end.

route(stuck, Number) ->
    switch ! {route, self(), Number},
    receive {route, Number, Route} -> Route end;
route(slow, _) ->
    timer:sleep(120000),
    other.

log(Number) -> receive {call, _} -> log(Number + 1) end.

counter(Number) ->
    receive
        call -> counter(Number + 1)
    after 500 ->
        counter(Number)
    end.

reporter() ->
    timer:sleep(20000),
    io:format("~b processes~n", [length(processes())]),
    reporter().

sweeper() ->
    timer:sleep(15000),
    log ! {call, sweep},
    sweeper().
