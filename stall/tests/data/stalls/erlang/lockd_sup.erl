-module(lockd_sup).
-behaviour(supervisor).
-export([start_link/0, init/1, start_metrics/0]).

start_link() -> supervisor:start_link({local, ?MODULE}, ?MODULE, []).

start_metrics() -> {ok, spawn_link(lockd, metrics_init, [])}.

init([]) ->
    {ok, {#{strategy => one_for_one, intensity => 3, period => 10},
          [#{id => lockd, start => {lockd, start_link, []}},
           #{id => metrics, start => {?MODULE, start_metrics, []}}]}}.
