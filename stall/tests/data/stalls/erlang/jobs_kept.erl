%% Healthy: jobs by rpc; workers are monitored at all times, and those at work once more.
-module(jobs_kept). -behaviour(gen_server). -export([start/0, worker/0, init/1, handle_call/3, handle_cast/2, handle_info/2]).
start() -> spawn(fun() -> {ok, _} = gen_server:start_link({local, jobs_kept_server}, ?MODULE, [], []), [spawn(?MODULE, worker, []) || _ <- [1, 2, 3]], receive stop -> ok end end).
worker() -> ok = gen_server:call(jobs_kept_server, register), loop().
loop() -> J = gen_server:call(jobs_kept_server, next, infinity), logger:debug("~p", [J]), loop().
init([]) -> {ok, #{workers => #{}, waiting => [], jobs => [], working => #{}}}.
handle_call(register, {Pid, _}, #{workers := W} = S) -> {reply, ok, S#{workers := W#{Pid => monitor(process, Pid)}}};
handle_call(next, From, #{jobs := [], waiting := W} = S) -> {noreply, S#{waiting := W ++ [From]}};
handle_call(next, {Pid, _}, #{jobs := [J | R], working := B} = S) -> {reply, J, S#{jobs := R, working := B#{monitor(process, Pid) => J}}}.
handle_cast({submit, J}, #{waiting := [F | R]} = S) -> gen_server:reply(F, J), {noreply, S#{waiting := R}};
handle_cast({submit, J}, #{jobs := R} = S) -> {noreply, S#{jobs := R ++ [J]}}.
handle_info({'DOWN', _, _, Pid, _}, #{workers := W} = S) -> {noreply, S#{workers := maps:remove(Pid, W)}}.
