%% Idle: jobs come by rpc. Workers are known and monitored.
-module(jobs). -behaviour(gen_server). -export([start/0, worker/0, next/0, submit/1]).
-export([init/1, handle_call/3, handle_cast/2, handle_info/2]).
start() -> spawn(fun() -> {ok, _} = gen_server:start_link({local, jobs_server}, ?MODULE, [], []), [spawn(?MODULE, worker, []) || _ <- [1, 2, 3]], wait() end).
wait() -> receive stop -> ok end, io:format("stopped~n").
submit(Job) -> gen_server:cast(jobs_server, {submit, Job}).
worker() -> ok = gen_server:call(jobs_server, register), loop().
loop() -> Job = next(), logger:debug("~p", [Job]), loop().
next() -> {job, Job} = gen_server:call(jobs_server, next, infinity), Job.
init([]) -> {ok, #{workers => #{}, waiting => [], jobs => []}}.
handle_call(register, {Pid, _}, #{workers := W} = S) -> {reply, ok, S#{workers := W#{Pid => monitor(process, Pid)}}};
handle_call(next, From, #{jobs := [], waiting := W} = S) -> {noreply, S#{waiting := W ++ [From]}};
handle_call(next, _, #{jobs := [J | R]} = S) -> {reply, {job, J}, S#{jobs := R}}.
handle_cast({submit, J}, #{waiting := [F | R]} = S) -> gen_server:reply(F, {job, J}), {noreply, S#{waiting := R}};
handle_cast({submit, J}, #{jobs := R} = S) -> {noreply, S#{jobs := R ++ [J]}}.
handle_info({'DOWN', _, _, Pid, _}, #{workers := W} = S) -> {noreply, S#{workers := maps:remove(Pid, W)}}.
