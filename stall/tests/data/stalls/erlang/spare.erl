%% A server with tokens: who has none waits in its state.
-module(spare).
-behaviour(gen_server).
-export([start_link/0, take/0, hold/1, base/0]).
-export([init/1, handle_call/3, handle_cast/2, handle_info/2]).
start_link() -> gen_server:start_link({local, spare}, spare, 2, []).
take() -> gen_server:call(spare, take, infinity).
hold(N) -> {ok, _} = take(), timer:sleep(300), {ok, _} = take(), ok = gen_server:cast(spare, {done, N}), hold(N).
base() -> {ok, _} = start_link(), [spawn(spare, hold, [N]) || N <- [1, 2]], timer:sleep(500), ok.
init(N) -> {ok, #{free => N, taken => #{}, queue => []}}.
handle_call(take, From, #{free := 0, queue := Q} = S) -> {noreply, S#{queue := Q ++ [From]}};
handle_call(take, {Pid, _}, S) -> {reply, {ok, x}, grant(Pid, S)};
handle_call({poke, N}, _, S) when N > 30 -> {reply, ok, more(S)};
handle_call({poke, _}, _, S) -> {reply, ok, S};
handle_call(len, _, #{queue := Q} = S) -> {reply, length(Q), S}.
handle_cast(give, S) -> {noreply, more(S)};
handle_cast({done, _}, S) -> {noreply, S}.
handle_info(give, S) -> {noreply, more(S)};
handle_info({give, _}, S) -> {noreply, more(S)};
handle_info({'DOWN', _, _, _, _}, S) -> {noreply, more(S)};
handle_info(_, S) -> {noreply, S}.
grant(Pid, #{free := F, taken := T} = S) -> S#{free := F - 1, taken := T#{monitor(process, Pid) => Pid}}.
more(#{queue := []} = S) -> S;
more(#{queue := [{Pid, _} = From | Q]} = S) -> gen_server:reply(From, {ok, x}), grant(Pid, S#{queue := Q, free := 1}).
