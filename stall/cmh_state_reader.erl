%% Prints what process_info says of the processes of some modules on several nodes, and again some seconds later. It
%% holds and changes nothing, and leaves nothing behind: a node that doesn't know this module has it while it is read.
-module(cmh_state_reader).
-export([print/2, print/3, read/4]).

%% Messages are copied to be read, which holds their process. So those of one with as many bytes aren't read, nor of one
%% with more than a few messages and as many bytes, nor as many messages.
-define(MEMORY, 128 * 1024 * 1024).
-define(FEW, 1000).
-define(MEMORY_OF_MANY, 16 * 1024 * 1024).
-define(MESSAGES, 50000).
%% So many characters of a message are printed, references before anything long.
-define(CHARACTERS, 2000).
%% A process stands still while its stack is printed. Each word of it may print as many terms, and ten million of these
%% take a second. A stack that has or may print as many isn't printed.
-define(WORDS, 1000).
-define(TERMS_OF_WORD, 100000).
-define(TERMS, 10000000).
%% So many terms of a mailbox and a dictionary are searched for references, and so many of these are printed, as many
%% as its messages may have.
-define(SEARCHED, 2000000).
-define(REFERENCES, 100000).
%% So many references and pids on a stack, and rows of a table, are printed.
-define(FOUND, 1000).
%% Of so many modules the code is looked at for the limits of their receives, and of none with as many bytes.
-define(MODULES, 100).
-define(BYTES, 1024 * 1024).
%% So many references in the state of an idle server are looked at for those of timers.
-define(TIMERS, 100).
%% What begins processes of an Elixir program that have none of its modules on their stacks.
-define(OF_ELIXIR, ['Elixir.Agent.Server', 'Elixir.DynamicSupervisor', 'Elixir.Registry.Partition',
                    'Elixir.Task.Supervised', supervisor]).

%% The applications of Erlang's or Elixir's own, and those of others that many programs have for what they serve.
-define(SYSTEM, [kernel, stdlib, elixir, logger, iex, mnesia, crypto, asn1, public_key, ssl, inets, sasl, os_mon, ssh,
                 runtime_tools, xmerl, cowboy, cowlib, ranch]).

print(Modules, Nodes) -> print(Modules, Nodes, 5).

%% All nodes are read before one is read again. Returns a status for halt: 0, or 1 after a line on standard error.
print(Modules, Nodes, Seconds) ->
    Missing = [Node || Node <- Nodes, Node =/= node(), net_kernel:connect_node(Node) =/= true],
    Wanted = {full_names(Modules), [node() | Nodes]},
    Visits = [visit(Wanted, Node) || Node <- Nodes, Missing =:= []],
    Encoding = proplists:get_value(encoding, io:getopts(), unicode),
    io:setopts([{encoding, latin1}]), % (so that bytes are written as they are)
    try
        Missing =:= [] orelse throw({hd(Missing), noconnection}),
        Readers = [{Visit, next(Visit)} || Visit <- Visits],
        Hosts = [Host || {_, Host, _, _} <- Visits], % (a pid of each node, by which the others have its number)
        [timed(Visit, Reader, {first, Hosts}) || {Visit, Reader} <- Readers],
        timer:sleep(round(1000 * Seconds)),
        [timed(Visit, Reader, second) || {Visit, Reader} <- Readers],
        0
    catch
        throw:{Node, Why} -> io:put_chars(standard_error, refusal(Node, Why)), 1
    after
        [leave(Visit) || Visit <- Visits],
        io:setopts([{encoding, Encoding}])
    end.

%% A module Shop of Elixir is called 'Elixir.Shop'.
full_names(Modules) ->
    Own = ["Elixir." ++ Name || [First | _] = Name <- lists:map(fun atom_to_list/1, Modules), First >= $A, First =< $Z,
                                not lists:prefix("Elixir.", Name)],
    Full = Modules ++ lists:map(fun list_to_atom/1, Own),
    case [Module || Module <- Full, lists:prefix("Elixir.", atom_to_list(Module))] of
        [] -> Full;
        _ -> lists:usort(Full ++ ?OF_ELIXIR)
    end.

refusal(Node, noconnection) ->
    io_lib:format("cmh_state_reader: no connection to ~p: is it up, and is ~~/.erlang.cookie the same?~n", [Node]);
refusal(Node, other_module) ->
    io_lib:format("cmh_state_reader: ~p has another module of this name, and is left as it is~n", [Node]);
refusal(Node, Why) -> io_lib:format("cmh_state_reader: ~p wasn't read: ~0p~n", [Node, Why]).

%% What a node does by its own erl_eval, as nothing of this module is there before and after. It outlives the reader,
%% and hears when the caller ends, or its node.
-define(VISIT, "
    monitor(process, Caller),
    receive begin_now -> ok; {'DOWN', _, _, _, _} -> exit(normal) end,
    Path = code:where_is_file(File),
    Known = case erlang:module_loaded(Name) of
        true -> Name:module_info(md5);
        false when Path =:= non_existing -> none;
        false -> case beam_lib:md5(Path) of {ok, {_, Found}} -> Found; _ -> other end
    end,
    Known =:= none orelse Known =:= Sum orelse exit(other_module),
    Known =:= none andalso begin
        code:soft_purge(Name),
        {module, Name} =:= code:load_binary(Name, File, Code) orelse exit(not_loaded)
    end,
    {Reader, Monitor} = spawn_monitor(Name, read, [Wanted, Caller, self(), Tag]),
    Reason = receive
        {'DOWN', Monitor, _, _, Why} -> Why;
        _ -> exit(Reader, kill), receive {'DOWN', Monitor, _, _, _} -> normal end
    end,
    Path =:= non_existing andalso begin code:delete(Name), code:soft_purge(Name) end,
    exit(Reason).").

visit(Wanted, Node) ->
    {ok, Tokens, _} = erl_scan:string(?VISIT),
    {ok, Expressions} = erl_parse:parse_exprs(Tokens),
    {Name, Code, _} = code:get_object_code(?MODULE),
    Tag = make_ref(),
    Given = [{'Wanted', Wanted}, {'Caller', self()}, {'Tag', Tag}, {'Name', Name}, {'Code', Code},
             {'File', atom_to_list(Name) ++ ".beam"}, {'Sum', Name:module_info(md5)}],
    Host = spawn(Node, erl_eval, exprs, [Expressions, orddict:from_list(Given)]),
    Monitor = monitor(process, Host),
    Host ! begin_now, % (so that the monitor is there before the host can end)
    {Node, Host, Monitor, Tag}.

%% What the reader says next. It sends a text once the one before is written, so that they don't pile up.
next({Node, _, Monitor, Tag}) ->
    receive
        {Tag, Word} -> Word;
        {'DOWN', Monitor, process, _, Why} -> throw({Node, Why})
    end.

%% Behind what is read of a node stands when that was, by the clock of the caller.
timed(Visit, Reader, Which) ->
    Began = os:system_time(millisecond),
    write(Visit, Reader, Which),
    Times = [Began / 1000, os:system_time(millisecond) / 1000, element(1, Visit)],
    ok = file:write(group_leader(), io_lib:format("=taken ~.3f ~.3f ~ts~n", Times)).

write(Visit, Reader, Which) ->
    Reader ! Which,
    case next(Visit) of
        done -> ok;
        {code, Codes} ->
            ok = file:write(group_leader(), receives(Codes, element(1, Visit))),
            write(Visit, Reader, more);
        Text -> ok = file:write(group_leader(), Text), write(Visit, Reader, more)
    end.

%% The limits of the receives of some functions, as their code has them: a number, `infinity` if it has none, or `any`
%% if it is computed.
receives(Codes, Node) ->
    Known = [{Module, Functions, parts(Module, File)} || {Module, Functions, File} <- Codes],
    Found = [{Module, Name, Arity, Instructions} || {Module, Functions, Parts} <- Known,
                                                    {{Name, Arity}, Instructions} <- Parts,
                                                    lists:member({Name, Arity}, Functions)],
    Receives = [list_to_tuple([Module, Name, Arity, lists:usort(lists:flatmap(fun limit/1, Instructions))
                               | register(Instructions)]) || {Module, Name, Arity, Instructions} <- Found],
    Asks = [{Module, Name, Arity, Asked} || {Module, Name, Arity, Instructions} <- Found,
                                            [_ | _] = Asked <- [asked_in(Instructions)]],
    [[io_lib:format("=~s ~b ~ts~n", [Word, length(Rows), Node]) | [io_lib:format("~0tp~n", [Row]) || Row <- Rows]]
     || {Word, Rows} <- [{"receives", Receives}, {"asks", Asks}]].

%% The names to which a function sends as the last thing before a receive of its own.
asked_in(Instructions) -> lists:usort(asked_before(Instructions, [])).

asked_before([], _) -> [];
asked_before([{label, _}, {loop_rec, _, _} | Rest], Before) -> names_in(Before) ++ asked_before(Rest, []);
asked_before([Each | Rest], Before) ->
    asked_before(Rest, case is_place(Each) of true -> []; false -> [Each | Before] end).

names_in([]) -> [];
names_in([Each | Before]) -> [Name || is_send(Each), Name <- name_in(Before)] ++ names_in(Before).

%% The name that is in the first register, if it has been put there just before.
name_in([{move, {atom, Name}, {x, 0}} | _]) -> [Name];
name_in([Each | Before]) when is_tuple(Each) ->
    Quiet = [line, move, put_list, put_map_assoc, put_tuple2, test_heap],
    case lists:member(element(1, Each), Quiet) andalso not mentions(Each, {x, 0}) of
        true -> name_in(Before);
        false -> []
    end;
name_in(_) -> [].

is_send(send) -> true;
is_send({call_ext, _, {extfunc, Module, Name, _}}) ->
    lists:member({Module, Name}, [{erlang, send}, {gen_server, cast}, {gen_statem, cast}, {'Elixir.GenServer', cast}]);
is_send(_) -> false.

%% A second reading has the same code.
parts(Module, Code) -> once({parts, Module, erlang:md5(Code)}, fun() -> disassembled(Module, Code) end).

%% What a function answers, which is kept by a key and asked for once.
once(Key, Function) ->
    case get({?MODULE, Key}) of
        undefined -> put({?MODULE, Key}, Function()), get({?MODULE, Key});
        Known -> Known
    end.

disassembled(Module, Code) ->
    case catch beam_disasm:file(Code) of
        {beam_file, Module, _, _, _, Parts} ->
            [{{Name, Arity}, Instructions} || {function, Name, Arity, _, Instructions} <- Parts];
        _ -> []
    end.

%% Where a function of one receive has the reference that each message has to have which that takes, as the compiler has
%% found out, or nothing; with `once` if each wait there has one of its own, and `down` if a 'DOWN' alone ends it.
register(Instructions) ->
    Waits = [Each || Each <- Instructions, is_tuple(Each), lists:member(element(1, Each), [wait, wait_timeout])],
    case {Waits, lists:splitwith(fun(Each) -> not is_use(Each) end, Instructions)} of
        {[{wait, {f, Loop}}], {Before, [{recv_marker_use, Used}, {label, Loop} | Taken]}} ->
            Made = [Each || Each <- made(Before), is_entered_here(Loop, Instructions)],
            Known = [Number || {y, Number} <- [Used | [Each || lists:member(Used, Made), Each <- Made]]],
            Words = [once || lists:member(Used, Made)] ++ [down || takes_down(Taken)],
            [Word || Known =/= [], not lists:any(fun is_use/1, Taken), Word <- [hd(Known) | Words]];
        _ -> []
    end.

is_use({recv_marker_use, _}) -> true;
is_use(_) -> false.

%% Whether no path leads into the receive but that from above it.
is_entered_here(Loop, Instructions) ->
    [] =:= [Each || Each <- Instructions, is_tuple(Each), not lists:member(element(1, Each), [loop_rec_end, wait]),
                    mentions(Each, {f, Loop})].

mentions(Term, Term) -> true;
mentions(Term, Label) when is_tuple(Term) -> mentions(tuple_to_list(Term), Label);
mentions([Head | Tail], Label) -> mentions(Head, Label) orelse mentions(Tail, Label);
mentions(_, _) -> false.

%% The registers with a reference that was made in this call of the function, on the one path to the receive. One that
%% the function was given may be that of many waits, as of each part of a long answer.
made(Before) ->
    Path = lists:takewhile(fun(Each) -> not is_place(Each) end, lists:reverse(Before)),
    case lists:splitwith(fun(Each) -> not is_bind(Each) end, Path) of
        {Since, [{recv_marker_bind, _, Made}, {move, Made, Too} | _]} -> lists:foldr(fun kept/2, [Made, Too], Since);
        {Since, [{recv_marker_bind, _, Made} | _]} -> lists:foldr(fun kept/2, [Made], Since);
        _ -> []
    end.

is_place(Each) -> is_tuple(Each) andalso element(1, Each) =:= label.

is_bind({recv_marker_bind, _, _}) -> true;
is_bind(_) -> false.

%% The registers that have the reference after an instruction.
kept({move, From, To}, Having) -> [To || lists:member(From, Having)] ++ (Having -- [To]);
kept({swap, One, Other}, Having) ->
    [case Each of One -> Other; Other -> One; _ -> Each end || Each <- Having];
kept({trim, Number, _}, Having) -> [case Each of {y, At} -> {y, At - Number}; _ -> Each end || Each <- Having];
kept({init_yregs, {list, Gone}}, Having) -> Having -- Gone;
kept({put_tuple2, To, _}, Having) -> Having -- [To];
kept({bif, _, _, _, To}, Having) -> Having -- [To];
kept({put_list, _, _, To}, Having) -> Having -- [To];
kept({get_tuple_element, _, _, To}, Having) -> Having -- [To];
kept({line, _}, Having) -> Having;
kept({test_heap, _, _}, Having) -> Having;
kept({Name, _, _}, Having) when Name =:= call; Name =:= call_ext -> [Each || {y, _} = Each <- Having];
kept(send, Having) -> [Each || {y, _} = Each <- Having];
kept(_, _) -> [].

%% Whether a receive takes messages of the form {'DOWN', _, _, _, _} alone: others are passed over at once.
takes_down([{loop_rec, _, Message}, {test, is_tagged_tuple, {f, Other}, [Message, 5, {atom, 'DOWN'}]} | Taken]) ->
    {_, Passed} = lists:splitwith(fun(Each) -> Each =/= {label, Other} end, Taken),
    case Passed of [_, {loop_rec_end, _} | _] -> true; _ -> false end;
takes_down(_) -> false.

limit({wait, _}) -> [infinity];
limit({wait_timeout, _, {integer, Limit}}) -> [Limit];
limit({wait_timeout, _, _}) -> [any];
limit(_) -> [].

leave({_, Host, Monitor, _}) ->
    Host ! leave,
    Again = monitor(process, Host), % (the first one may have told already)
    receive {'DOWN', Again, process, _, _} -> demonitor(Monitor, [flush]) end.

%% The reader on a node. Its host ends it. A fault of its own goes to the caller, and not into the node's log.
read(Wanted, Caller, Host, Tag) ->
    try look_twice(Wanted, Caller, Host, Tag)
    catch
        Class:Why:Stack ->
            Places = [{Module, Function, proplists:get_value(line, Info)} || {Module, Function, _, Info} <- Stack],
            exit({Class, lists:flatten(io_lib:format("~0P", [Why, 9])), lists:sublist(Places, 3)})
    end.

look_twice({Modules, Nodes}, Caller, Host, Tag) ->
    process_flag(priority, low),
    Apart = [self(), Host, Caller],
    Caller ! {Tag, self()},
    Numbers = receive {first, Hosts} -> [number(Other) || Other <- Hosts, node(Other) =/= node()] end,
    Locks = {locks(), mnesia()}, % (who has a lock now and after all is read has had it all the time)
    {Taken, Left} = chosen(Modules, Apart),
    tell(Caller, Tag, counts(Left, Modules, Nodes), fun first/1, Taken, fun() -> tables(Numbers, Locks) end),
    receive second -> ok end,
    Counts = maps:from_list([{P, count(P)} || P <- Taken]),
    {Again, LeftNow} = chosen(Modules, Apart),
    tell(Caller, Tag, counts(LeftNow, Modules, Nodes), fun(P) -> second(P, Counts) end, Again,
         fun() -> tables(Numbers, {locks(), mnesia()}) end),
    receive never -> ok end.

%% How many modules may keep a term where no process has it, how many processes are left out, how many nodes are
%% connected that aren't read, and how many of the modules that are asked for use tables.
counts(Left, Modules, Nodes) ->
    Tables = [Module || Module <- Modules, lists:member(tables, calls_of_module(Module))],
    [{"keeps", keeps(Modules)}, {"left out", Left}, {"nodes", length(nodes() -- Nodes)}, {"tables", length(Tables)}].

%% How many of the modules that are asked for or loaded use tables, begin timers or make terms of bytes: by these the
%% reference of a caller may come back that no process has meanwhile.
keeps(Modules) ->
    Loaded = [Module || {Module, _} <- code:all_loaded(), Module =/= ?MODULE, not is_tool(Module)],
    IsKeeping = fun(Kind) -> lists:member(Kind, [bytes, tables, timers]) end,
    length([Module || Module <- lists:usort(Modules ++ Loaded), lists:any(IsKeeping, calls_of_module(Module))]).

%% The number that the pids of another node have on this one.
number(Other) ->
    [Number | _] = string:lexemes(pid_to_list(Other), "<."),
    [Number, " ", atom_to_list(node(Other)), "\n"].

%% The locks of `global`, as its table has them: what is locked, for whom, and the pids that have it, with a reference
%% of its own each time.
locks() ->
    try ets:tab2list(global_locks) of
        Rows -> [io_lib:format("~0tp~n", [Row]) || Row <- lists:sublist(Rows, ?FOUND)]
    catch
        error:_ -> []
    end.

%% The locks of Mnesia that its node gives out, and who wants one. Its tables are read by its locker alone, which waits
%% for nothing but messages: it is asked if it has none.
mnesia() ->
    Locker = whereis(mnesia_locker),
    case is_pid(Locker) andalso process_info(Locker, [message_queue_len, status, current_function]) of
        [{_, 0}, {_, waiting}, {_, {mnesia_locker, loop, 1}}] ->
            lists:append([asked(Locker, Table) || Table <- [mnesia_held_locks, mnesia_lock_queue]]);
        _ -> []
    end.

asked(Locker, Table) ->
    case ets:info(Table, size) of
        Size when is_integer(Size), Size > 0, Size =< ?FOUND ->
            Locker ! {get_table, self(), Table},
            receive {Table, Rows} -> lists:flatmap(fun lock/1, Rows) after 1000 -> [] end;
        _ -> []
    end.

%% Who has a lock, or wants it, and whose transaction that is: another one may take part in it. Other versions of Mnesia
%% have other rows.
lock({{What, Kind, Who}}) -> lock({What, Kind, Who});
lock({What, Kind, {tid, _, P}}) -> lock(has, What, Kind, [P]);
lock({queue, What, {tid, _, Owner}, Kind, P, _}) -> lock(wants, What, Kind, [P, Owner]);
lock({What, _, Having}) when is_list(Having) ->
    [Row || {Kind, {tid, _, P}} <- Having, Row <- lock(has, What, Kind, [P])];
lock(_) -> [].

lock(Word, What, Kind, Pids) ->
    [io_lib:format("{~p,~ts,~p,~ts}~n", [Word, key(What), Kind, lists:join(",", [pid_to_list(P) || P <- Pids])])].

%% What is locked, as a text that is no other one's: a long key is told by a sum of it.
key(What) ->
    Text = shortened(What),
    case {string:find(Text, "..."), What} of
        {nomatch, _} -> Text;
        {_, {Table, Key}} -> shortened({Table, {sum, binary:decode_unsigned(erlang:md5(term_to_binary(Key)))}});
        _ -> Text
    end.

tables(Numbers, {Locks, Held}) ->
    Handlers = [io_lib:format("~0p~n", [Module]) || Module <- handlers()],
    [[io_lib:format("=~s ~b ~ts~n", [Word, length(Rows), node()]) | Rows]
     || {Word, Rows} <- [{"numbers", Numbers}, {"locks", Locks}, {"mnesia", Held}, {"handles", Handlers},
                         {"repeated", repeated()}, {"sockets", sockets()}, {"machine", machine()}]].

%% Who has begun each call that the module timer makes again and again, or gets its message: that one monitors these, so
%% that it ends with them. What it calls lies in a timer of the runtime's, which shows it to nobody.
repeated() ->
    Server = whereis(timer_server),
    case is_pid(Server) andalso process_info(Server, monitors) of
        {_, Monitors} -> [io_lib:format("~p~n", [P]) || {process, P} <- lists:sublist(Monitors, ?FOUND), is_pid(P)];
        _ -> []
    end.

%% The connections of TCP: the port of each with its owner, and its two ends as the kernel has them. A port that is
%% asked for these does nothing else.
sockets() ->
    [io_lib:format("~p ~p ~ts ~ts~n", [Port, P, end_of(At), end_of(To)])
     || Port <- erlang:ports(), {name, "tcp_inet"} <- [erlang:port_info(Port, name)],
        {connected, P} <- [erlang:port_info(Port, connected)],
        {ok, {_, Own} = At} <- [inet:sockname(Port)], is_integer(Own), {ok, To} <- [inet:peername(Port)]].

end_of({{0, 0, 0, 0, 0, 16#ffff, High, Low}, Port}) ->
    end_of({{High bsr 8, High band 255, Low bsr 8, Low band 255}, Port});
end_of({Address, Port}) when tuple_size(Address) =:= 4 -> io_lib:format("~s:~b", [inet:ntoa(Address), Port]);
end_of({Address, Port}) -> io_lib:format("[~s]:~b", [inet:ntoa(Address), Port]).

%% On which machine and in which container the ends of its connections are.
machine() ->
    case {file:read_file("/proc/sys/kernel/hostname"), file:read_link("/proc/self/ns/pid")} of
        {{ok, Name}, {ok, Space}} -> [[string:trim(Name), " ", Space, "\n"]];
        _ -> []
    end.

%% Sends the text of each process, how many are left out that aren't of the system, and how many are printed.
tell(Caller, Tag, Others, Text, Taken, Tables) ->
    Printed = [Calls || P <- Taken, {Calls, Lines} <- [Text(P)], is_sent(Caller, Tag, Lines)],
    is_sent(Caller, Tag, {code, codes(lists:usort(lists:append(Printed)))}),
    is_sent(Caller, Tag, Tables()),
    {Once, Repeated} = timers(),
    Last = Others ++ [{"repeats", Repeated}, {"timers", Once}, {"end", length(Printed)}],
    is_sent(Caller, Tag, [io_lib:format("=~s ~b ~ts~n", [Word, Number, node()]) || {Word, Number} <- Last]),
    Caller ! {Tag, done}.

%% The code of the functions in which processes are, by module, if it is the one that is loaded.
codes(Calls) ->
    Named = lists:usort([Module || {Module, _, _} <- Calls, not is_of_otp(Module)]),
    [{Module, [{Name, Arity} || {Of, Name, Arity} <- Calls, Of =:= Module], Code}
     || Module <- lists:sublist(Named, ?MODULES), {_, Code, _} <- [code:get_object_code(Module)],
        byte_size(Code) < ?BYTES, is_loaded(Module, Code), not erlang:check_old_code(Module)].

is_loaded(Module, Code) ->
    case beam_lib:md5(Code) of
        {ok, {_, Sum}} -> Module:module_info(md5) =:= Sum;
        _ -> false
    end.

is_sent(Caller, Tag, Word) ->
    Caller ! {Tag, case Word of {code, _} -> Word; _ -> unicode:characters_to_binary(Word) end},
    receive more -> true end.

%% Reading a stack, monitors, messages or memory adds a reduction, and reading the reductions adds none. So they are
%% read after all else at first, and before anything else later. If both are equal, the process has done nothing
%% between.
first(P) ->
    Info = info(P),
    text(P, Info, "", settled(P, count(P), 9)).

%% The process answers before its reduction for that is added, so that one that still runs has it only later.
settled(_, Count, 0) -> Count;
settled(P, Count, Tries) ->
    case count(P) of
        Count -> Count;
        Other -> settled(P, Other, Tries - 1)
    end.

second(P, Counts) ->
    Count = maps:get(P, Counts, ""),
    text(P, info(P), Count, "").

count(P) ->
    case process_info(P, reductions) of
        {_, Number} -> io_lib:format("{reductions,~b}~n", [Number]);
        undefined -> ""
    end.

%% How many calls the module timer will make once, and how many again and again: each of them may answer or end anybody.
%% Whom isn't shown.
timers() ->
    Server = whereis(timer_server),
    Tables = [Table || Server =/= undefined, Table <- ets:all(), ets:info(Table, owner) =:= Server],
    Counts = [calls_of_table(Table, ets:info(Table, size)) || Table <- Tables],
    {lists:sum([Once || {Once, _} <- Counts]), lists:sum([Repeated || {_, Repeated} <- Counts])}.

%% One that is made again and again has two references.
calls_of_table(Table, Size) when is_integer(Size), Size =< ?FOUND ->
    try ets:tab2list(Table) of
        Rows ->
            {Repeated, Once} = lists:partition(fun is_repeated/1, Rows),
            {length(Once), length(Repeated)}
    catch
        error:_ -> {Size, 0}
    end;
calls_of_table(_, Size) when is_integer(Size) -> {Size, 0};
calls_of_table(_, _) -> {0, 0}.

is_repeated({Reference, Other}) -> Reference =/= Other;
is_repeated(_) -> false.

%% The stack comes last, as it has lines of its own.
-define(ITEMS, [registered_name, initial_call, dictionary, monitors, links, trap_exit, current_stacktrace,
                message_queue_len, messages, status, backtrace]).

info(P) ->
    case process_info(P, [message_queue_len, memory, stack_size]) of
        undefined -> undefined;
        [{_, Messages}, {_, Memory}, {_, Words}] ->
            Long = [dictionary || Memory >= ?MEMORY]
                ++ [messages || not is_short_mail(Messages, Memory)]
                ++ [backtrace || not is_short(Words, Memory)],
            process_info(P, ?ITEMS -- Long)
    end.

%% A server that waits for requests has its state alone on its stack. Of that the references and pids are printed.
is_loop({Module, Function, _}) ->
    lists:member({Module, Function}, [{gen_server, loop}, {gen_statem, loop_receive}, {gen_event, fetch_msg}]).

is_short_mail(Messages, Memory) when Messages < ?FEW -> Memory < ?MEMORY;
is_short_mail(Messages, Memory) -> Messages < ?MESSAGES andalso Memory < ?MEMORY_OF_MANY.

is_short(Words, Memory) -> Words < ?WORDS andalso Words * min(Memory div 8, ?TERMS_OF_WORD) < ?TERMS.

text(_, undefined, _, _) -> gone;
text(P, Info, Before, After) ->
    Lines = [line(Key, lists:keyfind(Key, 1, Info), Info) || Key <- ?ITEMS],
    More = io_lib:format("{references,~ts}~n{may_end,~ts}~n{closures,~p}~n{code,~0p}~n{strategies,~ts}~n{timed,~p}~n"
                         "~ts", [list(references(Info)), list(may_end(Info)), closures(Info), code_of(Info),
                                 list(strategies(Info)), is_timed(Info), kept(Info)]),
    {function_of(Info), [io_lib:format("=process ~p ~ts~n", [P, node()]), Before, More, Lines, After]}.

%% The function in which it is.
function_of(Info) ->
    case lists:keyfind(current_stacktrace, 1, Info) of
        {_, [{Module, Name, Arity, _} | _]} -> [{Module, Name, Arity}];
        _ -> []
    end.

%% Whether a server in its loop has a limit there, or a timer of its own is under way, as far as its state has it.
is_timed(Info) ->
    {_, Stack} = lists:keyfind(current_stacktrace, 1, Info),
    case [Module || {Module, _, _, _} <- Stack] of
        [gen_statem | _] -> on_stack(Info, "#{t0q=>\\[\\]}") =:= [] orelse has_timer(Info);
        _ -> is_idle(Info) andalso (on_top(Info, "^y[(][0-9]+[)] +[0-9]+$") =/= [] orelse has_timer(Info))
    end.

has_timer(Info) ->
    is_idle(Info) andalso lists:any(fun is_running/1, lists:sublist(found(on_stack(Info, "#Ref<[0-9.]+>")), ?TIMERS)).

found(cut) -> [];
found(Found) -> Found.

is_running(Text) ->
    try is_integer(erlang:read_timer(list_to_ref(binary_to_list(Text)))) catch error:_ -> false end.

%% What handles the events of a manager, as its stack has it, and what makes a text of them for Elixir's log.
handlers_in(Info) ->
    case {lists:keyfind(current_stacktrace, 1, Info), on_stack(Info, "(?:{handler,|format=>{)'?[^,']+")} of
        {{_, [{gen_event, fetch_msg, _, _} | _]}, Found} when is_list(Found) ->
            [known_atom(Name) || Text <- Found, Name <- tl(binary:split(Text, [<<",">>, <<"=>{">>]))];
        _ -> [unseen]
    end.

known_atom(Name) -> try binary_to_existing_atom(string:trim(Name, leading, "'")) catch error:badarg -> unseen end.

%% The modules of the program's own that handle events of the log, or of the system: its signals and its alarms.
handlers() ->
    #{primary := Primary, handlers := Handlers} = logger:get_config(),
    Managers = [whereis(Name) || Name <- [alarm_handler, erl_signal_server, error_logger, 'Elixir.Logger']],
    Infos = [process_info(P, [current_stacktrace, backtrace]) || P <- Managers, is_pid(P)],
    Named = lists:append([[Module, Formatter] || #{module := Module, formatter := {Formatter, _}} <- Handlers]),
    Funs = [Module || {Module, _, _} <- funs_among([Primary | Handlers])],
    Found = Named ++ Funs ++ lists:append([handlers_in(Info) || Info <- Infos, Info =/= undefined]),
    [Module || Module <- lists:usort(Found) -- [alarm_handler], Module =:= erl_eval orelse not is_of_otp(Module)].

%% The server of the code is asked once for each module.
is_known_of_otp(Module) -> once({otp, Module}, fun() -> is_of_otp(Module) end).

list(cut) -> "cut";
list(Terms) -> ["[", lists:join(",", Terms), "]"].

%% The references in its mailbox, its dictionary, and as those of an idle server in its state: it may answer a caller.
references(Info) ->
    Terms = [Value || Key <- [messages, dictionary], {_, Value} <- [lists:keyfind(Key, 1, Info)]],
    Found = search(Terms, ?SEARCHED, #{}),
    case is_idle(Info) of
        _ when Found =:= cut; length(Terms) < 2 -> cut;
        true -> both(Found, on_stack(Info, "#Ref<[0-9.]+>"));
        false -> [io_lib:format("~p", [Reference]) || Reference <- Found]
    end.

both(_, cut) -> cut;
both(Found, Texts) -> [io_lib:format("~p", [Reference]) || Reference <- Found] ++ Texts.

%% How the pids and the references in the state of an idle server lie in each other: all else of it is left away.
-define(SIGNS, "#Ref<[0-9.]+>|<[0-9]+[.][0-9]+[.][0-9]+>|[{}]|\\[|\\]|"
               "\"(?:[^\"\\\\]++|\\\\.)*+\"|'(?:[^'\\\\]++|\\\\.)*+'").

kept(Info) ->
    case {is_idle(Info), lists:keyfind(backtrace, 1, Info)} of
        {true, {_, Stack}} when byte_size(Stack) < ?BYTES -> kept_lines(binary:match(Stack, <<"#Ref<">>), Stack);
        _ -> ""
    end.

kept_lines(nomatch, _) -> "";
kept_lines(_, Stack) ->
    case re:run(Stack, ?SIGNS, [global, {capture, first, binary}]) of
        {match, Found} when length(Found) < ?REFERENCES ->
            Text = without_empty(iolist_to_binary([Sign || [Sign] <- Found, not is_text(Sign)])),
            [io_lib:format("{kept,~ts}~n", [Text]) || byte_size(Text) < ?CHARACTERS * 10];
        _ -> ""
    end.

is_text(<<First, _/binary>>) -> lists:member(First, "\"'").

without_empty(Text) ->
    case re:replace(Text, "[{][}]|\\[\\]", "", [global, {return, binary}]) of
        Text -> Text;
        Less -> without_empty(Less)
    end.

%% The processes that it knows, if the code of a module that it runs may send an exit signal.
may_end(Info) ->
    case lists:member(exits, code_of(Info)) of
        true -> on_stack(Info, "<[0-9]+[.][0-9]+[.][0-9]+>");
        false -> []
    end.

%% The words on the stack of a supervisor that may be its strategy.
strategies(Info) ->
    case start_of(Info) of
        [supervisor] -> on_stack(Info, "\\b(simple_)?one_for_(one|all)\\b|\\brest_for_one\\b");
        _ -> []
    end.

start_of(Info) ->
    {_, Words} = case lists:keyfind(dictionary, 1, Info) of false -> {none, []}; Found -> Found end,
    [Module || {'$initial_call', {Module, _, _}} <- Words].

%% What the modules that it runs call, as their files say: `exits` if they may end a process, `stops` if they may have
%% a supervisor end one, or stop a supervisor, `replies`, `tables` if they may keep a term in one, `timers` if they may
%% begin one, or if a server in its loop has a limit, `bytes` if they make terms of these, `halts` if they may end,
%% restart or disconnect the node, or replace its code, `far` if they may do so on another node, `leaves` if a server
%% may stop by itself. What ends others may stand in a module that these call. A manager of events runs its handlers.
code_of(Info) ->
    {_, Stack} = lists:keyfind(current_stacktrace, 1, Info),
    Start = start_of(Info),
    Own = Start ++ [Module || {Module, _, _, _} <- Stack] ++ [Of || Start =:= [gen_event], Of <- handlers_in(Info)],
    Limits = [timers || is_idle(Info), [] =/= on_top(Info, "^y[(][0-9]+[)] +[0-9]+$")],
    Modules = lists:usort(Own),
    Called = lists:usort(lists:flatmap(fun modules_called/1, Modules)),
    Ends = [Kind || Kind <- lists:flatmap(fun calls_of_module/1, Called),
                    lists:member(Kind, [exits, far, halts, stops])],
    lists:usort(Limits ++ lists:flatmap(fun calls_of_module/1, Modules) ++ Ends).

on_top(Info, Form) ->
    case lists:keyfind(backtrace, 1, Info) of
        {_, Stack} ->
            [Top | _] = binary:split(Stack, <<"\n\n">>),
            case re:run(Top, Form, [multiline, {capture, first, binary}]) of {match, Some} -> Some; nomatch -> [] end;
        false -> [cut]
    end.

%% One without a file may call anything, if it is loaded.
-define(ANY, [bytes, exits, far, halts, leaves, replies, stops, tables, timers]).
-define(STOP, [application, gen_event, gen_server, gen_statem, proc_lib, 'Elixir.Application',
               'Elixir.DynamicSupervisor', 'Elixir.GenServer', 'Elixir.PartitionSupervisor', 'Elixir.Supervisor']).

calls_of_module(Module) -> element(1, calls(Module)).

modules_called(Module) -> element(2, calls(Module)).

%% What a module calls, by its kinds, and the modules of it.
calls(Module) ->
    once(Module, fun() -> case is_known_of_otp(Module) of true -> {[], []}; false -> imports_of(Module) end end).

imports_of(Module) ->
    case code:get_object_code(Module) of
        {_, Code, _} ->
            case beam_lib:chunks(Code, [imports, atoms, "LitT"], [allow_missing_chunks]) of
                {ok, {_, [{imports, Imports}, {atoms, Atoms}, {_, Literals}]}} when is_list(Imports), is_list(Atoms) ->
                    Constants = unpacked(Literals),
                    Calls = Imports ++ funs_among(terms_of(Constants)),
                    Names = [Atom || {_, Atom} <- Atoms],
                    Own = named(Calls, Names) ++ [leaves || may_leave(Calls, Names, Constants)],
                    {lists:usort(lists:flatmap(fun kind_of/1, Calls) ++ Own), lists:usort([Of || {Of, _, _} <- Calls])};
                _ -> {?ANY, []}
            end;
        error -> {[Kind || Kind <- ?ANY, erlang:module_loaded(Module)], []}
    end.

%% Whether a server may stop by itself, once it has another message: its callback returns {stop, ..}, or it exits.
may_leave(Calls, Names, Constants) ->
    lists:member({erlang, exit, 1}, Calls) orelse lists:member(stop, Names)
        orelse binary:match(Constants, <<"stop">>) =/= nomatch.

%% The constants of a module, which may be compressed.
unpacked(<<0:32, _:32, Table/binary>>) -> Table;
unpacked(<<_:32, Packed/binary>>) ->
    <<_:32, Table/binary>> = zlib:uncompress(Packed),
    Table;
unpacked(_) -> <<>>.

terms_of(Constants) -> [binary_to_term(Each) || <<Size:32, Each:Size/binary>> <= Constants].

%% The functions of other modules that lie in some constants, as `fun init:stop/0`.
funs_among([]) -> [];
funs_among([[Head | Tail] | Terms]) -> funs_among([Head, Tail | Terms]);
funs_among([Term | Terms]) when is_tuple(Term) -> funs_among(tuple_to_list(Term) ++ Terms);
funs_among([Term | Terms]) when is_map(Term) -> funs_among(maps:to_list(Term) ++ Terms);
funs_among([Term | Terms]) when is_function(Term) ->
    [list_to_tuple([element(2, erlang:fun_info(Term, Key)) || Key <- [module, name, arity]]) | funs_among(Terms)];
funs_among([_ | Terms]) -> funs_among(Terms).

%% What a module may do that has others called by their names: end them, if it has these, and on any node if `far`.
-define(ENDING, [{init, stop}, {init, restart}, {init, reboot}, {erlang, halt}, {erlang, disconnect_node},
                 {erlang, exit}, {net_kernel, stop}, {code, purge}, {code, load_file}, {code, load_binary},
                 {code, load_abs}, {code, atomic_load}, {application, stop}, {supervisor, terminate_child},
                 {gen_server, stop}, {gen_statem, stop}, {proc_lib, stop}, {sys, terminate}, {'Elixir.System', halt},
                 {'Elixir.System', stop}, {'Elixir.Process', exit}]).

named(Calls, Atoms) ->
    Far = lists:any(fun is_far/1, Calls),
    Kinds = [Kind || Far orelse lists:any(fun is_by_name/1, Calls), {Module, Name} <- ?ENDING,
                     lists:member(Module, Atoms), lists:member(Name, Atoms), Kind <- kind_of({Module, Name, 2})],
    Kinds ++ [far || Far].

is_far({Module, _, _}) when Module =:= rpc; Module =:= erpc -> true;
is_far({erlang, Name, Arity}) ->
    Arity > 3 andalso lists:member(Name, [spawn, spawn_link, spawn_monitor, spawn_opt, spawn_request]);
is_far({'Elixir.Node', Name, _}) -> lists:member(Name, [spawn, spawn_link, spawn_monitor]);
is_far(_) -> false.

is_by_name({erlang, apply, _}) -> true;
is_by_name({timer, Name, _}) -> lists:prefix("apply", atom_to_list(Name));
is_by_name(_) -> false.

kind_of({erlang, exit, Arity}) when Arity > 1 -> [exits];
kind_of({'Elixir.Process', exit, _}) -> [exits];
kind_of({'Elixir.Task', shutdown, _}) -> [exits];
kind_of({init, Name, _}) -> [halts || lists:member(Name, [reboot, restart, stop])];
kind_of({erlang, Name, _}) when Name =:= disconnect_node; Name =:= halt -> [halts];
kind_of({'Elixir.Node', Name, _}) when Name =:= disconnect; Name =:= stop -> [halts];
kind_of({net_kernel, stop, _}) -> [halts];
%% What runs code that is replaced ends.
kind_of({code, Name, _}) when Name =:= purge; Name =:= load_file; Name =:= load_binary; Name =:= load_abs;
                              Name =:= atomic_load -> [halts];
kind_of({erlang, purge_module, _}) -> [halts];
kind_of({c, Name, _}) -> [halts || lists:member(Name, [c, l, lm, nc, nl])];
kind_of({release_handler, _, _}) -> [halts];
kind_of({'Elixir.Code', Name, _}) -> [halts || lists:prefix("compile_", atom_to_list(Name))];
kind_of({'Elixir.System', Name, _}) -> [halts || lists:member(Name, [halt, restart, stop])];
kind_of({_, terminate_child, _}) -> [stops];
kind_of({sys, terminate, _}) -> [stops];
kind_of({Module, stop, _}) -> [stops || lists:member(Module, ?STOP)];
kind_of({erlang, Name, _}) when Name =:= binary_to_term; Name =:= list_to_ref -> [bytes];
kind_of({application, set_env, _}) -> [tables];
kind_of({'Elixir.Application', put_env, _}) -> [tables];
kind_of({Module, _, _}) when Module =:= ets; Module =:= dets; Module =:= mnesia; Module =:= persistent_term;
                             Module =:= disk_log; Module =:= 'Elixir.Registry' -> [tables];
kind_of({timer, Name, _}) -> [timers || not lists:member(Name, [sleep, tc, seconds, minutes, hours, now_diff])];
kind_of({Module, Name, _}) when Module =:= erlang; Module =:= 'Elixir.Process' ->
    [timers || lists:member(Name, [send_after, start_timer])];
kind_of(Call) -> [replies || is_reply(Call)].

%% Whether its stack has a fun that may answer a caller: with terms of its own, which aren't printed. By what module it
%% answers isn't known, so that it doesn't matter whether its own one calls a reply.
closures(Info) ->
    case on_stack(Info, "#Fun<[^<>]+[.][0-9]+[.][0-9]+>") of
        cut -> cut;
        Funs -> lists:any(fun may_reply/1, Funs)
    end.

may_reply(Text) ->
    {match, [Module, Index]} = re:run(Text, "<'?(.+?)'?[.]([0-9]+)[.][0-9]+>$", [{capture, all_but_first, binary}]),
    case with_terms(Module) of
        any -> true;
        Indices -> lists:member(binary_to_integer(Index), Indices)
    end.

%% The numbers of the funs of a module that have terms of their own; `any` if its code isn't there. Erlang's own ones
%% have no fun of a program in theirs, other than those of Elixir, and what is typed in a shell.
with_terms(Module) -> once({funs, Module}, fun() -> funs_of(catch binary_to_existing_atom(Module)) end).

funs_of(Module) when is_atom(Module) ->
    case Module =/= erl_eval andalso is_one_of(?SYSTEM -- [elixir], Module) of
        true -> [];
        false -> funs_in(code:get_object_code(Module))
    end;
funs_of(_) -> any.

funs_in({_, Code, _}) ->
    case beam_lib:chunks(Code, ["FunT"]) of
        {ok, {_, [{_, <<_:32, Table/binary>>}]}} -> [Index || <<_:96, Index:32, Free:32, _:32>> <= Table, Free > 0];
        _ -> any
    end;
funs_in(error) -> any.

is_reply({Module, reply, _}) -> lists:member(Module, [gen, gen_server, gen_statem, 'Elixir.GenServer']);
is_reply(_) -> false.

%% What its stack has of a form, or cut if that isn't read, or is too much.
on_stack(Info, Form) ->
    case lists:keyfind(backtrace, 1, Info) of
        {_, Stack} ->
            Found = case re:run(Stack, Form, [global, {capture, first, binary}]) of
                {match, Some} -> lists:usort(lists:append(Some));
                nomatch -> []
            end,
            case length(Found) =< ?FOUND of true -> Found; false -> cut end;
        false -> cut
    end.

%% The references in some terms, or cut if they are too large or too many.
search([], _, Found) when map_size(Found) =< ?REFERENCES -> maps:keys(Found);
search(Terms, Left, _) when Terms =:= []; Left =< 0 -> cut;
search([Term | Terms], Left, Found) when is_reference(Term) -> search(Terms, Left - 1, Found#{Term => true});
search([[Head | Tail] | Terms], Left, Found) -> search([Head, Tail | Terms], Left - 1, Found);
search([Term | Terms], Left, Found) when is_tuple(Term), tuple_size(Term) =< Left ->
    search([tuple_to_list(Term) | Terms], Left - 1, Found);
search([Term | Terms], Left, Found) when is_map(Term), map_size(Term) =< Left ->
    search([maps:to_list(Term) | Terms], Left - 1, Found);
search([Term | _], _, _) when is_tuple(Term); is_map(Term) -> cut;
search([Term | Terms], Left, Found) when is_function(Term) ->
    {env, Inside} = erlang:fun_info(Term, env),
    search([Inside | Terms], Left - 1, Found);
search([_ | Terms], Left, Found) -> search(Terms, Left - 1, Found).

is_idle(Info) ->
    case lists:keyfind(current_stacktrace, 1, Info) of
        {_, [{Module, Function, Arity, _} | _]} -> is_loop({Module, Function, Arity});
        _ -> false
    end.

line(backtrace, {_, Stack}, Info) -> [characters(Stack) || not is_idle(Info)];
line(messages, {_, Messages}, _) ->
    ["{messages,[", lists:join(",", [shortened(Message) || Message <- Messages]), "]}\n"];
line(dictionary, {_, Words}, _) ->
    Start = [Word || {Key, _} = Word <- Words, lists:member(Key, ['$initial_call', '$ancestors'])],
    io_lib:format("{dictionary,~0tp}~n", [Start]);
line(_, {Key, Value}, _) -> io_lib:format("{~p,~0tp}~n", [Key, Value]);
line(Key, false, Info) -> [io_lib:format("{~p,cut}~n", [Key]) || Key =/= backtrace orelse not is_idle(Info)].

shortened(Message) -> io_lib:format("~0tp", [Message], [{chars_limit, ?CHARACTERS}]).

%% The runtime prints atoms in UTF-8, and a list of bytes as these bytes.
characters(Stack) ->
    case unicode:characters_to_list(Stack) of
        Characters when is_list(Characters) -> Stack;
        _ -> unicode:characters_to_binary(Stack, latin1)
    end.

%% Which processes are taken, and how many others there are that aren't of the system. Who does something for others
%% (erpc) or has locks that these may want (mnesia_tm) is taken always.
-define(FOR_OTHERS, [erpc, mnesia_tm]).

chosen(Modules, Apart) ->
    Own = [Module || Module <- Modules, not is_of_otp(Module)],
    {System, Others} = lists:partition(fun is_of_system/1, processes() -- Apart),
    Found = [P || P <- System, is_of(Own, P, false) orelse is_beginning(P)]
        ++ [P || P <- Others, is_of(?FOR_OTHERS ++ Modules, P, true)],
    Taken = with_callers(Found, Others -- Found),
    Left = length([P || P <- Others -- Taken, is_process_alive(P)]),
    {lists:sort(Taken), Left}.

%% Whether a module is of an application of Erlang's or Elixir's own. A module of theirs, such as supervisor, chooses no
%% process of the runtime or of kernel.
is_of_otp(Module) -> is_one_of(?SYSTEM, Module).

%% What compiles programs keeps nothing of theirs.
is_tool(Module) -> is_one_of([compiler, eex, mix], Module).

is_one_of(Applications, Module) ->
    case code:which(Module) of
        Path when is_list(Path) -> lists:any(fun(Name) -> is_below(code:lib_dir(Name), Path) end, Applications);
        Other -> Other =:= preloaded
    end.

is_below(Folder, Path) -> is_list(Folder) andalso lists:prefix(Folder ++ "/", Path).

is_of_system(P) ->
    P =< whereis(application_controller) orelse is_master(P) orelse
        lists:member(application:get_application(P), [{ok, Name} || Name <- ?SYSTEM]).

%% Whether it is one of the two who have begun an application, and now only wait for its end.
is_master(P) ->
    case process_info(P, current_function) of
        {_, {application_master, Function, _}} -> lists:member(Function, [main_loop, loop_it]);
        _ -> false
    end.

%% Whether it began in one of the modules, is a server of one, or has a function of one on its stack. One that began as
%% a fun and sleeps as the last thing that it does has none, nor has an idle manager of events.
is_of(Modules, P, IsAny) ->
    case process_info(P, [initial_call, memory, stack_size, current_stacktrace]) of
        undefined -> false;
        [{_, {First, _, _} = Start}, {_, Memory}, {_, Words}, {_, Stack}] ->
            Seen = [First, server(P, Memory) | [Module || {Module, _, _, _} <- Stack]],
            lists:any(fun(Module) -> lists:member(Module, Modules) end, Seen)
                orelse IsAny andalso is_of_any(First, Stack)
                orelse not is_whole(Stack, Start) andalso is_short(Words, Memory) andalso is_on_stack(Modules, P)
    end.

is_of_any(erlang, [{Module, sleep, 1, _}]) -> Module =:= timer orelse Module =:= 'Elixir.Process';
is_of_any(_, [{gen_event, fetch_msg, _, _} | _]) -> true;
is_of_any(_, _) -> false.

%% Whether it is the process that has begun the node, and still runs what its command line says.
is_beginning(P) ->
    P =< whereis(application_controller) andalso
        case process_info(P, [initial_call, backtrace]) of
            [{_, {erlang, apply, 2}}, {_, Stack}] ->
                binary:match(Stack, [<<"(init:start_">>, <<"(erl_eval:">>]) =/= nomatch;
            _ -> false
        end.

server(P, Memory) when Memory < ?MEMORY ->
    case process_info(P, dictionary) of
        {_, Words} -> case proplists:get_value('$initial_call', Words) of {Module, _, _} -> Module; _ -> none end;
        undefined -> none
    end;
server(_, _) -> none.

%% Whether a stack goes down to where the process began. It is no deeper than the node was told to print.
is_whole([], _) -> false;
is_whole(Stack, Start) ->
    {Module, Function, Arity, _} = lists:last(Stack),
    {Module, Function, Arity} =:= Start orelse Module =:= proc_lib andalso Function =:= init_p_do_apply.

is_on_stack(Modules, P) ->
    Calls = [unicode:characters_to_binary(io_lib:format("(~tp:", [Module])) || Module <- Modules],
    case process_info(P, backtrace) of
        {_, Stack} -> Calls =/= [] andalso binary:match(Stack, Calls) =/= nomatch;
        undefined -> false
    end.

%% Adds those that monitor one that is taken, again and again. Who calls a server as the last thing that it does has no
%% function of its own on its stack, and monitors the server.
with_callers(Taken, Others) ->
    Known = maps:from_list([{P, true} || P <- Taken]),
    case [P || P <- Others, is_caller(Known, P)] of
        [] -> Taken;
        More -> with_callers(Taken ++ More, Others -- More)
    end.

is_caller(Known, P) ->
    case process_info(P, [monitors, current_function]) of
        [{_, Monitors}, {_, Function}] ->
            lists:any(fun({process, Whom}) -> is_called(Known, Function, Whom); (_) -> false end, Monitors);
        undefined -> false
    end.

%% Which processes of another node are taken isn't known here.
is_called(Known, Function, Whom) ->
    case Whom of
        {Name, Node} when Node =:= node() -> is_map_key(whereis(Name), Known);
        P when is_pid(P), node(P) =:= node() -> is_map_key(P, Known);
        _ -> element(1, Function) =:= gen
    end.
