%% A shop on two nodes. Each server answers one request at a time, and while it answers it may ask
%% another server and wait without a limit: that is how the shop stalls.
-module(shop).
-behaviour(gen_server).
-export([open/1, init/1, handle_call/3, handle_cast/2]).
-export([cart/1, guest/1, desk/1, buyer/1, accountant/1, auditor/0]).

-define(FRONT, 'front@shop-1').
-define(BACK, 'back@shop-2').

%% Starts the servers, and then their clients. In a `stuck` morning the desk's refund comes before
%% the supplier is paid, in a `slow` one just after.
open(Morning) ->
    pong = net_adm:ping(?BACK),
    [{ok, _} = rpc:call(Node, gen_server, start, [{local, Name}, shop, Name, []])
     || {Node, Name} <- [{?FRONT, orders}, {?BACK, stock}, {?BACK, billing}, {?BACK, archive},
                         {?BACK, mailer}]],
    Refund = fun() -> spawn(?FRONT, shop, desk, [7]), timer:sleep(100) end,
    Morning =:= stuck andalso Refund(),
    spawn(?BACK, shop, buyer, [lamps]),
    spawn(?FRONT, shop, cart, [8]),
    timer:sleep(800),
    Morning =:= slow andalso Refund(),
    spawn(?FRONT, shop, guest, [9]),
    spawn(?BACK, shop, auditor, []),
    spawn(?BACK, shop, accountant, [october]).

init(Name) -> {ok, Name}.

handle_cast(_, Name) -> {noreply, Name}.

handle_call(Request, _From, Name) -> {reply, answer(Request), Name}.

%% orders
answer({place, Order}) -> pack(), ask({stock, ?BACK}, {reserve, Order});
answer({lines, Order}) -> {lines, Order};
%% stock
answer({reserve, Order}) -> {reserved, Order};
answer({restock, Item}) -> pack(), ask({billing, ?BACK}, {pay, Item});
%% billing
answer({pay, Item}) -> bank({pay, Item});
answer({balance, Month}) -> {balance, Month};
answer({refund, Order}) -> pack(), ask({orders, ?FRONT}, {lines, Order});
%% archive
answer({close, Month}) -> ask({billing, ?BACK}, {balance, Month});
%% mailer
answer({send, Letter}) -> post_office(Letter).

ask(Server, Request) -> gen_server:call(Server, Request, infinity).

%% The work that a request takes before the next server is asked.
pack() -> timer:sleep(500).

%% The bank and the post office are outside, and answer within a minute or not at all.
bank(Order) ->
    receive {bank, Answer} -> Answer after 60000 -> {no_answer, Order} end.

post_office(Letter) ->
    receive {sent, Letter} -> ok after 60000 -> {no_answer, Letter} end.

%% The clients, each a process of its own.
cart(Order) -> ask({orders, ?FRONT}, {place, Order}).
guest(Order) -> gen_server:call({orders, ?FRONT}, {place, Order}, 60000).
desk(Order) -> ask({billing, ?BACK}, {refund, Order}).
buyer(Item) -> ask({stock, ?BACK}, {restock, Item}).
accountant(Month) -> ask({archive, ?BACK}, {close, Month}).

%% Goes on with whichever answer comes first: the balance, or that its letter was sent.
auditor() ->
    One = gen_server:send_request({billing, ?BACK}, {balance, october}, balance,
                                  gen_server:reqids_new()),
    Two = gen_server:send_request({mailer, ?BACK}, {send, reminder}, reminder, One),
    gen_server:receive_response(Two, infinity, true).
