%% A shop to be traced: an order asks the stock, and then tells the post.
-module(shop).
-behaviour(gen_server).

-export([start/0, order/2]).
-export([init/1, handle_call/3, handle_cast/2]).

%% Starts the three servers, each under its name.
start() ->
    [{ok, _} = gen_server:start({local, Name}, ?MODULE, Name, []) || Name <- [stock, post, shop]],
    ok.

%% Orders so many of a thing; returns how many are left.
order(Thing, Count) ->
    gen_server:call(shop, {order, Thing, Count}).

init(stock) -> {ok, #{apple => 10}};
init(_) -> {ok, none}.

handle_call({order, Thing, Count}, _From, State) ->
    Left = gen_server:call(stock, {take, Thing, Count}),
    gen_server:cast(post, {send, Thing, Count}),
    {reply, Left, State};
handle_call({take, Thing, Count}, _From, Stock) ->
    #{Thing := Had} = Stock,
    {reply, {left, Had - Count}, Stock#{Thing := Had - Count}}.

handle_cast({send, Thing, Count}, State) ->
    seq_trace:print({parcel, Thing, Count}),
    {noreply, State}.
