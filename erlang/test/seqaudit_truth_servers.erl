%% Servers that the random programs ask ({@link seqaudit_truth}), each with its own way to reply.
-module(seqaudit_truth_servers).
-behaviour(gen_server).

-export([start/1, stop/1, wait/1, ask/1]).
-export([init/1, handle_call/3, handle_cast/2, handle_info/2]).

-import(seqaudit_truth, [know/1, known/0, content/1, got/1, put_back/2]).

-define(KINDS, [at_once, later, delegated, kept, pool, postponing]).
%% How long a client of a busy machine waits.
-define(PATIENCE_MS, 60_000).
%% After so long a server replies to those that wait.
-define(LATER_MS, 5).

%% at_once: before it takes the next request. later: when another request comes, or some time has
%% passed. delegated: another server replies. kept: it keeps the client's token, and puts it back to
%% reply. pool: it lends one of two workers, and lets who comes third wait. postponing: a state
%% machine that postpones requests.
start(Which) ->
    Kind = lists:nth(Which, ?KINDS),
    {ok, Server} = case Kind of
                       postponing -> gen_statem:start(seqaudit_truth_postponing, none, []);
                       _ -> gen_server:start(?MODULE, Kind, [])
                   end,
    {Kind, Server}.

stop({_, Server}) -> gen_server:stop(Server).

%% Returns when the server has done what it was told before.
wait({_, Server}) -> gen_server:call(Server, wait, ?PATIENCE_MS).

%% The ways in which a client uses its token.
ask({pool, Pool}) ->
    {Worker, Lent} = gen_server:call(Pool, {lend, content(sent)}, ?PATIENCE_MS),
    got(Lent),
    got(gen_server:call(Worker, content(sent), ?PATIENCE_MS)),
    gen_server:cast(Pool, {returned, Worker, content(sent)});
ask({_, Server}) ->
    got(gen_server:call(Server, content(sent), ?PATIENCE_MS)).

init(Kind) ->
    know(none),
    Workers = [begin {ok, Worker} = gen_server:start_link(?MODULE, at_once, []), Worker end
               || _ <- lists:seq(1, workers(Kind))],
    {ok, {Kind, Workers, []}}.

workers(delegated) -> 1;
workers(pool) -> 2;
workers(_) -> 0.

%% It had no token.
handle_call(wait, _From, State) ->
    know(none),
    {reply, ok, State};
handle_call({lend, Request}, From, {pool, Workers, Waiting}) ->
    got(Request),
    {noreply, lend({pool, Workers, Waiting ++ [From]})};
handle_call(Request, From, {Kind, Workers, Waiting} = State) ->
    got(Request),
    case Kind of
        at_once ->
            {reply, content(sent), State};
        later ->
            NewState = reply_all(State),
            _ = erlang:send_after(?LATER_MS, self(), reply),
            {noreply, setelement(3, NewState, [{From, none, none}])};
        delegated ->
            gen_server:cast(hd(Workers), {reply, From, content(sent)}),
            {noreply, State};
        kept ->
            Kept = {From, seq_trace:set_token([]), known()},
            know(none),
            _ = erlang:send_after(?LATER_MS, self(), reply),
            {noreply, {kept, [], Waiting ++ [Kept]}}
    end.

handle_cast({reply, Client, Content}, State) ->
    got(Content),
    gen_server:reply(Client, content(sent)),
    {noreply, State};
handle_cast({returned, Worker, Content}, {pool, Workers, Waiting}) ->
    got(Content),
    {noreply, lend({pool, Workers ++ [Worker], Waiting})}.

%% A timer's message leaves the token.
handle_info(reply, State) ->
    {noreply, reply_all(State)}.

reply_all({kept, Workers, Waiting}) ->
    [begin
         put_back(Token, Known),
         gen_server:reply(Client, content(sent)),
         seq_trace:set_token([]),
         know(none)
     end || {Client, Token, Known} <- Waiting],
    {kept, Workers, []};
reply_all({Kind, Workers, Waiting}) ->
    [gen_server:reply(Client, content(sent)) || {Client, none, none} <- Waiting],
    {Kind, Workers, []}.

lend({pool, [Worker | Workers], [Client | Waiting]}) ->
    gen_server:reply(Client, {Worker, content(sent)}),
    lend({pool, Workers, Waiting});
lend(State) ->
    State.
