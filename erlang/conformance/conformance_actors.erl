%% One node's part of a run: it has the node's actors, the processes of a script, do their acts, and
%% is the node's system tracer.
%%
%% A message would move the token of the process that gets it. So an actor finds its act in a table
%% and puts the reply there, and it is suspended until its turn comes.
-module(conformance_actors).
-behaviour(gen_server).

-export([start/1, renew/2, act/3, events/1]).
-export([init/1, handle_call/3, handle_cast/2, handle_info/2]).

-define(TABLE, ?MODULE).
%% An act takes microseconds; a message to another node somewhat more.
-define(ACT_MS, 10_000).
-define(CALL_MS, 2 * ?ACT_MS).

%% Starts this part on a node, which must find this module.
start(Node) ->
    {ok, Pid} = erpc:call(Node, gen_server, start, [?MODULE, [], []]),
    Pid.

%% Ends the actors that there are and returns so many new ones. There is no tracer then.
renew(Pid, Count) ->
    gen_server:call(Pid, {renew, Count}, ?CALL_MS).

%% Has the actor do an act, and returns the reply once the act has run to its end.
act(Pid, Actor, Act) ->
    gen_server:call(Pid, {act, Actor, Act}, ?CALL_MS).

%% Returns the messages to the system tracer since the last question, in their order.
events(Pid) ->
    gen_server:call(Pid, events, ?CALL_MS).

init([]) ->
    ?TABLE = ets:new(?TABLE, [named_table, public]),
    {ok, {[], []}}.

handle_call({renew, Count}, _From, {Before, _}) ->
    [exit(Actor, kill) || Actor <- Before],
    _ = seq_trace:set_system_tracer(false),
    Actors = [spawn_actor() || _ <- lists:seq(1, Count)],
    {reply, Actors, {Actors, []}};
handle_call({act, Actor, Act}, _From, {Actors, Events}) ->
    ets:insert(?TABLE, {Actor, Act}),
    true = erlang:resume_process(Actor),
    Reply = reply(erlang:monotonic_time(millisecond) + ?ACT_MS),
    %% Once it is suspended, its event has left it.
    true = erlang:suspend_process(Actor),
    {reply, Reply, {spawned(Reply) ++ Actors, Events}};
handle_call(events, _From, {Actors, Events}) ->
    {reply, lists:reverse(Events), {Actors, []}}.

handle_cast(_, State) ->
    {noreply, State}.

handle_info({seq_trace, _, _} = Event, {Actors, Events}) ->
    {noreply, {Actors, [Event | Events]}}.

%% A process that an actor spawned is an actor from now on.
spawned({spawned, Actor}) ->
    true = erlang:suspend_process(Actor),
    [Actor];
spawned(_) ->
    [].

spawn_actor() ->
    Actor = spawn(fun actor/0),
    true = erlang:suspend_process(Actor),
    Actor.

reply(Until) ->
    case ets:take(?TABLE, reply) of
        [{reply, Reply}] ->
            Reply;
        [] ->
            erlang:monotonic_time(millisecond) < Until orelse error(no_reply),
            erlang:yield(),
            reply(Until)
    end.

actor() ->
    case ets:take(?TABLE, self()) of
        [{_, Act}] -> ets:insert(?TABLE, {reply, do(Act)});
        [] -> erlang:yield()
    end,
    actor().

%% Every message of a script is a pair of its sender and its value.
do({send, To, Value}) -> To ! {self(), Value};
do({'receive', any, any}) -> receive {_, _} = Mail -> Mail after 0 -> nothing end;
do({'receive', From, any}) -> receive {From, _} = Mail -> Mail after 0 -> nothing end;
do({'receive', any, Value}) -> receive {_, Value} = Mail -> Mail after 0 -> nothing end;
do({'receive', From, Value}) -> receive {From, Value} = Mail -> Mail after 0 -> nothing end;
do({print, Value}) -> seq_trace:print(Value);
do({print, Label, Value}) -> seq_trace:print(Label, Value);
do({set, Component, Value}) -> seq_trace:set_token(Component, Value);
do({token, Token}) -> seq_trace:set_token(Token);
do(look) -> seq_trace:get_token();
do(reset) -> seq_trace:reset_trace();
do({tracer, Tracer}) -> seq_trace:set_system_tracer(Tracer);
do(spawn) -> {spawned, spawn(fun actor/0)};
do(request) ->
    Request = spawn_request(fun actor/0),
    receive {spawn_reply, Request, ok, Actor} -> {spawned, Actor} end;
%% No act of a script: waits until so many messages lie in the queue.
do({queued, Count}) ->
    case process_info(self(), message_queue_len) of
        {_, Count} -> Count;
        _ -> erlang:yield(), do({queued, Count})
    end.
