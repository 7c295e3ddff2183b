%% Services that get so many requests a second, each with a process and a label of its own. Whoever
%% makes the requests has no token.
-module(seqaudit_test_services).

-export([calls/1, spawns/1, request/2, awaited/1]).
%% Called by name.
-export([answer/0, ask/2]).

%% Each request asks a server: four events.
calls(InSecond) ->
    Server = spawn_link(?MODULE, answer, []),
    drive(ask, Server, InSecond, erlang:monotonic_time(millisecond), 0).

%% Each request spawns under its token, so that counters wrap: 21 events.
spawns(InSecond) ->
    Server = seqaudit_test_server:start(fun(X) -> X end),
    drive(request, Server, InSecond, erlang:monotonic_time(millisecond), 0).

%% A request that comes late, as on a busy machine, doesn't delay those after it.
drive(Request, Server, InSecond, Began, N) ->
    _ = spawn(?MODULE, Request, [Server, N]),
    Next = Began + (N + 1) * 1_000 div InSecond,
    receive
    after max(0, Next - erlang:monotonic_time(millisecond)) ->
        drive(Request, Server, InSecond, Began, N + 1)
    end.

answer() ->
    receive {Client, ask} -> Client ! {self(), answer} end,
    answer().

ask(Server, N) ->
    seqaudit_trace:with_trace({request, N}, fun() ->
        Server ! {self(), ask},
        receive {Server, answer} -> ok end
    end).

%% Calls the server, waits for a task that calls it, and calls it again.
request(Server, N) ->
    seqaudit_trace:with_trace({request, N}, fun() ->
        seq_trace:print({'begin', N}),
        user = gen_server:call(Server, user),
        Row = awaited(fun() -> gen_server:call(Server, {row, N}) end),
        gen_server:call(Server, {done, Row})
    end).

%% Waits for a task that does this.
awaited(Do) ->
    Self = self(),
    {Task, Monitor} = spawn_monitor(fun() ->
        receive {Self, Reference} -> Self ! {Reference, Do()} end
    end),
    Task ! {Self, Monitor},
    receive
        {Monitor, Result} -> demonitor(Monitor, [flush]), Result;
        {'DOWN', Monitor, process, Task, Reason} -> Reason
    end.
