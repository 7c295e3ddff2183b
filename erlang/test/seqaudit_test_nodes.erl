%% A second node on this machine, waiting for what happens there, and what has to be there or gone
%% for a test.
-module(seqaudit_test_nodes).

-export([with_second/2, start/0, kill/1, again/1, on_port/2, clear/0, until/1, until_within/2,
         on_disk/2, met/2, await_collector/0, keep_pace/0, is_traced/1, print_when_traced/1,
         peak/1]).

%% A machine that is busy takes a while for what is done at once otherwise: with a load of 40 on
%% four processors three periods of two seconds took more than half a minute.
-define(DEADLINE_MS, 120_000).

%% Returns what the test of a second node returns, after it stopped the collecting and the node. If
%% there can be no such node, it says that the test is skipped, and returns that.
with_second(What, Test) ->
    case start() of
        {ok, Stop, There} ->
            try Test(There)
            after
                _ = seqaudit_trace:stop(),
                Stop()
            end;
        {error, Reason} ->
            io:format(user, "~ts: skipped, there is no second node (~0tp)~n", [What, Reason]),
            skipped
    end.

%% Returns how to stop it and what it is called; this node's name comes before it. It ends with the
%% calling process too.
start() ->
    Id = os:getpid(),
    case named("seqaudit_a_" ++ Id ++ "@localhost", deadline()) of
        {ok, _} ->
            {Peer, Node} = peer("seqaudit_b_" ++ Id),
            {ok, fun() -> stop(Peer) end, Node};
        {error, Reason} ->
            {error, Reason}
    end.

peer(Name) ->
    {ok, Peer, Node} =
        peer:start_link(#{name => list_to_atom(Name), host => "localhost",
                          connection => standard_io,
                          args => ["-setcookie", atom_to_list(erlang:get_cookie())]}),
    true = net_kernel:connect_node(Node),
    {_, Binary, File} = code:get_object_code(seqaudit_test_server),
    {module, _} = erpc:call(Node, code, load_binary, [seqaudit_test_server, File, Binary]),
    {Peer, Node}.

%% Starts a node anew that was killed, and returns how to stop it.
again(Node) ->
    [Name, _] = string:split(atom_to_list(Node), "@"),
    {Peer, Node} = peer(Name),
    fun() -> peer:stop(Peer) end.

%% Kills the node, and waits until it is gone.
kill(There) ->
    [] = os:cmd("kill -9 " ++ erpc:call(There, os, getpid, [])),
    until(fun() -> not lists:member(There, nodes()) end).

%% The test may have killed the node.
stop(Peer) ->
    try peer:stop(Peer)
    catch exit:_ -> ok
    after net_kernel:stop()
    end.

%% The name server may not have noticed yet that the node of the last test gave the name back. Where
%% there is no name server, waiting changes nothing, and there is no second node.
named(Name, Deadline) ->
    Level = logger:get_primary_config(),
    ok = logger:set_primary_config(level, none),
    Started = net_kernel:start(list_to_atom(Name), #{name_domain => shortnames}),
    ok = logger:set_primary_config(Level),
    case {Started, erl_epmd:names("localhost"), erlang:monotonic_time(millisecond) < Deadline} of
        {{error, _}, {ok, _}, true} -> receive after 50 -> named(Name, Deadline) end;
        {{error, Reason}, {ok, _}, false} -> error({no_name, Name, Reason});
        _ -> Started
    end.

%% Runs a test of the trace port, or says that there is none.
on_port(What, Test) ->
    case code:ensure_loaded(dbg) of
        {module, dbg} -> Test();
        {error, _} ->
            io:format(user,
                      "trace port, ~ts: skipped, there is no runtime_tools "
                      "(erlang-runtime-tools)~n",
                      [What])
    end.

%% Ends what a test that failed may have left: a collection, a tracer, this node's name. EUnit kills
%% a test that takes too long, so its `after' isn't run.
clear() ->
    _ = try seqaudit_trace:stop() catch _:_ -> failed end,
    [ok = application:unset_env(seqaudit, Key) || Key <- [collection, shared_disk]],
    [end_process(Name) || Name <- [seqaudit_trace, seqaudit_collector]],
    _ = seq_trace:set_system_tracer(false),
    _ = is_alive() andalso net_kernel:stop(),
    ok.

end_process(Name) ->
    Monitor = monitor(process, Name),
    _ = try exit(whereis(Name), kill) catch error:badarg -> gone end,
    receive {'DOWN', Monitor, process, _, _} -> ok end.

%% Waits until the function returns true, and fails if it takes too long.
until(Done) ->
    until(Done, deadline()).

%% Waits for this number of seconds at most.
until_within(Seconds, Done) ->
    until(Done, erlang:monotonic_time(millisecond) + 1_000 * Seconds).

until(Done, Deadline) ->
    case {Done(), erlang:monotonic_time(millisecond) < Deadline} of
        {true, _} -> ok;
        {false, true} -> receive after 5 -> until(Done, Deadline) end;
        {false, false} -> error({never, Done})
    end.

%% Waits until this node's collector has taken all messages from its queue.
await_collector() ->
    Collector = whereis(seqaudit_collector),
    until(fun() -> process_info(Collector, message_queue_len) =:= {message_queue_len, 0} end).

%% A collector that is the tracer itself takes itself off if a megabyte of events waits in its
%% queue, so whoever sends much waits for it. A trace port takes what comes.
keep_pace() ->
    is_port(seq_trace:get_system_tracer()) orelse await_collector().

%% Waits until a collector's folder has so many events.
on_disk(Folder, Count) ->
    until(fun() ->
        in_folder(Folder, fun({event, _}, Sum) -> Sum + 1; (_, Sum) -> Sum end, 0) >= Count end).

%% Waits until a collector has asked what these processes are called.
met(Folder, Pids) ->
    Wanted = [seqaudit_external:from_term(Pid) || Pid <- Pids],
    Noted = fun({facts, #{processes := Known}}, Sum) -> [Pid || {Pid, _} <- Known] ++ Sum;
               (_, Sum) -> Sum
            end,
    until(fun() -> [] =:= Wanted -- in_folder(Folder, Noted, []) end).

in_folder(Folder, Do, Acc) ->
    {ok, Result} = seqaudit_events:fold(Folder, Do, Acc),
    Result.

%% Whether a system tracer is on there.
is_traced(Node) ->
    erpc:call(Node, seq_trace, get_system_tracer, []) =/= false.

%% A process of that node prints under a token, as soon as a tracer is on.
print_when_traced(Node) ->
    until(fun() -> is_traced(Node) end),
    ok = erpc:call(Node, seqaudit_test_server, print, [1, seen]).

%% The greatest memory that the node has taken so far, in bytes, as the system counts it.
peak(Node) ->
    {ok, Status} =
        file:read_file(filename:join(["/proc", erpc:call(Node, os, getpid, []), "status"])),
    {match, [Kilobytes]} = re:run(Status, "VmHWM:\\s+([0-9]+) kB", [{capture, [1], list}]),
    1_024 * list_to_integer(Kilobytes).

deadline() -> erlang:monotonic_time(millisecond) + ?DEADLINE_MS.
