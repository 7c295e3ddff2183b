%% The network is cut and the clock jumps while a node is traced: the trace has all that was
%% reported, in its order.
-module(seqaudit_disturbed_tests).

-export([net_split_test_/0, clock_test_/0]).

-define(COOKIE, "disturbed_cookie").
-define(FAKETIME, "/usr/lib/*/faketime/libfaketime.so.1").
%% The node gives up whoever says nothing for so many seconds.
-define(TICK, "-kernel net_ticktime 4").
-define(JUMPS, ["+1h", "+0", "-1h", "+0"]).
-define(HOUR, 3_600).

%% A command that is stopped sends nothing, as behind a network that is cut. The node gives it up
%% after some seconds, and its collector goes on. When the command runs again, it leads the
%% collector on.
net_split_test_() ->
    {timeout, 180, fun() ->
        with_node(string:lexemes(?TICK, " "), [], fun(Peer, Node) ->
            {0, Said} =
                collected(Peer, Node, {"net_split", [{"ERL_FLAGS", ?TICK}]}, fun(Command) ->
                    ok = print(Peer, before),
                    signal("STOP", Command),
                    until(fun() -> peer:call(Peer, erlang, nodes, [hidden]) =:= [] end),
                    ok = print(Peer, meanwhile),
                    signal("CONT", Command),
                    until(fun() -> peer:call(Peer, erlang, nodes, [hidden]) =/= [] end),
                    ok = print(Peer, later),
                    until(fun() -> is_led(Peer) end)
                end),
            [before, meanwhile, later] =
                [What || {seq_trace, 1, {print, _, _, _, What}} <- events("net_split")],
            [{_, _} = binary:match(Said, Part)
             || Part <- [<<"can't be reached any more; if it still runs, collecting goes on there "
                           "for a minute">>,
                         <<"can be reached again">>, <<"the connection was lost once, for ">>]],
            false = peer:call(Peer, seq_trace, get_system_tracer, [])
        end)
    end}.

%% Whether a process of another node waits for the end of the collector.
is_led(Peer) ->
    Collector = peer:call(Peer, erlang, whereis, [seqaudit_collector]),
    {monitored_by, By} = peer:call(Peer, erlang, process_info, [Collector, monitored_by]),
    Here = peer:call(Peer, erlang, node, []),
    [] =/= [Pid || Pid <- By, is_pid(Pid), node(Pid) =/= Here].

%% The system's clock jumps an hour forward and back, on a node whose own clock follows slowly and
%% on one whose clock follows at once. The times of the events are those that passed.
clock_test_() ->
    case filelib:wildcard(?FAKETIME) of
        [Library | _] ->
            [{timeout, 180, fun() -> jumps(Library, Warp) end} || Warp <- ["no", "multi"]];
        [] ->
            fun() -> io:format(user, "clock: skipped, there is no libfaketime (faketime)~n", []) end
    end.

jumps(Library, Warp) ->
    Offset = seqaudit_audits:file("clock_offset"),
    ok = shift_clock("+0", Offset),
    Variables = [{"LD_PRELOAD", Library}, {"FAKETIME_TIMESTAMP_FILE", Offset},
                 {"FAKETIME_NO_CACHE", "1"}, {"FAKETIME_DONT_FAKE_MONOTONIC", "1"}],
    with_node(["+C", Warp ++ "_time_warp"], Variables, fun(Peer, Node) ->
        Name = "clock_" ++ Warp,
        Begun = erlang:monotonic_time(second),
        {0, _} = collected(Peer, Node, {Name, []}, fun(_Command) ->
            lists:foreach(fun(Jump) -> jump(Jump, Offset, Peer) end, ?JUMPS)
        end),
        Most = (erlang:monotonic_time(second) - Begun + 1) * 1_000_000_000,
        ?JUMPS = [Jump || {seq_trace, 1, {print, _, _, _, Jump}, _Time} <- events(Name)],
        [_, _, _, _] = Passed = times(Name),
        {Passed, true} = {Passed, Passed =:= lists:sort(Passed)},
        {Passed, true} = {Passed, lists:last(Passed) =< Most}
    end).

jump(Jump, Offset, Peer) ->
    Before = peer:call(Peer, os, system_time, [second]),
    ok = shift_clock(Jump, Offset),
    until(fun() -> abs(peer:call(Peer, os, system_time, [second]) - Before) > ?HOUR div 2 end),
    ok = peer:call(Peer, seqaudit_test_server, timed, [1, Jump]).

%% The library reads the file at each look at the clock, and ends the node if it finds it empty.
shift_clock(Jump, Offset) ->
    ok = file:write_file(Offset ++ ".new", Jump),
    file:rename(Offset ++ ".new", Offset).

%% How many nanoseconds after the first event each one happened.
times(Name) ->
    {ok, <<"seqaudit times 1\nbegin ", Times/binary>>} =
        file:read_file(seqaudit_audits:file(Name) ++ ".times"),
    {match, Found} = re:run(Times, "^event \\S+ \\d+ (-?\\d+)$",
                            [global, multiline, {capture, [1], list}]),
    [list_to_integer(Time) || [Time] <- Found].

%% Collects from a node while this is done, which gets the number of the command's process. Returns
%% the status of the command and what it said.
collected(Peer, Node, {Name, Variables}, Do) ->
    File = seqaudit_audits:file(Name),
    _ = seqaudit_test_shell:begin_run(["echo $$ >", File, ".pid; exec ",
                                       seqaudit_test_shell:node_command(), " collect --node ", Node,
                                       " --cookie " ?COOKIE " -o ", File], Variables),
    until(fun() -> peer:call(Peer, seq_trace, get_system_tracer, []) =/= false end),
    Shell = string:trim(os:cmd("cat " ++ File ++ ".pid")),
    Children = os:cmd(lists:append(["cat /proc/", Shell, "/task/", Shell, "/children"])),
    Do(hd(string:lexemes(Children, " "))),
    signal("TERM", Shell),
    seqaudit_test_shell:ended().

signal(Name, Process) ->
    [] = os:cmd("kill -" ++ Name ++ " " ++ Process),
    ok.

events(Name) ->
    {ok, [#{events := Events}]} = seqaudit_test_files:read(seqaudit_audits:file(Name) ++ ".events"),
    Events.

print(Peer, What) ->
    peer:call(Peer, seqaudit_test_server, print, [1, What]).

until(Done) ->
    seqaudit_test_nodes:until_within(60, Done).

with_node(Flags, Variables, Do) ->
    Unique = integer_to_list(erlang:unique_integer([positive])),
    Name = list_to_atom(lists:append(["seqaudit_disturbed_", os:getpid(), "_", Unique])),
    {ok, Peer, Node} =
        peer:start_link(#{name => Name, host => "127.0.0.1", longnames => true, env => Variables,
                          connection => standard_io,
                          args => ["-setcookie", ?COOKIE,
                                   "-pa", filename:dirname(code:which(?MODULE)) | Flags]}),
    try Do(Peer, atom_to_list(Node))
    after peer:stop(Peer)
    end.
