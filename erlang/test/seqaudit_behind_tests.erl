%% A trace port that falls behind: the tracer is off until the port has caught up, and it is said.
-module(seqaudit_behind_tests).

-export([pause_test_/0, end_in_pause_test_/0, killed_in_pause_test_/0, taken_in_pause_test_/0,
         small_load_test/0, unwatched_test_/0, notes_test/0]).

%% Messages that are larger than each of the wrapped files: for each of them the port makes a new
%% file, which takes it longer by far than to print one.
-define(BYTES, 65_536).
-define(FLOOD, 20_000).

%% Runs a test on a second node, whose port is about to fall behind.
flooded(Name, Test) ->
    {timeout, 120, fun() ->
        seqaudit_test_nodes:on_port(Name, fun() ->
            seqaudit_test_nodes:with_second(Name, fun(There) -> flood(Name, Test, There) end)
        end)
    end}.

flood(Name, Test, There) ->
    File = seqaudit_audits:file(Name),
    ok = seqaudit_trace:start(#{name => File, nodes => [There], bytes => ?BYTES}),
    Port = erpc:call(There, seq_trace, get_system_tracer, []),
    true = is_port(Port),
    Flooding = erpc:send_request(There, seqaudit_test_server, flood, [?FLOOD]),
    seqaudit_test_nodes:until(fun() -> not seqaudit_test_nodes:is_traced(There) end),
    Test(There, File, Port),
    ok = erpc:receive_response(Flooding, 60_000).

one_note(Part, Notes) ->
    [_] = [Note || Note <- Notes, string:find(Note, Part) =/= nomatch],
    ok.

no_note(Part, Notes) ->
    [] = [Note || Note <- Notes, string:find(Note, Part) =/= nomatch],
    ok.

%% The tracer is on again, what comes then is collected, and the audit doesn't say that nothing is
%% missing.
pause_test_() ->
    flooded("pause", fun(There, File, Port) ->
        seqaudit_test_nodes:until(fun() ->
            erpc:call(There, seq_trace, get_system_tracer, []) =:= Port end),
        ok = erpc:call(There, seqaudit_test_server, print, [1, behind]),
        {ok, #{notes := Notes}} = seqaudit_trace:stop(),
        ok = one_note("events came faster than they could be written, so the tracer was off ",
                      Notes),
        ok = no_note("took the collector's place", Notes),
        false = erpc:call(There, seq_trace, get_system_tracer, []),
        {ok, [#{events := Events}]} = seqaudit_test_files:read(File ++ ".events"),
        {seq_trace, 1, {print, _, _, _, behind}} = lists:last(Events),
        seqaudit_audits:with_gemshowal("audit of a pause", fun(_) -> audited(File) end)
    end).

audited(File) ->
    {_, Said} = seqaudit_audits:gemshowal(["audit", File]),
    nomatch = binary:match(Said, <<"nothing is known to be missing">>),
    {_, _} = binary:match(Said, <<"The trace isn't whole:\n">>),
    {_, _} = binary:match(Said, <<"so the tracer was off ">>).

%% Collecting that ends while the port is behind leaves no tracer.
end_in_pause_test_() ->
    flooded("end_in_pause", fun(There, _, _) ->
        {ok, #{notes := Notes}} = seqaudit_trace:stop(),
        ok = one_note("so the tracer was off ", Notes),
        ok = no_note("took the collector's place", Notes),
        false = erpc:call(There, seq_trace, get_system_tracer, []),
        unwatched(There)
    end).

%% No process is left that looked at the port.
unwatched(There) ->
    seqaudit_test_nodes:until(fun() ->
        [] =:= erpc:call(There, seqaudit_test_server, running, [seqaudit_watch]) end).

killed_in_pause_test_() ->
    flooded("killed_in_pause", fun(There, _, Port) ->
        [{_, Folder}] = seqaudit_trace:folders(),
        seqaudit_test_nodes:until(fun() ->
            {ok, true} =:= seqaudit_events:fold(Folder, fun({facts, #{pauses := _}}, _) -> true;
                                                           (_, Noted) -> Noted
                                                        end, false)
        end),
        exit(erpc:call(There, erlang, whereis, [seqaudit_collector]), kill),
        seqaudit_test_nodes:until(fun() ->
            erpc:call(There, erlang, port_info, [Port]) =:= undefined end),
        receive after 300 -> ok end,
        false = erpc:call(There, seq_trace, get_system_tracer, []),
        unwatched(There),
        {ok, #{notes := Notes}} = seqaudit_trace:stop(),
        ok = one_note("its collector went down (killed)", Notes),
        ok = one_note("so the tracer was off ", Notes)
    end).

%% Somebody else's tracer is left alone, by the port too when it has caught up.
taken_in_pause_test_() ->
    flooded("taken_in_pause", fun(There, _, Port) ->
        Own = erpc:call(There, erlang, spawn, [timer, sleep, [infinity]]),
        _ = erpc:call(There, seq_trace, set_system_tracer, [Own]),
        %% The port answers when it has caught up; then its watch looks again.
        {output, _} = erpc:call(There, erlang, port_info, [Port, output]),
        receive after 200 -> ok end,
        Own = erpc:call(There, seq_trace, get_system_tracer, []),
        {ok, #{notes := Notes}} = seqaudit_trace:stop(),
        ok = one_note("another system tracer took the collector's place", Notes),
        Own = erpc:call(There, seq_trace, get_system_tracer, [])
    end).

%% A port is sent many events in a moment, soon writes them, and all are collected.
small_load_test() ->
    seqaudit_test_nodes:on_port("small_load", fun small_load/0).

small_load() ->
    Name = seqaudit_audits:file("small_load"),
    ok = seqaudit_trace:start(#{name => Name}),
    seqaudit_trace:with_trace(1, fun() ->
        [seq_trace:print({K, lists:duplicate(100, K)}) || K <- lists:seq(1, 20_000)]
    end),
    {ok, #{events := 20_000, dropped := 0, notes := Notes}} = seqaudit_trace:stop(),
    ok = no_note("the tracer was off", Notes).

%% If nobody watches the port any more, or it was behind too often, the collecting ends.
unwatched_test_() ->
    [{timeout, 60,
      fun() -> seqaudit_test_nodes:on_port("unwatched", fun() -> watch_ends(Why, End) end) end}
     || {Why, End} <- [{"the process that bounds the memory of the trace port ended (killed)",
                             fun(_, Watch) -> exit(Watch, kill) end},
                            {"events came faster than they could be written, 1000 times",
                             fun(To, Watch) ->
                                 To ! {seqaudit_watch, Watch, {fell_behind, 1_000}} end}]].

watch_ends(Why, End) ->
    ok = seqaudit_trace:start(#{name => seqaudit_audits:file("unwatched")}),
    ok = seqaudit_test_server:print(1, before),
    Collector = whereis(seqaudit_collector),
    {links, Links} = process_info(Collector, links),
    [Watch] = [Pid || Pid <- Links, is_pid(Pid), process_info(Pid, priority) =:= {priority, high}],
    End(Collector, Watch),
    seqaudit_test_nodes:until(fun() -> seq_trace:get_system_tracer() =:= false end),
    {ok, #{events := 1, dropped := 0, notes := Notes}} = seqaudit_trace:stop(),
    ok = one_note("collecting ended early, at 2", Notes),
    ok = one_note(Why, Notes).

%% The notes tell of pauses, and say nothing of facts that have another form.
notes_test() ->
    At = 1_000 * (calendar:datetime_to_gregorian_seconds({{2026, 11, 25}, {18, 50, 1}})
                  - calendar:datetime_to_gregorian_seconds({{1970, 1, 1}, {0, 0, 0}})) + 20,
    ["a@h: events came faster than they could be written, so the tracer was off 12 times, for "
     "3,400 ms in all, and "
     "what happened meanwhile is lost (it can't be counted): at 2026-11-25 18:50:01.020 UTC for 70 "
     "ms, from 2026-11-25 "
     "18:50:02.020 UTC to the end, and 10 times more"] = notes({12, 3_400,
                                                                [{At, 70}, {At + 1_000, open}]}),
    ["a@h: events came faster" ++ _] = notes({1, 0, []}),
    [[] = notes(Wrong)
     || Wrong <- [{0, 0, []}, {1, -1, []}, {1, 1, [{1, 1} | x]}, {x, 1, []}, {1, 1}, x,
                  {1, 1, lists:duplicate(1_000, {At, 1})}]],
    ["a@h: " ++ _] = notes({1, 1, [{-1, 1}, {1, x}, {At * 1_000, 1}, x]}).

notes(Pauses) ->
    Event = {seq_trace, 1, {print, {0, 1}, self(), [], x}},
    #{notes := Notes} =
        seqaudit_test_files:convert([#{node => 'a@h', events => [Event], pauses => Pauses}]),
    [Note || Note <- Notes, string:prefix(Note, "a@h") =/= nomatch].
