%% Collecting from a node under load, and by the command: bounded, hidden, ended by a signal.
-module(seqaudit_harm_tests).

-export([load_test_/0, load_without_port_test_/0, written_over_test/0, collect_until_ctrl_c_test_/0,
         collect_until_kill_test_/0, trigger_test_/0, cookies_test_/0, file_modes_test/0,
         collect_errors_test_/0]).

-import(seqaudit_test_shell,
        [node_command/0, cookie/0, run/2, begin_run/2, ended/0, terminated_when/3]).

-define(PAIRS, 200).
-define(LOAD_MS, 5_000).
-define(MEGABYTE, 1_048_576).

%% 200 pairs that write lists of 500 numbers to each other under tokens for 5 s: the node takes less
%% than 200 MB more than without a tracer, with all its schedulers.
load_test_() ->
    {timeout, 240, fun() -> seqaudit_test_nodes:on_port("load", fun load/0) end}.

load() ->
    bounded("load", fun(There) ->
        ok = seqaudit_trace:start(#{nodes => [There], bytes => 8_000_000,
                                    name => seqaudit_audits:file("load")})
    end, fun() ->
        {ok, #{events := Events, dropped := Dropped, notes := Notes}} = seqaudit_trace:stop(),
        true = Events > 1_000 andalso Dropped > 1_000,
        [_] = [Note || Note <- Notes, string:find(Note, "were written over, about") =/= nomatch],
        [] = [Note || Note <- Notes, Lost <- ["went down", "was lost"],
              string:find(Note, Lost) =/= nomatch],
        true = filelib:file_size(seqaudit_audits:file("load.events")) < 10_000_000
    end).

%% Without runtime_tools the collector takes itself off in time, within the same bound.
load_without_port_test_() ->
    {timeout, 240, fun() ->
        bounded("load without a port", fun(There) ->
            ok = erpc:call(There, seqaudit_test_server, without_runtime_tools, []),
            ok = seqaudit_trace:start(#{nodes => [There], bytes => 8_000_000,
                                        name => seqaudit_audits:file("load_without")})
        end, fun() ->
            {ok, #{events := Events, notes := Notes}} = seqaudit_trace:stop(),
            true = Events > 100,
            [_] = [Note || Note <- Notes,
                   string:find(Note, "collecting ended early, at 2") =/= nomatch,
                           string:find(Note, "by a process, not by a trace port") =/= nomatch]
        end)
    end}.

%% A node takes little more memory under the load if it is traced.
bounded(What, Begin, End) ->
    case {peak(What, fun(_) -> ok end, fun() -> ok end), peak(What, Begin, End)} of
        {Without, With} when is_integer(Without), is_integer(With) ->
            io:format(user, "~ts: ~b MB without a tracer, ~b MB with~n",
                      [What, Without div ?MEGABYTE, With div ?MEGABYTE]),
            true = With - Without < 200 * ?MEGABYTE;
        _ ->
            skipped
    end.

%% The greatest memory that a node of its own took under the load, in bytes.
peak(What, Begin, End) ->
    seqaudit_test_nodes:with_second(What, fun(There) ->
        Begin(There),
        Sent = erpc:call(There, seqaudit_test_server, load, [?PAIRS, ?LOAD_MS]),
        true = Sent > ?PAIRS,
        Peak = seqaudit_test_nodes:peak(There),
        End(),
        Peak
    end).

%% Events that were written over are counted by their bytes. Their number is taken from the size of
%% the kept ones, whose numbers are larger here and take some bytes more.
written_over_test() ->
    seqaudit_test_nodes:on_port("written_over", fun written_over/0).

written_over() ->
    Name = seqaudit_audits:file("over"),
    ok = seqaudit_trace:start(#{name => Name, bytes => 65_536}),
    seqaudit_trace:with_trace(1,
                              fun() -> [seq_trace:print({number, K})
                                        || K <- lists:seq(1, 20_000)] end),
    {ok, #{events := Events, dropped := Dropped}} = seqaudit_trace:stop(),
    true = abs(Events + Dropped - 20_000) < 500,
    {ok, [#{events := Kept}]} = seqaudit_test_files:read(Name ++ ".events"),
    {seq_trace, 1, {print, _, _, _, {number, 20_000}}} = lists:last(Kept),
    {seq_trace, 1, {print, _, _, _, {number, First}}} = hd(Kept),
    First = 20_001 - Events.

%% Runs a test of this name on a second node, with the words that name it on a command line.
on_another(What, Test) ->
    {timeout, 120, fun() ->
        seqaudit_test_nodes:with_second(What,
                                        fun(There) ->
                                            Test(There, ["--node ", atom_to_list(There)]) end)
    end}.

%% On a terminal, Ctrl-C ends the collecting as --seconds does. Meanwhile the command is a hidden
%% node.
collect_until_ctrl_c_test_() ->
    on_another("collect until ctrl c", fun(There, Node) ->
        case os:find_executable("python3") of
            false -> io:format(user, "Ctrl-C: skipped, there is no python3 to press it~n", []);
            _ ->
                Name = seqaudit_audits:file("ctrl_c"),
                _ = file:delete(Name ++ ".press"),
                _ = begin_run([press(), Name, ".press 300 ", node_command(), " collect ", Node,
                               " -o ", Name],
                              cookie()),
                seqaudit_test_nodes:print_when_traced(There),
                Hidden = erpc:call(There, erlang, nodes, [hidden]),
                [_] = [N || N <- Hidden, string:prefix(atom_to_list(N), "seqaudit_") =/= nomatch,
                            N =/= node()],
                Here = node(),
                [Here] = erpc:call(There, erlang, nodes, []),
                ok = file:write_file(Name ++ ".press", ""),
                {0, Said} = ended(),
                {_, _} = binary:match(Said, <<"until Ctrl-C">>),
                {_, _} = binary:match(Said, <<"1 event of 1 process">>),
                false = erpc:call(There, seq_trace, get_system_tracer, [])
        end
    end).

press() ->
    filename:join(filename:dirname(filename:dirname(seqaudit_audits:file("x"))),
                  "press_ctrl_c.py ").

%% SIGTERM too.
collect_until_kill_test_() ->
    on_another("collect until kill", fun(There, Node) ->
        Name = seqaudit_audits:file("sigterm"),
        {0, Said} = terminated_when([node_command(), " collect ", Node, " -o ", Name], Name,
                                    fun() -> seqaudit_test_nodes:print_when_traced(There) end),
        {_, _} = binary:match(Said, <<"1 event of 1 process">>),
        false = erpc:call(There, seq_trace, get_system_tracer, []),
        %% The node traced and did nothing else: only what collects is loaded there.
        Loaded = [Module || {Module, _} <- erpc:call(There, code, all_loaded, []),
                            string:prefix(atom_to_list(Module), "seqaudit_") =/= nomatch],
        [] = Loaded -- [seqaudit_trace, seqaudit_asker, seqaudit_collector, seqaudit_scribe,
                        seqaudit_spool,
                        seqaudit_trigger, seqaudit_watch, seqaudit_test_server]
    end).

%% Calls of a function set the token, with timestamps, until the end; the program has no word of it.
trigger_test_() ->
    on_another("trigger", fun(There, Node) ->
        ok = erpc:call(There, seqaudit_test_server, begin_shop, []),
        Name = seqaudit_audits:file("trigger"),
        {0, Said} = terminated_when([node_command(), " collect ", Node, " --trigger ",
                                 "'seqaudit_test_server:order/1' --label '{order, 7}' --times -o ",
                                     Name], Name,
                                fun() ->
                                    seqaudit_test_nodes:until(fun() -> is_triggered(There) end),
                                    7 = erpc:call(There, seqaudit_test_server, order, [7])
                                end),
        {_, _} = binary:match(Said,
                              <<"; calls that fit seqaudit_test_server:order/1 set the token">>),
        #{{label, <<"{order,7}">>} := _} = seqaudit_test_traces:terms(Name),
        {Times, Messages} = seqaudit_test_traces:times(Name),
        true = Times >= 4 andalso length(Messages) >= 2,
        [] = [Took || Took <- Messages, Took < 0 orelse Took > 60_000_000_000],
        seqaudit_audits:fits(Name),
        %% Afterwards nothing is traced, and no token is left.
        {[], false} = traced(There),
        {sequential_trace_token, []} = erpc:call(There, seqaudit_test_server, shop_token, [])
    end).

is_triggered(There) ->
    {[call], local} =:= traced(There).

%% How new processes and the shop's function are traced there. From OTP 27 on a trigger has a
%% session of its own.
traced(There) ->
    Order = {seqaudit_test_server, order, 1},
    case code:ensure_loaded(trace) of
        {module, trace} ->
            [New, Function] =
                [lists:keymember(seqaudit, 1, erpc:call(There, trace, session_info, [What]))
                 || What <- [new, Order]],
            {[call || New], Function andalso local};
        {error, _} ->
            {flags, Flags} = erpc:call(There, erlang, trace_info, [new, flags]),
            {traced, Traced} = erpc:call(There, erlang, trace_info, [Order, traced]),
            {Flags, Traced}
    end.

%% A cookie comes from a file or a variable too, so that nobody sees it on the command line.
cookies_test_() ->
    on_another("cookies", fun(_There, Node) ->
        Name = seqaudit_audits:file("cookies"),
        Cookie = atom_to_list(erlang:get_cookie()),
        ok = file:write_file(Name ++ ".cookie", [Cookie, $\n]),
        Collect = [node_command(), " collect ", Node, " --seconds 1 -o ", Name],
        {0, _} = run([Collect, " --cookie-file ", Name, ".cookie"], []),
        {0, _} = run([Collect, " --cookie ", Cookie], [{"SEQAUDIT_COOKIE", "wrong"}]),
        {4, Wrong} = run(Collect, [{"SEQAUDIT_COOKIE", "wrong"}]),
        {_, _} = binary:match(Wrong, <<"is the cookie the same">>),
        {4, NoFile} = run([Collect, " --cookie-file /no/such/file"], []),
        {_, _} = binary:match(NoFile, <<"the cookie can't be used: /no/such/file: no such file">>)
    end).

%% Files with the contents of messages are their owner's alone, and so is the folder on the node.
file_modes_test() ->
    Name = seqaudit_audits:file("modes"),
    [ok = file:write_file(Name ++ Suffix, "") || Suffix <- [".events", ".terms"]],
    [ok = file:change_mode(Name ++ Suffix, 8#644) || Suffix <- [".events", ".terms"]],
    ok = seqaudit_trace:start(#{name => Name}),
    [{_, Folder}] = seqaudit_trace:folders(),
    8#700 = seqaudit_audits:mode(Folder),
    seqaudit_trace:with_trace(1, [print, timestamp], fun() -> seq_trace:print(x) end),
    {ok, #{files := Files}} = seqaudit_trace:stop(),
    6 = length(Files),
    [8#600 = seqaudit_audits:mode(File) || File <- Files].

%% A command that can't be understood gets a sentence, without a stack.
collect_errors_test_() ->
    {timeout, 60, fun() ->
        Name = seqaudit_audits:file("errors"),
        [begin
             {3, Text} = run([node_command(), " collect -o ", Name, $\s, Words], []),
             {_, _} = binary:match(Text, Part),
             nomatch = binary:match(Text, [<<"erl:">>, <<"badmatch">>, <<"{error">>])
         end || {Words, Part} <-
                    [{"--node nohost",
                      <<"nohost isn't the name of a node; it is written name@host">>},
                     {"--node @h", <<"@h isn't the name of a node">>},
                     {"--node a@h --bytes -5", <<"--bytes can't be -5">>},
                     {"--node a@h --bytes many", <<"--bytes can't be many">>},
                     {"--node a@h --seconds 0", <<"--seconds can't be 0">>},
                     {"--node a@h --trigger shop --label 1", <<"shop isn't a function">>},
                     {"--node a@h --trigger shop:order/2", <<"--trigger and --label go together">>},
                     {"--node a@h --trigger a:b/1 --label '{x'",
                      <<"{x can't be a label; it is an Erlang term">>},
                     {"--node a@h --times", <<"--times goes with --trigger">>},
                     {"--node a@h --frobnicate", <<"collect has no option --frobnicate">>}]],
        {3, Small} =
            run([node_command(), " collect --node nobody@localhost --cookie c --bytes 10 -o ",
                 Name], []),
        {_, _} = binary:match(Small,
                              <<"--bytes can't be 10; it takes a whole number from 65536 to ">>)
    end}.
